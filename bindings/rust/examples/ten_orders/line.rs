//! The line between the two stations: it loses telegrams, damages them and adds noise, but never doubles or delays one.

/// How long a byte takes.
pub const BYTE: usize = 22;
/// The bytes come out of the serial port in portions of so many at most.
pub const PORTION: usize = 16;

#[derive(Clone, Copy, Debug, PartialEq)]
pub enum Station {
    HeadEnd,
    Cabinet,
}

/// Bytes that have come in at a station, and when the last of them did.
pub struct Portion {
    pub at: usize,
    pub to: Station,
    pub bytes: Vec<u8>,
}

pub struct Line {
    random: u64,
    on_the_way: Vec<Portion>,
}

/// How long so many bytes take.
pub fn duration(len: usize) -> usize {
    BYTE * len
}

impl Line {
    pub fn new(seed: u64) -> Line {
        Line { random: seed, on_the_way: Vec::new() }
    }

    /// Some number below n.
    pub fn below(&mut self, n: u64) -> u64 {
        self.random = self.random.wrapping_mul(6_364_136_223_846_793_005).wrapping_add(1_442_695_040_888_963_407);
        (self.random >> 33) % n
    }

    pub fn send(&mut self, now: usize, to: Station, telegram: &[u8]) {
        let mut bytes = telegram.to_vec();
        match self.below(16) {
            0..=2 => bytes.clear(),
            3 => {
                let at = self.below(bytes.len() as u64) as usize;
                bytes[at] ^= 0x10;
            }
            // Noise that announces a telegram of 261 bytes.
            4 => drop(bytes.splice(0..0, [0x68, 0xFF, 0xFF, 0x68])),
            5 => drop(bytes.splice(0..0, [0x00, 0xA2])),
            _ => {}
        }
        let mut at = now;
        for portion in bytes.chunks(PORTION) {
            at += duration(portion.len());
            self.on_the_way.push(Portion { at, to, bytes: portion.to_vec() });
        }
    }

    /// When something comes in next.
    pub fn next(&self) -> Option<usize> {
        self.on_the_way.iter().map(|portion| portion.at).min()
    }

    /// What has come in by now, the first of it.
    pub fn take(&mut self, now: usize) -> Option<Portion> {
        let first = self.next().filter(|&at| at <= now)?;
        let at = self.on_the_way.iter().position(|portion| portion.at == first)?;
        Some(self.on_the_way.remove(at))
    }
}
