//! `sread`: the original has one mode of reading, our default. Bytes with a tidy start must be answered as the original reads
//! them; those with a sloppy one stand outside, where request 2026-05 decides.
use crate::chunks::{hex, Chunks};
use crate::random::Random;
use crate::telegram::{framed, good, shaken, with_every_value, SD2};

pub struct Strict<'a> {
    pub inside: &'a mut Chunks,
    pub outside: &'a mut Chunks,
}

/// Strict mode has something against these bytes that the original has not.
fn is_sloppy(bytes: &[u8]) -> bool {
    match *bytes {
        [SD2, length, again, fourth, _, _, ..] => {
            length == again && length >= 3 && !((4..=249).contains(&length) && fourth == SD2)
        }
        _ => false,
    }
}

impl Strict<'_> {
    fn read(&mut self, bytes: &[u8]) {
        let chunks = if is_sloppy(bytes) { &mut *self.outside } else { &mut *self.inside };
        chunks.push("sread", &format!("sread {}", hex(bytes)));
    }

    pub fn make(&mut self, seed: u64, size: usize) {
        self.starts();
        self.lengths(&mut Random::new(seed, "strict lengths"));
        self.every_value(&mut Random::new(seed, "strict values"));
        self.random_telegrams(&mut Random::new(seed, "strict telegrams"), size / 4);
    }

    /// Every length byte with every fourth byte, and with every third, in six bytes; in five the fourth alone.
    fn starts(&mut self) {
        for length in 0..=255 {
            for other in 0..=255 {
                self.read(&[SD2, length, length, other, 0, 0]);
                self.read(&[SD2, length, other, 0, 0, 0]);
            }
            self.read(&[SD2, length, length, 0, 0]);
        }
    }

    /// Every length byte, the telegram whole and a byte short of it, with its delimiter again and with other bytes there.
    fn lengths(&mut self, random: &mut Random) {
        for length in 3..=255 {
            let mut telegram = framed(SD2, &[vec![5, 2, 0x7D], random.bytes(length - 3)].concat());
            for fourth in [SD2, 0x00, 0x67, 0x69, 0xFF, telegram[1]] {
                telegram[3] = fourth;
                self.read(&telegram);
                self.read(&telegram[..telegram.len() - 1]);
            }
        }
    }

    fn every_value(&mut self, random: &mut Random) {
        for copy in with_every_value(random) {
            self.read(&copy);
        }
    }

    fn random_telegrams(&mut self, random: &mut Random, count: usize) {
        for _ in 0..count {
            let longest = random.pick(&[0, 1, 2, 3, 5, 8, 9, 20, 60, 252]);
            let mut telegram = good(random, longest);
            self.read(&telegram);
            self.read(&shaken(random, &telegram));
            if telegram.len() > 6 {
                telegram[3] = random.bytes(1)[0];
                self.read(&telegram);
            }
        }
    }
}
