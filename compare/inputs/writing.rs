//! `write`, `wtoken`, `wack`, `wstatus`, `wstate`, and the function code's own commands, in the Rust's domain.
use crate::chunks::{hex, Chunks};
use crate::random::Random;
use crate::telegram::good_code;

/// What a `write` names.
pub struct Write {
    pub addresses: [u8; 2],
    pub saps: [Option<u8>; 2],
    pub code: u8,
    pub pdu: Vec<u8>,
}

impl Write {
    pub fn length_byte(&self) -> usize {
        3 + self.saps.iter().flatten().count() + self.pdu.len()
    }

    pub fn total(&self) -> usize {
        match self.length_byte() {
            3 => 6,
            11 => 14,
            length => length + 6,
        }
    }

    pub fn command(&self, room: usize) -> String {
        let [da, sa] = self.addresses;
        let [dsap, ssap] = self.saps.map(|sap| sap.map_or("-".to_string(), |sap| sap.to_string()));
        format!("write {da} {sa} {dsap} {ssap} {} {} {room}", self.code, hex(&self.pdu))
    }
}

/// With the SAPs that the two bits of `which` ask for.
pub fn saps(which: usize, random: &mut Random) -> [Option<u8>; 2] {
    let given = [random.byte(), random.byte()];
    [(which & 1 != 0).then_some(given[0]), (which & 2 != 0).then_some(given[1])]
}

pub fn make(chunks: &mut Chunks, seed: u64, size: usize) {
    codes(chunks);
    addresses(chunks);
    lengths(chunks, &mut Random::new(seed, "write-lengths"));
    service_access_points(chunks);
    short_telegrams(chunks);
    status_telegrams(chunks);
    random(chunks, &mut Random::new(seed, "write"), size / 2);
}

/// Every function code, those that are not read too; the counting of the frame count bit but for Inactive.
fn codes(chunks: &mut Chunks) {
    for code in 0..=255 {
        chunks.push("codes", &format!("fc {code}"));
        for length in [0, 1, 8] {
            let write = Write { addresses: [5, 2], saps: [None, None], code, pdu: vec![0x11; length] };
            chunks.push("write", &write.command(20));
        }
    }
    for fcb in ["First", "High", "Low"] {
        chunks.push("codes", &format!("cycle {fcb}"));
    }
}

fn addresses(chunks: &mut Chunks) {
    for da in 0..=127 {
        for sa in 0..=127 {
            let write = Write { addresses: [da, sa], saps: [None, None], code: 0x6D, pdu: Vec::new() };
            chunks.push("write", &write.command(6));
        }
    }
}

/// Every length of the PDU with every choice of SAPs, in just its room, one more, and the bench's largest.
fn lengths(chunks: &mut Chunks, random: &mut Random) {
    for length in 0..=246 {
        for which in 0..4 {
            let write =
                Write { addresses: [127, 126], saps: saps(which, random), code: 0x5C, pdu: random.bytes(length) };
            if write.length_byte() > 249 {
                continue;
            }
            for room in [write.total(), write.total() + 1, 255, 1_024] {
                chunks.push("write", &write.command(room));
            }
        }
    }
}

fn service_access_points(chunks: &mut Chunks) {
    for sap in 0..=255 {
        for other in [None, Some(0), Some(62), Some(255)] {
            for length in [0, 6, 7] {
                let write = |saps| Write { addresses: [1, 3], saps, code: 0x08, pdu: vec![0x80; length] };
                chunks.push("write", &write([Some(sap), other]).command(20));
                chunks.push("write", &write([other, Some(sap)]).command(20));
            }
        }
    }
}

/// A token's addresses are whole bytes.
fn short_telegrams(chunks: &mut Chunks) {
    for da in 0..=255 {
        for sa in 0..=255 {
            chunks.push("wtoken", &format!("wtoken {da} {sa} {}", 3 + (da ^ sa) % 3));
        }
    }
    for room in 1..=1_024 {
        chunks.push("wack", &format!("wack {room}"));
    }
}

/// Every pair of addresses, every state and status, those that are none too, and many rooms.
fn status_telegrams(chunks: &mut Chunks) {
    for da in 0..=127 {
        for sa in 0..=127 {
            chunks.push("wstatus", &format!("wstatus {da} {sa} {}", 6 + (da ^ sa) % 3));
            chunks.push("wstate", &format!("wstate {da} {sa} {} {} 6", da % 4, [0, 1, 2, 3, 8, 9, 10, 12, 13][sa % 9]));
        }
    }
    for state in (0..=5).chain([255]) {
        for status in (0..=17).chain([255]) {
            chunks.push("wstate", &format!("wstate 5 2 {state} {status} {}", 6 + state % 2));
        }
    }
    for room in 6..=1_024 {
        chunks.push("wstatus", &format!("wstatus 127 0 {room}"));
        chunks.push("wstate", &format!("wstate 0 127 3 8 {room}"));
    }
}

fn random(chunks: &mut Chunks, random: &mut Random, size: usize) {
    for _ in 0..size {
        let which = random.below(4);
        let longest = random.pick(&[0, 2, 8, 9, 9, 30, 100]);
        let length = random.between(0, longest);
        let write = Write {
            addresses: [random.below(128) as u8, random.below(128) as u8],
            saps: saps(which, random),
            code: good_code(random),
            pdu: random.bytes(length),
        };
        let more = random.below(12);
        chunks.push("write", &write.command(write.total() + more));
    }
}
