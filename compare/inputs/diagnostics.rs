//! `diag`, `step`, `raw` and `store` on stores of length above 0 whose walk meets no zero length.
use crate::chunks::{hex, Chunks};
use crate::random::Random;

/// Where the walk of these bytes from `cursor` stands when it meets a block of length zero, if it does.
pub fn zero_length(bytes: &[u8], mut cursor: usize) -> Option<usize> {
    while cursor < bytes.len() {
        let header = bytes[cursor];
        let length = match header >> 6 {
            0b10 => 3,
            0b11 => return None,
            _ if header & 0x3F == 0 => return Some(cursor),
            _ => usize::from(header & 0x3F),
        };
        cursor += length;
    }
    None
}

fn diag(chunks: &mut Chunks, family: &'static str, bytes: &[u8]) {
    if !bytes.is_empty() && zero_length(bytes, 0).is_none() {
        chunks.push(family, &format!("diag {}", hex(bytes)));
    }
}

pub fn make(chunks: &mut Chunks, seed: u64, size: usize) {
    short(chunks);
    channels(chunks);
    headers(chunks, &mut Random::new(seed, "headers"));
    identifier_bits(chunks);
    random_walks(chunks, &mut Random::new(seed, "diag"), size / 2);
    steps(chunks, &mut Random::new(seed, "step"), size / 300);
    raws(chunks, &mut Random::new(seed, "raw"), size / 300);
    stores(chunks, &mut Random::new(seed, "store"), size / 5);
}

fn short(chunks: &mut Chunks) {
    for first in 0..=255 {
        diag(chunks, "diag-short", &[first]);
        for second in 0..=255 {
            diag(chunks, "diag-short", &[first, second]);
        }
    }
}

/// Every second and third byte of a channel block, and every module.
fn channels(chunks: &mut Chunks) {
    for second in 0..=255u8 {
        for third in 0..=255u8 {
            diag(chunks, "diag-channel", &[0x80 | (second ^ third) & 0x3F, second, third]);
        }
    }
}

/// Every header with bodies one shorter, just right, one longer, and with blocks behind.
fn headers(chunks: &mut Chunks, random: &mut Random) {
    for header in 0..=255u8 {
        let length = if header >> 6 == 0b10 { 3 } else { usize::from(header & 0x3F) };
        for body in [length.saturating_sub(3), length.saturating_sub(2), length.saturating_sub(1), length, length + 1] {
            for fill in [0x00, 0xFF, 0x01, 0x80, 0xAA] {
                diag(chunks, "diag-header", &[vec![header], vec![fill; body]].concat());
            }
            diag(chunks, "diag-header", &[vec![header], random.bytes(body)].concat());
        }
        let body = random.bytes(length.saturating_sub(1));
        for behind in [vec![0x01], vec![0x42, 0x10], vec![0x81, 0xC2, 0x27], vec![0xC0], vec![0x81, 0xC2], vec![header]]
        {
            diag(chunks, "diag-header", &[vec![header], body.clone(), behind].concat());
        }
    }
}

/// Every bit alone in every length of an identifier block.
fn identifier_bits(chunks: &mut Chunks) {
    for body in 1..=62 {
        for bit in 0..8 * body {
            let mut bytes = vec![0; body + 1];
            bytes[0] = 0x40 | (body as u8 + 1);
            bytes[1 + bit / 8] = 1 << (bit % 8);
            diag(chunks, "diag-bits", &bytes);
        }
    }
}

/// A block that is whole, with at most `longest` bytes of body.
fn block(random: &mut Random, longest: usize) -> Vec<u8> {
    let body = random.between(0, longest.min(62));
    match random.below(3) {
        0 => [vec![0x80 | random.byte() & 0x3F], random.bytes(2)].concat(),
        kind => [vec![(kind as u8 - 1) << 6 | (body as u8 + 1)], random.bytes(body)].concat(),
    }
}

/// Whole blocks one after the other; now and then one cut off, or any byte, at the end.
pub fn blocks(random: &mut Random, longest: usize) -> Vec<u8> {
    let mut bytes = Vec::new();
    for _ in 0..random.between(1, 6) {
        bytes.extend(block(random, longest));
    }
    match random.below(4) {
        0 => bytes.push(random.byte()),
        1 => bytes.truncate(random.between(1, bytes.len())),
        _ => {}
    }
    bytes
}

fn random_walks(chunks: &mut Chunks, random: &mut Random, size: usize) {
    for _ in 0..size {
        let longest = random.pick(&[1, 3, 10, 62]);
        let walked = blocks(random, longest);
        diag(chunks, "diag-random", &walked);
        let length = random.between(1, 12);
        let bytes = random.bytes(length);
        diag(chunks, "diag-random", &bytes);
    }
    for length in [244, 1_000, 4_200] {
        let mut bytes = Vec::new();
        while bytes.len() < length {
            bytes.extend(block(random, 62));
        }
        diag(chunks, "diag-random", &bytes[..length]);
    }
}

/// Of small stores every walked length up to the store's and every cursor, some past the end.
fn steps(chunks: &mut Chunks, random: &mut Random, size: usize) {
    for _ in 0..size {
        let longest = random.between(1, 12);
        let mut store = blocks(random, 5);
        store.truncate(longest);
        for length in 0..=store.len() {
            for cursor in (0..=store.len() + 2).chain([300]) {
                if cursor >= length || store[cursor] & 0xBF != 0 {
                    chunks.push("step", &format!("step {} {length} {cursor}", hex(&store)));
                }
            }
        }
    }
}

/// Of no store, small ones and large ones every walked length up to the store's, or many. No walk, so any bytes will do.
fn raws(chunks: &mut Chunks, random: &mut Random, size: usize) {
    chunks.push("raw", "raw - 0");
    for round in 0..size {
        let longest = if round % 50 == 0 { 4_200 } else { 12 };
        let store = random.between(1, longest);
        let store = random.bytes(store);
        for length in (0..=store.len()).step_by(store.len() / 12 + 1).chain([store.len()]) {
            chunks.push("raw", &format!("raw {} {length}", hex(&store)));
        }
    }
}

fn stores(chunks: &mut Chunks, random: &mut Random, size: usize) {
    for round in 0..size {
        let room = if round % 50 == 0 { random.between(1, 1_024) } else { random.between(1, 24) };
        let mut command = format!("store {room}");
        let mut filled = Vec::new();
        for _ in 0..random.between(1, 4) {
            let data = match random.below(5) {
                0 => Vec::new(),
                1 => vec![0x01; room],
                2 => vec![0x01; room + 1],
                _ => blocks(random, 10),
            };
            command += &format!(" {}", hex(&data));
            if data.len() <= room {
                filled = data;
            }
        }
        if zero_length(&filled, 0).is_none() {
            chunks.push("store", &command);
        }
    }
}
