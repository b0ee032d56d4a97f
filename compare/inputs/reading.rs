//! `read` and `about`: every byte string is in the Rust's domain.
use crate::chunks::{hex, Chunks};
use crate::random::Random;
use crate::telegram::{damaged, framed, good, shaken, with_every_value, ED, SC, SD1, SD2, SD3, SD4};

const LONGEST_BYTES: usize = 4_200;

fn read(chunks: &mut Chunks, family: &'static str, bytes: &[u8]) {
    chunks.push(family, &format!("read {}", hex(bytes)));
}

fn about(chunks: &mut Chunks, bytes: &[u8]) {
    chunks.push("about", &format!("about {}", hex(bytes)));
}

pub fn make(chunks: &mut Chunks, seed: u64, size: usize) {
    short(chunks);
    three_bytes(chunks);
    length_bytes(chunks);
    function_codes(chunks);
    addresses(chunks);
    lengths(chunks, &mut Random::new(seed, "lengths"));
    ends(chunks);
    every_value(chunks, &mut Random::new(seed, "values"));
    damages(chunks, &mut Random::new(seed, "damages"));
    random_telegrams(chunks, &mut Random::new(seed, "telegrams"), size);
    random_bytes(chunks, &mut Random::new(seed, "bytes"), size);
}

/// Every byte string of up to two bytes.
fn short(chunks: &mut Chunks) {
    read(chunks, "read-short", &[]);
    for first in 0..=255 {
        read(chunks, "read-short", &[first]);
        about(chunks, &[first]);
        for second in 0..=255 {
            read(chunks, "read-short", &[first, second]);
        }
    }
    about(chunks, &[]);
}

/// Every token; of the other delimiters three bytes with each value in each place.
fn three_bytes(chunks: &mut Chunks) {
    for da in 0..=255 {
        for sa in 0..=255 {
            read(chunks, "read-token", &[SD4, da, sa]);
        }
        about(chunks, &[SD4, da, 255 - da]);
        for start in [SD1, SD2, SD3, SC, ED, 0x00, 0x7F, 0xFF] {
            for other in [0, 3, 4, 0x68, 0xFF] {
                read(chunks, "read-short", &[start, da, other]);
                read(chunks, "read-short", &[start, other, da]);
            }
        }
    }
}

/// Every pair of length bytes, in six bytes and in five.
fn length_bytes(chunks: &mut Chunks) {
    for first in 0..=255 {
        for second in 0..=255 {
            read(chunks, "read-length-bytes", &[SD2, first, second, 0, 0, 0]);
        }
        read(chunks, "read-length-bytes", &[SD2, first, first, 0, 0]);
        read(chunks, "read-length-bytes", &[SD2, first, first.wrapping_add(1), 0, 0]);
    }
}

/// Every function code in every form, with and without SAPs, and with each of the later checks failing too: which refusal
/// comes first.
fn function_codes(chunks: &mut Chunks) {
    for code in 0..=255 {
        for (start, behind) in [(SD1, 0), (SD2, 0), (SD2, 1), (SD2, 2), (SD3, 8)] {
            for (da, sa) in [(5, 2), (0x85, 2), (5, 0x82), (0x85, 0x82)] {
                let content = [vec![da, sa, code], vec![0x3C; behind]].concat();
                let whole = framed(start, &content);
                about(chunks, &whole);
                for (checksum, end) in [(0, 0), (1, 0), (0, 1), (1, 1)] {
                    let mut telegram = whole.clone();
                    let last = telegram.len() - 1;
                    telegram[last - 1] = telegram[last - 1].wrapping_add(checksum);
                    telegram[last] += end;
                    read(chunks, "read-codes", &telegram);
                }
            }
        }
    }
}

/// Every pair of address bytes, with no byte behind the function code, one and two.
fn addresses(chunks: &mut Chunks) {
    for da in 0..=255u8 {
        for sa in 0..=255u8 {
            let code = if da % 2 == 0 { 0x5C } else { 0x08 };
            read(chunks, "read-addresses", &framed(SD2, &[da, sa, code, da ^ sa, 0x77]));
        }
        for sa in [0, 1, 125, 126, 127, 128, 129, 253, 254, 255] {
            read(chunks, "read-addresses", &framed(SD1, &[da, sa, 0x6C]));
            read(chunks, "read-addresses", &framed(SD1, &[sa, da, 0x6C]));
            read(chunks, "read-addresses", &framed(SD2, &[da, sa, 0x6C, 0x3D]));
            read(chunks, "read-addresses", &framed(SD2, &[sa, da, 0x6C, 0x3D]));
            read(chunks, "read-addresses", &framed(SD3, &[da, sa, 0x6C, 1, 2, 3, 4, 5, 6, 7, 8]));
        }
    }
}

/// Every length byte, whole and one byte to either side of the total, and at the first six bytes.
fn lengths(chunks: &mut Chunks, random: &mut Random) {
    for length in 3..=255 {
        for tops in [0x0000, 0x8000, 0x0080, 0x8080u16] {
            let [da, sa] = (tops | 0x0502).to_be_bytes();
            let content = [vec![da, sa, 0x7D], random.bytes(length - 3)].concat();
            let telegram = framed(SD2, &content);
            let total = telegram.len();
            read(chunks, "read-lengths", &telegram);
            read(chunks, "read-lengths", &telegram[..total - 1]);
            read(chunks, "read-lengths", &telegram[..total - 2]);
            read(chunks, "read-lengths", &telegram[..total - 3]);
            read(chunks, "read-lengths", &telegram[..6]);
            read(chunks, "read-lengths", &[&telegram[..], &[0xE5]].concat());
            about(chunks, &telegram);
        }
    }
}

/// Every checksum with every end delimiter.
fn ends(chunks: &mut Chunks) {
    for checksum in 0..=255 {
        for end in 0..=255 {
            read(chunks, "read-ends", &[SD1, 5, 2, 0x6C, checksum, end]);
        }
    }
}

fn every_value(chunks: &mut Chunks, random: &mut Random) {
    for copy in with_every_value(random) {
        read(chunks, "read-values", &copy);
        about(chunks, &copy);
    }
}

fn damages(chunks: &mut Chunks, random: &mut Random) {
    for longest in [2, 4, 8, 12, 24, 40] {
        for _ in 0..20 {
            for copy in damaged(&good(random, longest)) {
                read(chunks, "read-damaged", &copy);
            }
        }
    }
    let longest = [vec![0x85, 0x82, 0x5C], random.bytes(246)].concat();
    for content in [&longest[..], &longest[..100]] {
        for copy in damaged(&framed(SD2, content)) {
            read(chunks, "read-damaged", &copy);
        }
    }
}

fn random_telegrams(chunks: &mut Chunks, random: &mut Random, size: usize) {
    for round in 0..size {
        let longest = random.pick(&[0, 1, 2, 3, 5, 8, 9, 20, 60]);
        let telegram = good(random, longest);
        read(chunks, "read-random", &telegram);
        let shaken = shaken(random, &telegram);
        read(chunks, "read-random", &shaken);
        if round % 4 == 0 {
            about(chunks, &telegram);
            about(chunks, &shaken);
        }
        if round % 32 == 0 {
            let long = good(random, 252);
            read(chunks, "read-random", &long);
        }
    }
}

/// Random bytes behind a first byte, and up to the longest byte string that the bench takes.
fn random_bytes(chunks: &mut Chunks, random: &mut Random, size: usize) {
    for _ in 0..size / 2 {
        let start = random.pick(&[SD1, SD2, SD3, SD4, SC, ED, 0x00, 0xFF]);
        let length = random.between(2, 20);
        let bytes = [vec![start], random.bytes(length)].concat();
        read(chunks, "read-random", &bytes);
    }
    for length in [255, 256, 261, 262, 1_000, 4_095, 4_096, 4_097, LONGEST_BYTES - 1, LONGEST_BYTES] {
        for start in [SD1, SD2, SD3, SD4, SC, 0x00] {
            let mut bytes = [vec![start], random.bytes(length - 1)].concat();
            read(chunks, "read-long", &bytes);
            let telegram = good(random, 252);
            bytes[..telegram.len().min(length)].copy_from_slice(&telegram[..telegram.len().min(length)]);
            read(chunks, "read-long", &bytes);
        }
    }
}
