//! Commands outside the Rust's domain, where document 01 decides: each is one that the differ has a rule for.
use crate::chunks::{hex, Chunks};
use crate::diagnostics::{blocks, zero_length};
use crate::random::Random;
use crate::telegram::good_code;
use crate::writing::{saps, Write};

const HIGHEST: usize = 125;

pub fn make(chunks: &mut Chunks, seed: u64) {
    chunks.push("codes", "cycle Inactive");
    let random = &mut Random::new(seed, "outside");
    large_addresses(chunks, random);
    too_long(chunks, random);
    no_room(chunks, random);
    own_addresses(chunks);
    set_and_removed(chunks, random);
    zero_lengths(chunks, random);
    empty_stores(chunks);
    long_walks(chunks, random);
}

/// da or sa above 127, alone and with the other refusals' reasons beside it.
fn large_addresses(chunks: &mut Chunks, random: &mut Random) {
    for large in 128..=255 {
        for addresses in [[large, 0], [0, large], [large, large]] {
            for which in 0..4 {
                for (length, room) in [(0, 20), (1, 20), (8, 20), (247, 300), (246, 254), (2, 3), (0, 0)] {
                    let write = Write { addresses, saps: saps(which, random), code: 0, pdu: random.bytes(length) };
                    chunks.push("write", &write.command(room));
                }
            }
            let [da, sa] = addresses;
            for room in [0, 6, 20] {
                chunks.push("wstatus", &format!("wstatus {da} {sa} {room}"));
                chunks.push("wstate", &format!("wstate {da} {sa} 0 8 {room}"));
            }
        }
    }
}

/// A length byte above 249, with room and without.
fn too_long(chunks: &mut Chunks, random: &mut Random) {
    for which in 0..4 {
        for length in (245..=260).chain([300, 508, 512, 1_000, 4_200]) {
            let write = Write { addresses: [5, 2], saps: saps(which, random), code: 0x6C, pdu: random.bytes(length) };
            if write.length_byte() > 249 {
                for room in [0, 254, 255, 300, 1_024] {
                    chunks.push("write", &write.command(room));
                }
            }
        }
    }
}

/// Every room below the telegram's total.
fn no_room(chunks: &mut Chunks, random: &mut Random) {
    for which in 0..4 {
        for length in [0, 1, 2, 6, 7, 8, 9, 30] {
            let write = Write {
                addresses: [5, 2],
                saps: saps(which, random),
                code: good_code(random),
                pdu: random.bytes(length),
            };
            for room in 0..write.total() {
                chunks.push("write", &write.command(room));
            }
        }
    }
    for length in 0..=244 {
        let write = Write { addresses: [5, 2], saps: saps(3, random), code: 0x6C, pdu: random.bytes(length) };
        chunks.push("write", &write.command(write.total() - 1));
    }
    for room in 0..3 {
        chunks.push("wtoken", &format!("wtoken 5 2 {room}"));
        chunks.push("wtoken", &format!("wtoken 255 255 {room}"));
    }
    chunks.push("wack", "wack 0");
    for room in 0..6 {
        chunks.push("wstatus", &format!("wstatus 5 2 {room}"));
        chunks.push("wstate", &format!("wstate 5 2 0 0 {room}"));
    }
}

fn own_addresses(chunks: &mut Chunks) {
    for own in HIGHEST + 1..=255 {
        chunks.push("ring", &format!("ring {own}"));
        chunks.push("ring", &format!("ring {own} c s:3 w:3:3"));
        chunks.push("ready", &format!("ready {own} c"));
    }
}

/// Every address that is none, set and removed in walks of good calls.
fn set_and_removed(chunks: &mut Chunks, random: &mut Random) {
    for address in HIGHEST + 1..=255 {
        for op in ["s", "r"] {
            let bad = format!("{op}:{address}");
            let [a, b, c] = [(); 3].map(|()| random.between(0, HIGHEST));
            chunks.push("ring", &format!("ring {a} {bad}"));
            chunks.push("ready", &format!("ready {a} {bad} c {bad}"));
            chunks.push("ring", &format!("ring {a} s:{b} {bad} w:{c}:{b} {bad} c r:{b} {bad} s:{a}"));
            chunks.push("ring", &format!("ring {a} w:{b}:{b} w:{c}:{a} {bad} w:{a}:{c} {bad}"));
        }
    }
}

/// A block of length zero, alone, behind others and before others.
fn zero_lengths(chunks: &mut Chunks, random: &mut Random) {
    for zero in [0x00, 0x40] {
        for behind in [vec![], vec![0x00], vec![0x01], vec![0x42, 0x05], vec![0xC0]] {
            let bytes = [vec![zero], behind].concat();
            chunks.push("diag", &format!("diag {}", hex(&bytes)));
            chunks.push("step", &format!("step {} {} 0", hex(&bytes), bytes.len()));
            chunks.push("store", &format!("store 9 {}", hex(&bytes)));
        }
        for _ in 0..400 {
            let bytes = [blocks(random, 6), vec![zero], blocks(random, 6)].concat();
            let Some(place) = zero_length(&bytes, 0) else { continue };
            chunks.push("diag", &format!("diag {}", hex(&bytes)));
            chunks.push("step", &format!("step {} {} {place}", hex(&bytes), bytes.len()));
            chunks.push("step", &format!("step {} {} {place}", hex(&bytes), place + 1));
            chunks.push("store", &format!("store 200 {} {}", hex(&bytes), hex(&[0x01; 201])));
        }
    }
}

fn empty_stores(chunks: &mut Chunks) {
    chunks.push("diag", "diag -");
    for length in 0..3 {
        for cursor in 0..3 {
            chunks.push("step", &format!("step - {length} {cursor}"));
        }
    }
    for data in ["-", "00", "01", "4205", "- 01 -"] {
        chunks.push("store", &format!("store 0 {data}"));
    }
}

/// A walked length above the store.
fn long_walks(chunks: &mut Chunks, random: &mut Random) {
    for _ in 0..300 {
        let store = blocks(random, 6);
        chunks.push("raw", &format!("raw {} {}", hex(&store), store.len() + random.between(1, 40)));
        for cursor in 0..store.len() + 3 {
            if cursor >= store.len() || store[cursor] & 0xBF != 0 {
                let length = store.len() + random.between(1, 40);
                chunks.push("step", &format!("step {} {length} {cursor}", hex(&store)));
            }
        }
    }
}
