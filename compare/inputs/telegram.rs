//! Telegrams to be read: made by hand here, not by either of the writers that are compared.
use crate::random::Random;

pub const SD1: u8 = 0x10;
pub const SD2: u8 = 0x68;
pub const SD3: u8 = 0xA2;
pub const SD4: u8 = 0xDC;
pub const SC: u8 = 0xE5;
pub const ED: u8 = 0x16;

const REQUESTS: [u8; 12] = [0x80, 0, 3, 4, 5, 6, 7, 9, 0xC, 0xD, 0xE, 0xF];
const STATUSES: [u8; 9] = [0, 1, 2, 3, 8, 9, 0xA, 0xC, 0xD];

/// The bytes da, sa, fc as they stand in the telegram, then SAPs and PDU: whatever they are, the frame around them is good.
pub fn framed(start: u8, content: &[u8]) -> Vec<u8> {
    let mut bytes = vec![start];
    if start == SD2 {
        let length = content.len() as u8;
        bytes.extend([length, length, SD2]);
    }
    bytes.extend(content);
    bytes.push(content.iter().fold(0, |sum: u8, byte| sum.wrapping_add(*byte)));
    bytes.push(ED);
    bytes
}

/// A function code that is read, a response's bit 7 at random.
pub fn good_code(random: &mut Random) -> u8 {
    if random.once_in(2) {
        0x40 | random.pick(&[0x00, 0x10, 0x20, 0x30]) | random.pick(&REQUESTS)
    } else {
        random.pick(&[0x00, 0x80]) | random.pick(&[0x00, 0x10, 0x20, 0x30]) | random.pick(&STATUSES)
    }
}

/// A telegram that is read, with at most `longest` bytes behind the function code; not always as a writer writes it.
pub fn good(random: &mut Random, longest: usize) -> Vec<u8> {
    let start = random.pick(&[SD1, SD2, SD2, SD2, SD3]);
    let behind = match start {
        SD1 => 0,
        SD3 => 8,
        _ => random.between(0, longest),
    };
    let mut content = vec![random.byte(), random.byte(), good_code(random)];
    // The SAPs that the top bits ask for must have a place.
    if behind < 2 {
        content[1] &= 0x7F;
    }
    if behind < 1 {
        content[0] &= 0x7F;
    }
    content.extend(random.bytes(behind));
    let mut telegram = framed(start, &content);
    if start == SD2 && random.once_in(4) {
        telegram[3] = random.byte();
    }
    telegram
}

/// Every single damage: a bit changed, a byte dropped or doubled, the end cut off, bytes behind.
pub fn damaged(telegram: &[u8]) -> Vec<Vec<u8>> {
    let mut copies = Vec::new();
    for place in 0..telegram.len() {
        for bit in 0..8 {
            let mut copy = telegram.to_vec();
            copy[place] ^= 1 << bit;
            copies.push(copy);
        }
        copies.push(telegram[..place].to_vec());
        copies.push([&telegram[..place], &telegram[place + 1..]].concat());
        copies.push([&telegram[..=place], &telegram[place..]].concat());
    }
    for behind in [vec![0x00], vec![ED], vec![SC, SC], telegram.to_vec()] {
        copies.push([telegram, &behind].concat());
    }
    copies
}

/// One to three random changes, each at a random place.
pub fn shaken(random: &mut Random, telegram: &[u8]) -> Vec<u8> {
    let mut copy = telegram.to_vec();
    for _ in 0..random.between(1, 3) {
        let place = random.below(copy.len().max(1));
        match random.below(5) {
            _ if copy.is_empty() => copy.push(random.byte()),
            0 => copy[place] = random.byte(),
            1 => copy[place] = copy[place].wrapping_add(1),
            2 => copy.truncate(place),
            3 => copy.insert(place, random.byte()),
            _ => drop(copy.remove(place)),
        }
    }
    copy
}

/// A telegram of each form, with every value in every place in turn.
pub fn with_every_value(random: &mut Random) -> Vec<Vec<u8>> {
    let long = [vec![0x85, 0x82, 0x5C], random.bytes(8)].concat();
    let mut all = Vec::new();
    for telegram in [framed(SD1, &[5, 2, 0x49]), framed(SD2, &long[..6]), framed(SD3, &long), vec![SD4, 5, 2]] {
        for place in 0..telegram.len() {
            for value in 0..=255 {
                let mut copy = telegram.clone();
                copy[place] = value;
                all.push(copy);
            }
        }
    }
    all
}
