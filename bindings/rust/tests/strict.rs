//! Strict reading, held against its two checks as they are written here, with the default reader behind them.
use koyandefa::*;

/// What strict mode refuses before the default reader comes to its word: an oracle that calls nothing of the library.
fn gate(bytes: &[u8]) -> Result<(), Refusal> {
    match *bytes {
        [0x68, second, third, _, _, _, ..] if second != third || second < 3 => Ok(()),
        [0x68, 3 | 250..=255, _, _, _, _, ..] => Err(Refusal::LengthNotStandard),
        [0x68, _, _, fourth, _, _, ..] if fourth != 0x68 => Err(Refusal::FourthByte),
        _ => Ok(()),
    }
}

/// The strict answer, which is the gate's or the default reader's. But for 24 and 25 it is that of the default reader, whatever the gate says.
fn judged(bytes: &[u8]) -> Result<Reading<'_>, Refusal> {
    let answer = read_strict(bytes);
    assert_eq!(answer, gate(bytes).and_then(|()| read(bytes)), "{bytes:02X?}");
    if !matches!(answer, Err(Refusal::LengthNotStandard | Refusal::FourthByte)) {
        assert_eq!(answer, read(bytes), "{bytes:02X?}");
    }
    answer
}

/// An SD2 telegram with the checksum and the end that its length byte wants.
fn closed(bytes: &mut [u8]) -> &[u8] {
    let end = usize::from(bytes[1]) + 4;
    bytes[end] = bytes[4..end].iter().fold(0, |sum: u8, byte| sum.wrapping_add(*byte));
    bytes[end + 1] = 0x16;
    &bytes[..end + 2]
}

fn is_read(answer: Result<Reading, Refusal>) -> bool {
    matches!(answer, Ok(Reading::Telegram { .. }))
}

#[test]
fn samples() {
    use Refusal::*;
    for (bytes, refusal) in [
        (&[0x68, 0x03, 0x03, 0x00, 0x00, 0x00][..], LengthNotStandard),
        (&[0x68, 0xFA, 0xFA, 0x68, 0x00, 0x00], LengthNotStandard),
        (&[0x68, 0x05, 0x05, 0x00, 0x00, 0x00], FourthByte),
    ] {
        assert_eq!((read(bytes), judged(bytes)), (Ok(Reading::Incomplete), Err(refusal)));
        assert_eq!(judged(&bytes[..5]), Ok(Reading::Incomplete));
    }
    for (bytes, refusal) in [
        (&[0x68, 0x04, 0x04, 0x00, 0x00, 0x00, 0x00, 0x00, 0x00, 0x16][..], FourthByte),
        (&[0x68, 0x03, 0x03, 0x68, 0x00, 0x00, 0x00, 0x00, 0x16], LengthNotStandard),
    ] {
        assert!(matches!(read(bytes), Ok(Reading::Telegram { bytes: all, .. }) if all == bytes));
        assert_eq!(judged(bytes), Err(refusal));
    }
    for (bytes, refusal) in [
        (&[0x68, 0x02, 0x03, 0x00, 0x00, 0x00][..], LengthsDiffer),
        (&[0x68, 0xFE, 0xFF, 0x00, 0x00, 0x00], LengthsDiffer),
        (&[0x68, 0x02, 0x02, 0x00, 0x00, 0x00], LengthTooSmall),
        (&[0x68, 0x04, 0x04, 0x68, 0x00, 0x00, 0x00, 0x00, 0x01, 0x16], Checksum),
        (&[0xFF], UnknownStart),
    ] {
        assert_eq!((read(bytes), judged(bytes)), (Err(refusal), Err(refusal)));
    }
    assert!(is_read(judged(&[0xE5])) && is_read(judged(&[0xDC, 5, 2])));
    assert!(is_read(judged(&[0x10, 0x05, 0x02, 0x49, 0x50, 0x16])));
    assert_eq!(judged(&[]), Ok(Reading::Incomplete));
}

/// Whole telegrams of each length byte: 4 to 249 are standard, and 11 too, although we write 8 bytes of PDU as SD3.
#[test]
fn standard_lengths() {
    for length in 3..=255 {
        let mut bytes = [0; LONGEST_TELEGRAM];
        bytes[..7].copy_from_slice(&[0x68, length, length, 0x68, 0x05, 0x02, 0x4C]);
        let telegram = closed(&mut bytes);
        assert!(is_read(read(telegram)), "{length}");
        assert_eq!(is_read(judged(telegram)), (4..=249).contains(&length), "{length}");
    }
}

/// Every length byte with every fourth byte, of fewer bytes than are judged, of just so many, and of as many as any telegram has.
#[test]
fn every_start() {
    let mut bytes = [0; LONGEST_TELEGRAM];
    for length in 0..=255 {
        for fourth in 0..=255 {
            bytes[..4].copy_from_slice(&[0x68, length, length, fourth]);
            for bytes in [&bytes[..5], &bytes[..6], &bytes] {
                let _ = judged(bytes);
            }
        }
    }
}

struct Random(u32);

impl Random {
    fn byte(&mut self) -> u8 {
        self.0 = self.0.wrapping_mul(1_664_525).wrapping_add(1_013_904_223);
        (self.0 >> 24) as u8
    }

    fn one_of(&mut self, bytes: &[u8]) -> u8 {
        bytes[usize::from(self.byte()) % bytes.len()]
    }

    /// Mostly bytes of an SD2 telegram with a length byte near a limit; many are whole, with a right checksum and end.
    fn sd2<'a>(&mut self, bytes: &'a mut [u8; LONGEST_TELEGRAM]) -> &'a [u8] {
        bytes.fill_with(|| self.byte());
        bytes[0] = if self.byte() < 240 { 0x68 } else { self.one_of(&[0x10, 0xA2, 0xDC, 0xE5]) };
        bytes[1] = if self.byte() < 200 { self.one_of(&[2, 3, 4, 5, 11, 249, 250, 255]) } else { self.byte() };
        bytes[2] = if self.byte() < 240 { bytes[1] } else { self.byte() };
        bytes[3] = if self.byte() < 160 { 0x68 } else { self.byte() };
        match self.byte() {
            0..=159 => closed(bytes),
            160..=199 => &bytes[..usize::from(self.byte() % 10)],
            _ => &bytes[..6 + usize::from(self.byte())],
        }
    }
}

/// Each kind of answer is met often, and so are telegrams that strict mode refuses and `read` reads.
#[test]
fn random_bytes() {
    let mut random = Random(1);
    let (mut read_strictly, mut incomplete, mut refused, mut sloppy) = (0, 0, [0; 26], [0; 26]);
    for _ in 0..20_000 {
        let mut bytes = [0; LONGEST_TELEGRAM];
        let bytes = random.sd2(&mut bytes);
        match judged(bytes) {
            Ok(Reading::Telegram { .. }) => read_strictly += 1,
            Ok(Reading::Incomplete) => incomplete += 1,
            Err(refusal) => {
                refused[usize::from(refusal.number())] += 1;
                sloppy[usize::from(refusal.number())] += u32::from(is_read(read(bytes)));
            }
        }
    }
    assert!(read_strictly > 500 && incomplete > 500, "{read_strictly} {incomplete}");
    assert!([2, 3, 4, 24, 25].iter().all(|&number: &usize| refused[number] > 500), "{refused:?}");
    assert!(sloppy[24] > 500 && sloppy[25] > 500, "{sloppy:?}");
}
