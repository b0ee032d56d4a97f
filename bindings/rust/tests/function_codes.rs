//! The function code's conversions agree with the library for all 256 bytes: with what it reads, and with what it writes. The calls
//! are those of koyandefa.h, since the wrapper's own take no byte that is no function code.
use koyandefa::{
    read, write_data, Address, FrameCountBit, FunctionCode, Header, Reading, Refusal, RequestType, Telegram,
};

extern "C" {
    fn koy_read(bytes: *const u8, bytes_len: usize, told: *mut [usize; 9]) -> u8;
    fn koy_write_data(
        da: u8,
        sa: u8,
        dsap: usize,
        ssap: usize,
        fc: u8,
        pdu: *const u8,
        pdu_len: usize,
        buf: *mut u8,
        buf_len: usize,
        told: *mut [usize; 2],
    ) -> u8;
}

/// An SD1 telegram from 2 to 5 with this function code.
fn telegram(fc: u8) -> [u8; 6] {
    [0x10, 5, 2, fc, fc.wrapping_add(7), 0x16]
}

/// The function code that `koy_read` tells of a byte, or its refusal.
fn library_reads(byte: u8) -> Result<u8, u8> {
    let (bytes, mut told) = (telegram(byte), [0; 9]);
    match unsafe { koy_read(bytes.as_ptr(), bytes.len(), &mut told) } {
        0 => Ok(told[6] as u8),
        code => Err(code),
    }
}

/// The function code that `koy_write_data` writes for a byte, and the station that is to reply.
fn library_writes(byte: u8) -> Result<(u8, usize), u8> {
    let (mut buf, mut told) = ([0u8; 6], [0; 2]);
    match unsafe { koy_write_data(5, 2, 256, 256, byte, [].as_ptr(), 0, buf.as_mut_ptr(), 6, &mut told) } {
        0 => Ok((buf[3], told[1])),
        code => Err(code),
    }
}

#[test]
fn every_byte_agrees_with_the_library() {
    let refused = Refusal::FunctionCode.number();
    let mut codes = 0;
    for byte in 0..=255 {
        let ours = FunctionCode::from_byte(byte);
        assert_eq!(FunctionCode::try_from(byte), ours.ok_or(Refusal::FunctionCode));
        assert_eq!(library_reads(byte), ours.map(u8::from).ok_or(refused), "{byte:02X}");
        assert_eq!(library_writes(byte).map(|(fc, _)| fc), ours.map(u8::from).ok_or(refused), "{byte:02X}");
        codes += usize::from(ours.is_some());
    }
    assert_eq!(codes, 120);
}

/// Through the wrapper, there and back; a response alone loses a bit, bit 7.
#[test]
fn every_code_is_written_and_read_back() {
    for byte in 0..=255 {
        let code = match FunctionCode::from_byte(byte) {
            Some(code) => code,
            None => continue,
        };
        let is_response = matches!(code, FunctionCode::Response { .. });
        assert_eq!(code.to_byte(), if is_response { byte & 0x7F } else { byte });
        let (header, mut buf) = (Header::new(Address(5), Address(2), code), [0; 6]);
        let written = write_data(&header, &[], &mut buf).unwrap();
        assert_eq!(written.replier.map_or(256, |address| usize::from(address.0)), library_writes(byte).unwrap().1);
        match read(written.telegram) {
            Ok(Reading::Telegram { telegram: Telegram::Data { header: back, .. }, .. }) => assert_eq!(back, header),
            other => panic!("{other:?}"),
        }
    }
}

/// Document 01's table of the frame count bit, and two codes by hand.
#[test]
fn the_parts_stand_at_their_places() {
    let bits = [FrameCountBit::Inactive, FrameCountBit::Low, FrameCountBit::First, FrameCountBit::High];
    for (at, fcb) in (0u8..4).zip(bits) {
        assert_eq!(FunctionCode::request(fcb, RequestType::SrdLow).to_byte(), 0x4C + 16 * at);
    }
    assert_eq!(FunctionCode::request(FrameCountBit::Inactive, RequestType::ClockValue).to_byte(), 0xC0);
    assert_eq!(FunctionCode::from_byte(0xBA), FunctionCode::from_byte(0x3A));
}
