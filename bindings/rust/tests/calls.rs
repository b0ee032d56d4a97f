//! Document 01's samples and refusals through the wrapper.
use koyandefa::*;

const STATUS_REQUEST: FunctionCode = FunctionCode::request(FrameCountBit::Inactive, RequestType::FdlStatus);

fn whole<'a>(telegram: Telegram<'a>, bytes: &'a [u8]) -> Result<Reading<'a>, Refusal> {
    Ok(Reading::Telegram { telegram, bytes })
}

#[test]
fn reads_the_samples() {
    let bytes = [0x68, 0x05, 0x05, 0x68, 0x05, 0x02, 0x5C, 0x01, 0x03, 0x67, 0x16];
    let order = FunctionCode::request(FrameCountBit::Low, RequestType::SrdLow);
    let header = Header::new(Address(5), Address(2), order);
    assert_eq!(read(&bytes), whole(Telegram::Data { header, pdu: &[1, 3] }, &bytes));
    assert_eq!(read(&[&bytes[..], &[0x17]].concat()), read(&bytes));
    assert_eq!(read(&[&bytes[..10], &[0x17]].concat()), Err(Refusal::EndDelimiter));
    assert_eq!(read(&[&bytes[..9], &[0x66, 0x16]].concat()), Err(Refusal::Checksum));
    let saps = [0x68, 0x05, 0x05, 0x68, 0x85, 0x82, 0x6C, 0x3C, 0x3E, 0xED, 0x16];
    match read(&saps) {
        Ok(Reading::Telegram { telegram: Telegram::Data { header, pdu: [] }, bytes }) => {
            assert_eq!((header.da, header.sa), (Address(5), Address(2)));
            assert_eq!((header.dsap, header.ssap), (Some(Sap(60)), Some(Sap(62))));
            assert_eq!(bytes, saps);
        }
        other => panic!("{other:?}"),
    }
    assert_eq!(read(&[0x68, 3, 4, 0, 0, 0]), Err(Refusal::LengthsDiffer));
    assert_eq!(read(&[0x68, 3, 4]), Ok(Reading::Incomplete));
    assert_eq!(read(&[0x68, 2, 2, 0, 0, 0]), Err(Refusal::LengthTooSmall));
    assert_eq!(read(&[]), Ok(Reading::Incomplete));
    assert_eq!(read(&[0xE5]), whole(Telegram::ShortConfirmation, &[0xE5]));
    let token = Telegram::Token { da: Address(5), sa: Address(2) };
    assert_eq!(read(&[0xDC, 5, 2]), whole(token, &[0xDC, 5, 2]));
}

/// Why a receive buffer holds 261 bytes and not 255.
#[test]
fn noise_announces_the_longest_telegram() {
    let mut noise = [0xFF; LONGEST_TELEGRAM];
    (noise[0], noise[3]) = (0x68, 0x68);
    for len in [4, ROOM, LONGEST_TELEGRAM - 1] {
        assert_eq!(read(&noise[..len]), Ok(Reading::Incomplete));
    }
    for first in 0..=255 {
        for length in 0..=255 {
            (noise[0], noise[1], noise[2]) = (first, length, length);
            assert_ne!(read(&noise), Ok(Reading::Incomplete));
        }
    }
}

/// The lister's sample, and its ends.
#[test]
fn the_telegrams_of_a_byte_string() {
    let bytes = [0xE5, 0xDC, 0x05, 0x02, 0x10, 0x05, 0x02, 0x49, 0x50, 0x16];
    let all: Vec<_> = telegrams(&bytes).map(|found| (found.at, found.bytes.len())).collect();
    assert_eq!(all, [(0, 1), (1, 3), (4, 6)]);
    let header = Header::new(Address(5), Address(2), STATUS_REQUEST);
    assert_eq!(telegrams(&bytes).last().unwrap().telegram, Telegram::Data { header, pdu: &[] });
    assert_eq!(telegrams(&bytes).end(), End::Done { at: 10 });
    assert_eq!(telegrams(&bytes[..9]).end(), End::Incomplete { at: 4 });
    assert_eq!(telegrams(&[]).end(), End::Done { at: 0 });
    let refused = telegrams(&[0xE5, 0xE5, 0xFF]).end();
    assert_eq!(refused, End::Refused { at: 2, refusal: Refusal::UnknownStart });
    assert_eq!(refused.to_string(), "refused 1 at 2: the first byte begins no telegram");
    let mut walk = telegrams(&bytes);
    assert_eq!(walk.next().map(|found| found.at), Some(0));
    assert_eq!((walk.at(), walk.rest(), walk.end()), (1, &bytes[1..], End::Done { at: 10 }));
    assert_eq!(format!("{walk:?}"), "Telegrams { at: 1, of: 10 }");
}

/// Every telegram is found again behind any noise that does not announce one, and the ends at each place are those of `read`.
#[test]
fn the_way_back_after_noise() {
    let bytes = [0x00, 0xE5, 0x68, 0xFF, 0xFF, 0xDC, 0x05, 0x02, 0x16, 0xA2];
    let mut all = telegrams(&bytes);
    let (mut found, mut noise) = (Vec::new(), Vec::new());
    loop {
        found.extend((&mut all).map(|found| found.at));
        assert_eq!(all.next(), None);
        // Nothing more can come: incomplete bytes are passed over too.
        match all.pass_over() {
            Some(byte) => noise.push(byte),
            None => break,
        }
    }
    assert_eq!((found, noise), (vec![1, 5], vec![0x00, 0x68, 0xFF, 0xFF, 0x16, 0xA2]));
    assert_eq!((all.at(), all.rest().len(), all.end()), (10, 0, End::Done { at: 10 }));
    let mut all = telegrams(&bytes);
    let mut noise = vec![all.pass_over_noise()];
    assert_eq!(all.pass_over_noise(), [], "a telegram begins here");
    while all.next().is_some() {
        noise.push(all.pass_over_noise());
    }
    assert_eq!(noise, [&bytes[..1], &bytes[2..5], &bytes[8..]]);
    assert_eq!((all.pass_over_noise(), all.end()), (&[][..], End::Done { at: 10 }));
}

#[test]
fn writes_and_refuses() {
    let header = Header::new(Address(5), Address(2), STATUS_REQUEST);
    let mut buf = [0xAA; 255];
    let telegram = &[0x10, 5, 2, 0x49, 0x50, 0x16][..];
    assert_eq!(write_data(&header, &[], &mut buf), Ok(Written { telegram, replier: Some(Address(5)) }));
    assert_eq!(buf[..7], [0x10, 5, 2, 0x49, 0x50, 0x16, 0xAA]);
    assert_eq!(write_data(&header, &[7; 246], &mut buf).map(|written| written.telegram.len()), Ok(255));
    let before = buf;
    assert_eq!(write_data(&header, &[7; 247], &mut buf), Err(Refusal::TooLong));
    assert_eq!(write_data(&header, &[7; 246], &mut buf[..254]), Err(Refusal::NoRoom));
    assert_eq!(write_data(&Header { da: Address(128), ..header }, &[], &mut buf), Err(Refusal::AddressTooLarge));
    assert_eq!(write_token(Address(5), Address(2), &mut buf[..2]), Err(Refusal::NoRoom));
    assert_eq!(write_confirmation(&mut []), Err(Refusal::NoRoom));
    assert_eq!(buf, before);
    assert_eq!(write_token(Address(5), Address(2), &mut buf), Ok(&[0xDC, 5, 2][..]));
    assert_eq!(write_confirmation(&mut buf), Ok(&[0xE5][..]));
    assert_eq!(buf[..3], [0xE5, 5, 2]);
    let fc = FunctionCode::try_from(0x6C).unwrap();
    let with_saps = Header { dsap: Some(Sap(60)), ssap: Some(Sap(62)), ..Header::new(Address(5), Address(2), fc) };
    let written = write_data(&with_saps, &[], &mut buf).unwrap();
    assert_eq!(written.telegram, [0x68, 0x05, 0x05, 0x68, 0x85, 0x82, 0x6C, 0x3C, 0x3E, 0xED, 0x16]);
}

fn after(own: u8, passes: &[(u8, u8)]) -> StationList {
    let mut list = StationList::new(Address(own)).unwrap();
    for &(sa, da) in passes {
        list.witness(Address(sa), Address(da));
    }
    list
}

fn active(list: &StationList) -> Vec<u8> {
    list.active().map(|address| address.0).collect()
}

#[test]
fn station_list_samples() {
    let mut list = after(7, &[(9, 2), (2, 5), (5, 9), (9, 2)]);
    assert_eq!(active(&list), [2, 5, 9]);
    assert_eq!((list.next(), list.previous(), list.phase()), (Address(9), Address(5), Phase::Verification));
    assert_eq!(
        format!("{list:?}"),
        "StationList { phase: Verification, own: 7, next: 9, previous: 5, active: {2, 5, 9} }"
    );
    let other = &mut list.clone();
    other.witness(Address(9), Address(5));
    assert_eq!((active(other), other.phase()), (vec![5, 9], Phase::Discovery));
    for (sa, da) in [(2, 5), (5, 9), (9, 2)] {
        list.witness(Address(sa), Address(da));
    }
    assert_eq!(list.phase(), Phase::Valid);
    assert_eq!((list.first_from(Address(6)), list.first_from(Address(10))), (Some(Address(9)), None));
    assert_eq!(list.last_to(Address(4)), Some(Address(2)));
    assert_eq!(after(3, &[(3, 3); 3]).phase(), Phase::Valid);
    let before = list.to_bytes();
    assert_eq!(list.set_next(Address(126)), Err(Refusal::NotAStation));
    assert_eq!(list.remove(Address(255)), Err(Refusal::NotAStation));
    assert_eq!(list.to_bytes(), before);
    assert_eq!(StationList::new(Address(126)), Err(Refusal::NotAStation));
    list.remove(Address(9)).unwrap();
    list.set_next(Address(8)).unwrap();
    assert_eq!((list.next(), list.is_active(Address(9))), (Address(8), false));
}

#[test]
fn any_bytes_are_a_station_list() {
    for fill in [0u8, 1, 2, 77, 255] {
        let mut list = StationList::from_bytes([fill; 132]);
        list.witness(Address(5), Address(5));
        list.claim();
        assert_eq!((list.phase(), list.own()), (Phase::Valid, Address(fill)));
        assert_eq!(StationList::from_bytes(list.to_bytes()), list);
        assert!(format!("{list:?}").starts_with("StationList { phase: Valid, "));
    }
}

#[test]
fn diagnostics_samples() {
    let bytes = [0x42, 0x05, 0x83, 0xC1, 0x26, 0x01];
    let blocks: Vec<_> = Walk::new(&bytes, 99).map(Result::unwrap).collect();
    let (dtype, error) = (ChannelDataType::Bit, ChannelError::LineBreak);
    let channel = Block::Channel { module: 3, channel: 1, input: true, output: true, dtype, error };
    assert_eq!(blocks, [Block::Identifier(&bytes[1..2]), channel, Block::Device(&[])]);
    assert_eq!((0..9).filter(|&module| module_is_set(&bytes[1..2], module)).collect::<Vec<_>>(), [0, 2]);
    assert_eq!(modules(&[0x05, 0x80]).collect::<Vec<_>>(), [0, 2, 15]);
    for (bytes, refusal) in [
        (&[0x40][..], Refusal::BlockLengthZero),
        (&[0xC0], Refusal::BlockReserved),
        (&[0x43, 0x01], Refusal::BlockCutOff),
    ] {
        let mut walk = Walk::new(bytes, bytes.len());
        assert_eq!(walk.next(), Some(Err(refusal)));
        assert_eq!((walk.cursor(), walk.next()), (bytes.len(), None));
    }
    assert_eq!(format!("{:?}", Walk::new(&bytes, 99)), "Walk { cursor: 0, of: 6 }");
    let mut store = [0xAA; 4];
    assert_eq!(fill(&mut store, &[1, 2, 3]), Some(3));
    assert_eq!(store, [1, 2, 3, 0xAA]);
    assert_eq!((fill(&mut store, &[0; 5]), fill(&mut [], &[])), (None, None));
}

/// Document 01's numbers of a channel's type and error, for every third byte.
#[test]
fn channel_types_and_errors() {
    use ChannelDataType::*;
    use ChannelError::*;
    let types = [Invalid, Bit, Bit2, Bit4, Byte, Word, DWord, Invalid];
    let named = [
        ShortCircuit,
        UnderVoltage,
        OverVoltage,
        OverLoad,
        OverTemperature,
        LineBreak,
        UpperLimitOvershoot,
        LowerLimitUndershoot,
        Error,
    ];
    for third in 0..=255 {
        let expected = match third & 0x1F {
            number @ 1..=9 => named[usize::from(number) - 1],
            number @ 16..=31 => Vendor(number),
            number => Reserved(number),
        };
        match Walk::new(&[0x80, 0x00, third], 3).next() {
            Some(Ok(Block::Channel { dtype, error, .. })) => {
                assert_eq!((dtype, error), (types[usize::from(third >> 5)], expected), "{third}");
            }
            other => panic!("{other:?}"),
        }
    }
}

#[test]
fn settings_text() {
    let settings = Settings { own: Address(2), peer: Address(5), tries: 2 };
    let mut buf = [0; 40];
    let len = settings.write(&mut buf).unwrap().len();
    assert_eq!(&buf[..len], b"own=2\npeer=5\ntries=2\n");
    assert_eq!(Settings::read(&buf[..len]), Ok(settings));
    assert_eq!(Settings::read(&buf[..len + 1]), Err(Refusal::SettingsForm));
    assert_eq!(Settings::read(b"own=2\npeer=2\ntries=9\n"), Err(Refusal::LinkAddresses));
    assert_eq!(Settings::read(b"own=2\npeer=3\ntries=9\n"), Err(Refusal::Tries));
    assert_eq!(settings.write(&mut buf[..20]), Err(Refusal::NoRoom));
    let longest = Settings { own: Address(125), peer: Address(124), tries: 8 };
    assert_eq!(longest.write(&mut buf).map(<[u8]>::len), Ok(Settings::LONGEST));
}

#[test]
fn link_refusals_leave_all() {
    let (head_end, cabinet) = (Address(2), Address(5));
    let mut initiator = Initiator::new(head_end, cabinet, 2).unwrap();
    let mut responder = Responder::new(cabinet, head_end).unwrap();
    let mut buf = [0xAA; 255];
    assert_eq!(initiator.submit(&[1], &mut buf[..254]), Err(Refusal::NoRoom));
    assert_eq!(initiator.submit(&[], &mut buf), Err(Refusal::OrderLength));
    assert_eq!(initiator.submit(&[1; 247], &mut buf), Err(Refusal::OrderLength));
    assert_eq!(initiator.hear(&[], &mut buf[..254]), Err(Refusal::NoRoom));
    assert_eq!(initiator.silence(&mut buf[..0]), Err(Refusal::NoRoom));
    assert_eq!(responder.hear(&[], &mut buf[..254]), Err(Refusal::NoRoom));
    assert_eq!(responder.answer(&[], &mut buf), Err(Refusal::NoReplyOwed));
    assert_eq!(buf, [0xAA; 255]);
    assert_eq!(Ok(initiator), Initiator::new(head_end, cabinet, 2));
    assert_eq!(Ok(responder), Responder::new(cabinet, head_end));
    assert_eq!(Initiator::new(head_end, head_end, 2), Err(Refusal::LinkAddresses));
    assert_eq!(Initiator::new(head_end, cabinet, 9), Err(Refusal::Tries));
    assert_eq!(Responder::new(Address(126), head_end), Err(Refusal::LinkAddresses));
}

fn sent(answer: Result<InitiatorAnswer, Refusal>) -> bool {
    matches!(answer, Ok(InitiatorAnswer::Sent(_)))
}

/// A link made without a number of tries writes four telegrams in either phase, with a guard and without.
#[test]
fn four_tries_where_none_are_stated() {
    let (head_end, cabinet) = (Address(2), Address(5));
    let opened = [0x10, 0x02, 0x05, 0x00, 0x07, 0x16];
    let mut buf = [0; ROOM];
    let mut plain = Initiator::with_default_tries(head_end, cabinet).unwrap();
    let mut guarded = GuardedInitiator::with_default_tries(head_end, cabinet, 0).unwrap();
    assert!(sent(plain.submit(&[1], &mut buf)) && sent(guarded.submit(1, &[1], &mut buf)));
    for _ in 0..3 {
        assert!(sent(plain.silence(&mut buf)) && sent(guarded.silence(2, &mut buf)));
    }
    assert_eq!(plain.silence(&mut buf), Ok(InitiatorAnswer::NotSent { tries: 4 }));
    assert_eq!(guarded.silence(3, &mut buf), Ok(InitiatorAnswer::NotSent { tries: 4 }));
    assert!(sent(plain.submit(&[1], &mut buf)) && sent(guarded.submit(4, &[1], &mut buf)));
    assert!(sent(plain.hear(&opened, &mut buf)));
    assert!(sent(guarded.hear(Received { at: 5, bytes: &opened }, 6, &mut buf)));
    for _ in 0..3 {
        assert!(sent(plain.silence(&mut buf)) && sent(guarded.silence(7, &mut buf)));
    }
    assert_eq!(plain.silence(&mut buf), Ok(InitiatorAnswer::Unknown { tries: 4 }));
    assert_eq!(guarded.silence(8, &mut buf), Ok(InitiatorAnswer::Unknown { tries: 4 }));
    assert_eq!(Initiator::with_default_tries(head_end, head_end), Err(Refusal::LinkAddresses));
    assert_eq!(GuardedInitiator::with_default_tries(head_end, head_end, 0), Err(Refusal::LinkAddresses));
}

/// Each refusal has its number and words of its own.
#[test]
fn refusals_in_words() {
    let mut words: Vec<String> = (1..=22)
        .chain([24, 25])
        .map(|number| {
            let text = Refusal::of(number).unwrap().to_string();
            let words = text.strip_prefix(&format!("refused {number}: ")).expect("the number first");
            words.to_string()
        })
        .collect();
    assert_eq!(words[16], "an order is already pending");
    assert_eq!(words[22], "the length byte of an SD2 telegram is 3 or above 249, in strict mode");
    assert_eq!(words[23], "the fourth byte of an SD2 telegram is not 68, in strict mode");
    words.sort();
    words.dedup();
    assert_eq!(words.len(), 24);
    assert_eq!((0..=255).filter(|&number| Refusal::of(number).is_some()).count(), 24);
}

#[cfg(feature = "std")]
#[test]
fn refusals_are_errors() {
    fn fails() -> Result<(), Box<dyn std::error::Error>> {
        StationList::new(Address(126))?;
        Ok(())
    }
    assert_eq!(fails().unwrap_err().to_string(), "refused 11: the own, set or removed address is above 125");
    let not_taken: Box<dyn std::error::Error> = Box::new(NotTaken::NoReplyOwed);
    assert!(not_taken.to_string().starts_with("refused 21: "));
}
