//! Reading and writing. Both sides are lent the same bytes, and must tell the same.

use crate::calls::*;
use crate::cases::Plan;
use crate::measures::Side;
use std::hint::black_box;

const SRD_LOW: u8 = 0x5C;
const LENGTHS: [usize; 5] = [0, 2, 8, 32, 246];

pub fn pdu_of(len: usize) -> Vec<u8> {
    (0..len).map(|i| (i * 37 + 11) as u8).collect()
}

/// A data telegram, written by the original.
fn telegram(dsap: usize, ssap: usize, pdu: &[u8]) -> Vec<u8> {
    let mut buf = vec![0; 255];
    let mut told = [0; 2];
    rust_write_data(5, 2, dsap, ssap, SRD_LOW, pdu, &mut buf, &mut told);
    buf.truncate(told[0]);
    buf
}

pub fn ours_read(bytes: &[u8], told: &mut [usize; 9]) -> u8 {
    // Sound: pointer and length are a slice's.
    unsafe { koy_read(bytes.as_ptr(), bytes.len(), told) }
}

fn read_case(plan: Plan, case: &str, bytes: &[u8]) {
    if !plan.wants(case) {
        return;
    }
    let (mut ours, mut rust) = ([0; 9], [0; 9]);
    let codes = (ours_read(bytes, &mut ours), rust_read(bytes, &mut rust));
    assert!(codes.0 == codes.1 || codes.1 == 1 && (1..=7).contains(&codes.0), "{case}: {codes:?}");
    assert_eq!(ours, rust, "{case}");
    plan.case(
        case,
        Side {
            calls: 1,
            entry: koy_read as *const (),
            run: &mut || _ = black_box(ours_read(black_box(bytes), black_box(&mut ours))),
        },
        Side {
            calls: 1,
            entry: rust_read as *const (),
            run: &mut || _ = black_box(rust_read(black_box(bytes), black_box(&mut rust))),
        },
    );
}

pub fn reading(plan: Plan) {
    read_case(plan, "read-confirmation", &[0xE5]);
    read_case(plan, "read-token", &[0xDC, 5, 2]);
    for len in LENGTHS {
        read_case(plan, &format!("read-data-pdu-{len}"), &telegram(ABSENT, ABSENT, &pdu_of(len)));
    }
    read_case(plan, "read-data-saps-pdu-2", &telegram(60, 62, &pdu_of(2)));
    read_case(plan, "read-data-saps-pdu-32", &telegram(60, 62, &pdu_of(32)));
    read_case(plan, "read-nothing", &[]);
    read_case(plan, "read-incomplete-5", &[0x68, 0x05, 0x05, 0x68, 0x05]);
    read_case(plan, "read-incomplete-8", &telegram(ABSENT, ABSENT, &pdu_of(32))[..8]);
    read_case(plan, "read-refused-1", &[0x00; 12]);
    read_case(plan, "read-refused-2", &[0x68, 0x03, 0x04, 0, 0, 0]);
    read_case(plan, "read-refused-3", &[0x68, 0x02, 0x02, 0, 0, 0]);
    for (number, from_end, pdu) in [(6, 2, 2), (6, 2, 32), (6, 2, 246), (7, 1, 2), (7, 1, 32), (7, 1, 246)] {
        let mut bytes = telegram(ABSENT, ABSENT, &pdu_of(pdu));
        let at = bytes.len() - from_end;
        bytes[at] ^= 1;
        read_case(plan, &format!("read-refused-{number}-pdu-{pdu}"), &bytes);
    }
    let mut bytes = telegram(ABSENT, ABSENT, &pdu_of(32));
    bytes[6] = 0x41;
    read_case(plan, "read-refused-4-pdu-32", &bytes);
    read_case(plan, "read-refused-5", &[0x10, 0x85, 0x02, 0x49, 0xD0, 0x16]);
}

pub fn ours_write(dsap: usize, ssap: usize, pdu: &[u8], buf: &mut [u8], told: &mut [usize; 2]) -> u8 {
    // Sound: pointers and lengths are slices'.
    let (da, sa, fc) = (black_box(5), black_box(2), black_box(SRD_LOW));
    unsafe { koy_write_data(da, sa, dsap, ssap, fc, pdu.as_ptr(), pdu.len(), buf.as_mut_ptr(), buf.len(), told) }
}

fn write_case(plan: Plan, case: &str, dsap: usize, ssap: usize, pdu: &[u8]) {
    if !plan.wants(case) {
        return;
    }
    let (mut ours, mut rust) = ([0xAA; 256], [0xAA; 256]);
    let (mut ours_told, mut rust_told) = ([0; 2], [0; 2]);
    assert_eq!(ours_write(dsap, ssap, pdu, &mut ours, &mut ours_told), 0, "{case}");
    rust_write_data(5, 2, dsap, ssap, SRD_LOW, pdu, &mut rust, &mut rust_told);
    assert_eq!((ours, ours_told), (rust, rust_told), "{case}");
    plan.case(
        case,
        Side {
            calls: 1,
            entry: koy_write_data as *const (),
            run: &mut || {
                let code = ours_write(
                    black_box(dsap),
                    black_box(ssap),
                    black_box(pdu),
                    black_box(&mut ours),
                    black_box(&mut ours_told),
                );
                black_box(code);
            },
        },
        Side {
            calls: 1,
            entry: rust_write_data as *const (),
            run: &mut || {
                let (buf, told) = (black_box(&mut rust), black_box(&mut rust_told));
                let code = rust_write_data(
                    black_box(5),
                    black_box(2),
                    black_box(dsap),
                    black_box(ssap),
                    black_box(SRD_LOW),
                    black_box(pdu),
                    buf,
                    told,
                );
                black_box(code);
            },
        },
    );
}

pub fn writing(plan: Plan) {
    for len in LENGTHS {
        write_case(plan, &format!("write-data-pdu-{len}"), ABSENT, ABSENT, &pdu_of(len));
    }
    for len in [2, 32, 244] {
        write_case(plan, &format!("write-data-saps-pdu-{len}"), 60, 62, &pdu_of(len));
    }
    let (mut ours, mut rust) = ([0; 8], [0; 8]);
    plan.case(
        "write-token",
        Side {
            calls: 1,
            entry: koy_write_token as *const (),
            // Sound: pointer and length are an array's.
            run: &mut || {
                _ = black_box(unsafe {
                    koy_write_token(black_box(5), black_box(2), black_box(&mut ours).as_mut_ptr(), 8)
                })
            },
        },
        Side {
            calls: 1,
            entry: rust_write_token as *const (),
            run: &mut || _ = black_box(rust_write_token(black_box(5), black_box(2), black_box(&mut rust))),
        },
    );
    plan.case(
        "write-confirmation",
        Side {
            calls: 1,
            entry: koy_write_confirmation as *const (),
            // Sound: as above.
            run: &mut || _ = black_box(unsafe { koy_write_confirmation(black_box(&mut ours).as_mut_ptr(), 8) }),
        },
        Side {
            calls: 1,
            entry: rust_write_confirmation as *const (),
            run: &mut || _ = black_box(rust_write_confirmation(black_box(&mut rust))),
        },
    );
}
