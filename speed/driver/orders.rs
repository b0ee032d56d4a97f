//! A whole order through both ends of the static library, beside the reads and writes of telegrams that it makes. The
//! original has no such link: the figures are compared with each other.

use crate::calls::*;
use crate::cases::Plan;
use crate::measures::Side;
use crate::telegrams::{ours_read, pdu_of};
use std::hint::black_box;

/// The two ends, and what is on the line between them.
struct Link {
    initiator: Initiator,
    responder: Responder,
    line: Vec<Vec<u8>>,
}

/// Submit, hear (the opening), hear (its reply), hear (the order), answer, hear (the reply). Keeps each telegram written.
fn order(order: &[u8], reply: &[u8]) -> Link {
    let mut link = Link { initiator: [0; 252], responder: [0; 250], line: Vec::new() };
    // Sound, here and below: the arrays have the stated sizes, pointers and lengths are slices'.
    unsafe {
        assert_eq!(koy_initiator_new(&mut link.initiator, 2, 5, 2), 0);
        assert_eq!(koy_responder_new(&mut link.responder, 5, 2), 0);
    }
    let (initiator, responder) = (link.initiator, link.responder);
    let mut buf = [0; 255];
    let end = order_through(&mut link, order, reply, &mut buf, &mut |line, telegram| line.push(telegram.to_vec()));
    assert_eq!(end, CONFIRMED);
    link.initiator = initiator;
    link.responder = responder;
    link
}

fn order_through(
    link: &mut Link,
    order: &[u8],
    reply: &[u8],
    buf: &mut [u8; 255],
    keep: &mut dyn FnMut(&mut Vec<Vec<u8>>, &[u8]),
) -> u8 {
    let (mut told, mut served) = ([0; 3], [0; 2]);
    unsafe {
        koy_initiator_submit(&mut link.initiator, order.as_ptr(), order.len(), buf.as_mut_ptr(), 255, &mut told);
        let mut len = told[0];
        let mut heard = *buf;
        keep(&mut link.line, &heard[..len]);
        koy_responder_hear(&mut link.responder, heard.as_ptr(), len, buf.as_mut_ptr(), 255, &mut served);
        len = served[0];
        heard = *buf;
        keep(&mut link.line, &heard[..len]);
        koy_initiator_hear(&mut link.initiator, heard.as_ptr(), len, buf.as_mut_ptr(), 255, &mut told);
        len = told[0];
        heard = *buf;
        keep(&mut link.line, &heard[..len]);
        assert_eq!(
            koy_responder_hear(&mut link.responder, heard.as_ptr(), len, buf.as_mut_ptr(), 255, &mut served),
            HANDED_UP
        );
        koy_responder_answer(&mut link.responder, reply.as_ptr(), reply.len(), buf.as_mut_ptr(), 255, &mut served);
        len = served[0];
        heard = *buf;
        keep(&mut link.line, &heard[..len]);
        koy_initiator_hear(&mut link.initiator, heard.as_ptr(), len, buf.as_mut_ptr(), 255, &mut told)
    }
}

/// The same four telegrams, each written once and read once.
fn reads_and_writes(line: &[Vec<u8>], parts: &[[usize; 9]], buf: &mut [u8; 255]) {
    for (telegram, told) in line.iter().zip(parts) {
        let pdu = &telegram[told[7]..told[7] + told[8]];
        let mut written = [0; 2];
        let code = unsafe {
            koy_write_data(
                told[2] as u8,
                told[3] as u8,
                told[4],
                told[5],
                told[6] as u8,
                pdu.as_ptr(),
                pdu.len(),
                buf.as_mut_ptr(),
                255,
                &mut written,
            )
        };
        black_box((code, written));
        let mut read = [0; 9];
        black_box(ours_read(black_box(telegram), black_box(&mut read)));
    }
}

pub fn orders(plan: Plan) {
    if !plan.wants("order") && !plan.word.starts_with("order") {
        return;
    }
    for (len, reply) in [(1, 0), (2, 2), (32, 32), (246, 246)] {
        let (bytes, back) = (pdu_of(len), pdu_of(reply));
        let made = order(&bytes, &back);
        let parts: Vec<[usize; 9]> = made
            .line
            .iter()
            .map(|telegram| {
                let mut told = [0; 9];
                assert_eq!(ours_read(telegram, &mut told), 0);
                told
            })
            .collect();
        let mut buf = [0; 255];
        let case = format!("order-{len}-reply-{reply}");
        plan.one_side(
            &case,
            "link",
            Side {
                calls: 1,
                entry: koy_initiator_submit as *const (),
                run: &mut || {
                    let mut link = Link { initiator: made.initiator, responder: made.responder, line: Vec::new() };
                    black_box(order_through(&mut link, &bytes, &back, black_box(&mut buf), &mut |_, _| ()));
                },
            },
        );
        plan.one_side(
            &case,
            "telegrams",
            Side {
                calls: 1,
                entry: koy_write_data as *const (),
                run: &mut || reads_and_writes(&made.line, &parts, black_box(&mut buf)),
            },
        );
    }
}
