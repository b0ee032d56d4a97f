//! Each call of the link by itself, in each case that it tells apart. The record is copied before every call; the copy is not
//! counted, but stands in the times.

use crate::calls::*;
use crate::cases::Plan;
use crate::measures::Side;
use crate::telegrams::pdu_of;
use std::hint::black_box;

/// The records before each call of a whole order, and the four telegrams that are heard.
pub struct Steps {
    pub closed: Initiator,
    pub opening: Initiator,
    pub sending: Initiator,
    pub ready: Initiator,
    pub blank: Responder,
    pub opened: Responder,
    pub owing: Responder,
    pub holding: Responder,
    pub line: [Vec<u8>; 4],
}

pub fn steps(order: &[u8], reply: &[u8]) -> Steps {
    let (mut head, mut cabinet) = ([0; 252], [0; 250]);
    let mut buf = [0; 255];
    let (mut told, mut served) = ([0; 3], [0; 2]);
    // Sound, here and below: the arrays have the stated sizes, pointers and lengths are slices'.
    unsafe {
        assert_eq!(koy_initiator_new(&mut head, 2, 5, 2), 0);
        assert_eq!(koy_responder_new(&mut cabinet, 5, 2), 0);
        let (closed, blank) = (head, cabinet);
        let (out, room) = (buf.as_mut_ptr(), buf.len());
        assert_eq!(koy_initiator_submit(&mut head, order.as_ptr(), order.len(), out, room, &mut told), SENT);
        let (asked, opening) = (buf[..told[0]].to_vec(), head);
        assert_eq!(koy_responder_hear(&mut cabinet, asked.as_ptr(), asked.len(), out, room, &mut served), SENT);
        let (opens, opened) = (buf[..served[0]].to_vec(), cabinet);
        assert_eq!(koy_initiator_hear(&mut head, opens.as_ptr(), opens.len(), out, room, &mut told), SENT);
        let (sent, sending) = (buf[..told[0]].to_vec(), head);
        assert_eq!(koy_responder_hear(&mut cabinet, sent.as_ptr(), sent.len(), out, room, &mut served), HANDED_UP);
        let owing = cabinet;
        assert_eq!(koy_responder_answer(&mut cabinet, reply.as_ptr(), reply.len(), out, room, &mut served), SENT);
        let (back, holding) = (buf[..served[0]].to_vec(), cabinet);
        assert_eq!(koy_initiator_hear(&mut head, back.as_ptr(), back.len(), out, room, &mut told), CONFIRMED);
        Steps { closed, opening, sending, ready: head, blank, opened, owing, holding, line: [asked, opens, sent, back] }
    }
}

/// A telegram between two other stations: it is read to its end, and nothing is done.
fn of_others(telegram: &[u8]) -> Vec<u8> {
    let mut told = [0; 9];
    let (mut buf, mut written) = (vec![0; 255], [0; 2]);
    // Sound: as above.
    unsafe {
        assert_eq!(koy_read(telegram.as_ptr(), telegram.len(), &mut told), 0);
        let pdu = &telegram[told[7]..told[7] + told[8]];
        let fc = told[6] as u8;
        assert_eq!(
            koy_write_data(7, 9, told[4], told[5], fc, pdu.as_ptr(), pdu.len(), buf.as_mut_ptr(), 255, &mut written),
            0
        );
    }
    buf.truncate(written[0]);
    buf
}

/// One call on a copy of a record.
pub fn case<R: Copy>(plan: Plan, case: &str, state: R, entry: *const (), answer: u8, call: &mut dyn FnMut(&mut R) -> u8) {
    if !plan.wants(case) {
        return;
    }
    assert_eq!(call(&mut state.clone()), answer, "{case}");
    let run = &mut || _ = black_box(call(black_box(&mut state.clone())));
    plan.one_side(case, "ours", Side { calls: 1, entry, run });
}

pub fn calls(plan: Plan) {
    if !plan.wants("link") && !plan.word.starts_with("link") {
        return;
    }
    let (fresh, cabinet) = ([0; 252], [0; 250]);
    case(plan, "link-head-new", fresh, koy_initiator_new as *const (), 0, &mut |state| unsafe {
        koy_initiator_new(state, black_box(2), black_box(5), black_box(2))
    });
    case(plan, "link-cabinet-new", cabinet, koy_responder_new as *const (), 0, &mut |state| unsafe {
        koy_responder_new(state, black_box(5), black_box(2))
    });
    for len in [2, 246] {
        let bytes = pdu_of(len);
        let steps = steps(&bytes, &bytes);
        head(plan, len, &steps, &bytes);
        cabinet_calls(plan, len, &steps, &bytes);
    }
}

fn head(plan: Plan, len: usize, steps: &Steps, order: &[u8]) {
    let mut buf = [0; 255];
    let (out, room, mut told) = (buf.as_mut_ptr(), buf.len(), [0; 3]);
    let (submit, hear) = (koy_initiator_submit as *const (), koy_initiator_hear as *const ());
    for (name, state) in [("closed", steps.closed), ("ready", steps.ready)] {
        case(plan, &format!("link-head-submit-{name}-{len}"), state, submit, SENT, &mut |state| unsafe {
            koy_initiator_submit(state, black_box(order).as_ptr(), order.len(), out, room, &mut told)
        });
    }
    let silence = koy_initiator_silence as *const ();
    case(plan, &format!("link-head-silence-{len}"), steps.sending, silence, SENT, &mut |state| unsafe {
        koy_initiator_silence(state, out, room, &mut told)
    });
    let others = of_others(&steps.line[3]);
    for (name, state, heard, answer) in [
        ("opening-reply", steps.opening, &steps.line[1], SENT),
        ("order-reply", steps.sending, &steps.line[3], CONFIRMED),
        ("nothing", steps.sending, &Vec::new(), 0),
        ("others", steps.sending, &others, 0),
    ] {
        case(plan, &format!("link-head-hear-{name}-{len}"), state, hear, answer, &mut |state| unsafe {
            koy_initiator_hear(state, black_box(heard).as_ptr(), heard.len(), out, room, &mut told)
        });
    }
    let restart = koy_initiator_restart as *const ();
    case(plan, &format!("link-head-restart-{len}"), steps.ready, restart, 0, &mut |state| unsafe {
        koy_initiator_restart(state, &mut told)
    });
}

fn cabinet_calls(plan: Plan, len: usize, steps: &Steps, reply: &[u8]) {
    let mut buf = [0; 255];
    let (out, room, mut told) = (buf.as_mut_ptr(), buf.len(), [0; 2]);
    let (hear, answers) = (koy_responder_hear as *const (), koy_responder_answer as *const ());
    let others = of_others(&steps.line[2]);
    for (name, state, heard, answer) in [
        ("opening", steps.blank, &steps.line[0], SENT),
        ("order", steps.opened, &steps.line[2], HANDED_UP),
        ("repeat", steps.holding, &steps.line[2], SENT),
        ("nothing", steps.opened, &Vec::new(), 0),
        ("others", steps.opened, &others, 0),
    ] {
        case(plan, &format!("link-cabinet-hear-{name}-{len}"), state, hear, answer, &mut |state| unsafe {
            koy_responder_hear(state, black_box(heard).as_ptr(), heard.len(), out, room, &mut told)
        });
    }
    case(plan, &format!("link-cabinet-answer-{len}"), steps.owing, answers, SENT, &mut |state| unsafe {
        koy_responder_answer(state, black_box(reply).as_ptr(), reply.len(), out, room, &mut told)
    });
    let restart = koy_responder_restart as *const ();
    case(plan, &format!("link-cabinet-restart-{len}"), steps.holding, restart, 0, &mut |state| unsafe {
        koy_responder_restart(state);
        0
    });
}
