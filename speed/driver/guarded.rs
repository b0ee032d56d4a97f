//! The guarded calls of the link, in the cases of the plain ones that show most: what the guard costs beside them, and what is ignored or
//! refused by it.

use crate::calls::*;
use crate::cases::Plan;
use crate::link::{case, steps, Steps};
use crate::telegrams::pdu_of;
use std::hint::black_box;

/// The stamp of the last telegram, and a later one; the number of the order handed up last.
const LAST: usize = 10;
const LATER: usize = 11;
const NUMBER: usize = 3;

pub fn calls(plan: Plan) {
    if !plan.wants("guarded") && !plan.word.starts_with("guarded") {
        return;
    }
    let (new, responder_new) = (koy_guarded_initiator_new as *const (), koy_guarded_responder_new as *const ());
    // Sound, here and below: the arrays have the stated sizes, pointers and lengths are slices'.
    case(plan, "guarded-head-new", ([0; 252], [0]), new, 0, &mut |(state, last)| unsafe {
        koy_guarded_initiator_new(state, last, black_box(2), black_box(5), black_box(2), black_box(LAST))
    });
    case(plan, "guarded-cabinet-new", ([0; 250], [0; 2]), responder_new, 0, &mut |(state, guard)| unsafe {
        koy_guarded_responder_new(state, guard, black_box(5), black_box(2), black_box(LAST))
    });
    for len in [2, 246] {
        let bytes = pdu_of(len);
        let steps = steps(&bytes, &bytes);
        head(plan, len, &steps, &bytes);
        cabinet(plan, len, &steps, &bytes);
    }
}

fn head(plan: Plan, len: usize, steps: &Steps, order: &[u8]) {
    let mut buf = [0; 255];
    let (out, room, mut told) = (buf.as_mut_ptr(), buf.len(), [0; 3]);
    let submit = koy_guarded_initiator_submit as *const ();
    case(
        plan,
        &format!("guarded-head-submit-{len}"),
        (steps.ready, [LAST]),
        submit,
        SENT,
        &mut |(state, last)| unsafe {
            koy_guarded_initiator_submit(
                state,
                last,
                LATER,
                black_box(order).as_ptr(),
                order.len(),
                out,
                room,
                &mut told,
            )
        },
    );
    let silence = koy_guarded_initiator_silence as *const ();
    case(
        plan,
        &format!("guarded-head-silence-{len}"),
        (steps.sending, [LAST]),
        silence,
        SENT,
        &mut |(state, last)| unsafe { koy_guarded_initiator_silence(state, last, LATER, out, room, &mut told) },
    );
    let hear = koy_guarded_initiator_hear as *const ();
    for (name, state, heard, received, answer) in [
        ("opening-reply", steps.opening, &steps.line[1], LATER, SENT),
        ("order-reply", steps.sending, &steps.line[3], LATER, CONFIRMED),
        ("stale", steps.sending, &steps.line[3], LAST, 0),
    ] {
        case(
            plan,
            &format!("guarded-head-hear-{name}-{len}"),
            (state, [LAST]),
            hear,
            answer,
            &mut |(state, last)| unsafe {
                let heard = black_box(heard);
                koy_guarded_initiator_hear(
                    state,
                    last,
                    received,
                    LATER,
                    heard.as_ptr(),
                    heard.len(),
                    out,
                    room,
                    &mut told,
                )
            },
        );
    }
}

fn cabinet(plan: Plan, len: usize, steps: &Steps, reply: &[u8]) {
    let mut buf = [0; 255];
    let (out, room, mut told) = (buf.as_mut_ptr(), buf.len(), [0; 3]);
    let guard = [LAST, NUMBER];
    let hear = koy_guarded_responder_hear as *const ();
    for (name, state, heard, received, answer) in [
        ("opening", steps.blank, &steps.line[0], LATER, SENT),
        ("order", steps.opened, &steps.line[2], LATER, HANDED_UP),
        ("repeat", steps.holding, &steps.line[2], LATER, SENT),
        ("stale", steps.opened, &steps.line[2], LAST, 0),
    ] {
        case(plan, &format!("guarded-cabinet-hear-{name}-{len}"), (state, guard), hear, answer, &mut |(
            state,
            guard,
        )| unsafe {
            let heard = black_box(heard);
            koy_guarded_responder_hear(state, guard, received, LATER, heard.as_ptr(), heard.len(), out, room, &mut told)
        });
    }
    let answers = koy_guarded_responder_answer as *const ();
    for (name, number, answer) in [("answer", NUMBER, SENT), ("answer-another", NUMBER - 1, 21)] {
        case(plan, &format!("guarded-cabinet-{name}-{len}"), (steps.owing, guard), answers, answer, &mut |(
            state,
            guard,
        )| unsafe {
            let reply = black_box(reply);
            koy_guarded_responder_answer(state, guard, number, LATER, reply.as_ptr(), reply.len(), out, room, &mut told)
        });
    }
}
