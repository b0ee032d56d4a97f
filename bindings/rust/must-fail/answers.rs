//! Wrong programs: drivers that drop what became of an order, an order to be carried out, or a telegram to be sent, and such that use a
//! buffer again before what it holds was taken. `run` has this file compiled with each `wrong` below, which must be refused with the error
//! named beside it and no other, and without any, which must be taken.
#![deny(unused_must_use)]
use koyandefa::{
    telegrams, write_data, End, GuardedInitiator, GuardedResponder, HandUp, Header, Heard, Initiator, InitiatorAnswer,
    Received, Refusal, Responder, ResponderAnswer, ROOM,
};

pub fn head_end(initiator: &mut GuardedInitiator, heard: Received) -> Result<bool, Refusal> {
    #[cfg(wrong = "restart_dropped")] // unused_must_use
    initiator.restart();
    #[cfg(wrong = "submit_dropped")] // unused_must_use
    initiator.submit(1, b"close-18", &mut [0; ROOM]);
    #[cfg(wrong = "hear_dropped")] // unused_must_use
    initiator.hear(heard, 2, &mut [0; ROOM])?;
    #[cfg(wrong = "silence_dropped")] // unused_must_use
    initiator.silence(3, &mut [0; ROOM])?;
    let unknown = matches!(initiator.restart(), InitiatorAnswer::Unknown { .. });
    Ok(unknown || initiator.hear(heard, 4, &mut [0; ROOM])? == InitiatorAnswer::Nothing)
}

/// The telegram to be sent stands in `buf`, the reply in `received`.
pub fn buffers(initiator: &mut GuardedInitiator, received: &mut [u8], buf: &mut [u8]) -> Result<usize, Refusal> {
    let answer = initiator.hear(Received { at: 1, bytes: received }, 2, buf)?;
    #[cfg(wrong = "receive_buffer_used_too_early")] // E0502
    received.fill(0);
    #[cfg(wrong = "buffer_used_too_early")] // E0499
    buf.fill(0);
    let len = match answer {
        InitiatorAnswer::Sent(telegram) => telegram.len(),
        InitiatorAnswer::Confirmed { reply, .. } => reply.len(),
        _ => 0,
    };
    received.fill(0);
    buf.fill(0);
    Ok(len)
}

pub fn cabinet(responder: &mut GuardedResponder, heard: Received) -> Result<Option<HandUp>, Refusal> {
    #[cfg(wrong = "order_dropped")] // unused_must_use
    responder.hear(heard, 1, &mut [0; ROOM])?;
    match responder.hear(heard, 2, &mut [0; ROOM])? {
        Heard::HandedUp(order) => Ok(Some(order)),
        Heard::Sent(_) | Heard::Nothing => Ok(None),
    }
}

/// The application's part, that has the order now.
pub fn application(responder: &mut GuardedResponder, order: fn() -> HandUp) -> bool {
    #[cfg(wrong = "hand_up_dropped")] // unused_must_use
    order();
    #[cfg(wrong = "not_taken_dropped")] // unused_must_use
    responder.answer(order(), 1, b"done", &mut [0; ROOM]);
    responder.answer(order(), 2, b"done", &mut [0; ROOM]).is_ok()
}

pub fn plain_ends(initiator: &mut Initiator, responder: &mut Responder) -> Result<bool, Refusal> {
    #[cfg(wrong = "plain_restart_dropped")] // unused_must_use
    initiator.restart();
    #[cfg(wrong = "plain_order_dropped")] // unused_must_use
    responder.hear(&[], &mut [0; ROOM])?;
    let quiet = responder.hear(&[], &mut [0; ROOM])? == ResponderAnswer::Nothing;
    Ok(initiator.restart() == InitiatorAnswer::Nothing && quiet)
}

pub fn telegrams_dropped(header: &Header, buf: &mut [u8]) -> Result<usize, Refusal> {
    #[cfg(wrong = "written_dropped")] // unused_must_use
    write_data(header, &[], buf)?;
    #[cfg(wrong = "end_dropped")] // unused_must_use
    telegrams(buf).end();
    let done = matches!(telegrams(buf).end(), End::Done { .. });
    Ok(write_data(header, &[], buf)?.telegram.len() + usize::from(done))
}
