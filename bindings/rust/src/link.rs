//! The two ends of the order link as document 01 has them, for drivers that hold its rules themselves; `guarded` has the ends that look at
//! stamps and numbers. None can be cloned, stored or loaded: an older record would make demand 3 false.
use crate::address::Address;
use crate::ffi;
use crate::refusal::{done, Refusal};
use core::fmt;

#[cfg(test)]
mod tests;

/// Calls that may write want this much room. What is received may be longer: [`LONGEST_TELEGRAM`](crate::LONGEST_TELEGRAM).
pub const ROOM: usize = 255;
/// The longest order, and the longest reply.
pub const LONGEST_ORDER: usize = 246;
/// The tries of a link for which no others are stated, in each phase of an order.
pub const DEFAULT_TRIES: u8 = ffi::KOY_DEFAULT_TRIES;

/// The head end: it submits orders and reports what became of them. A driver that takes this one, and not
/// [`GuardedInitiator`](crate::GuardedInitiator), sees to it that a telegram is heard before the next call of either end, or never.
///
/// It is moved and never copied, stored or loaded; keep one for a link. After a loss of power, or a new start of the program, make it
/// with [`Initiator::new`]; where it is still there, call [`Initiator::restart`]. What an older record would do: order 1 confirmed,
/// record stored, `close-18` confirmed, power lost, record loaded, `open-19` submitted: confirmed with `close-18`'s reply, never
/// carried out.
#[derive(PartialEq, Eq)]
pub struct Initiator {
    state: [u8; ffi::KOY_INITIATOR_SIZE],
}

/// What a call of the head end says. `tries` are the telegrams written in the order's last phase, opening or order.
///
/// A telegram borrows the buffer that the call was lent, and a reply the heard bytes: neither can be used again before it was taken.
#[must_use = "an answer that is dropped may be what became of an order"]
#[derive(Clone, Copy, Debug, PartialEq, Eq, Hash)]
pub enum InitiatorAnswer<'heard, 'buf> {
    /// Send this telegram, the front of the buffer; then wait for a reply, or report silence.
    Sent(&'buf [u8]),
    /// The pending order was carried out exactly once.
    Confirmed {
        /// Its reply, a part of the heard bytes.
        reply: &'heard [u8],
        /// The telegrams written.
        tries: u8,
    },
    /// The pending order was never carried out: submit it again, or drop it.
    NotSent {
        /// The telegrams written.
        tries: u8,
    },
    /// The pending order was carried out once, will be, or not at all. Do not simply submit it again: find out first what it did.
    Unknown {
        /// The telegrams written.
        tries: u8,
    },
    /// Nothing to do: what was heard is not for us or not awaited, so go on waiting; or nothing is pending.
    Nothing,
}

pub(crate) fn initiator_answer<'heard, 'buf>(
    code: u8,
    told: [usize; 3],
    heard: &'heard [u8],
    buf: &'buf [u8],
) -> Result<InitiatorAnswer<'heard, 'buf>, Refusal> {
    let [first, len, tries] = told;
    let tries = tries as u8;
    Ok(match code {
        ffi::KOY_SENT => InitiatorAnswer::Sent(&buf[..first]),
        ffi::KOY_CONFIRMED => InitiatorAnswer::Confirmed { reply: &heard[first..first + len], tries },
        ffi::KOY_NOT_SENT => InitiatorAnswer::NotSent { tries },
        ffi::KOY_UNKNOWN => InitiatorAnswer::Unknown { tries },
        ffi::KOY_DONE => InitiatorAnswer::Nothing,
        code => return Err(Refusal::of_code(code)),
    })
}

/// Both head ends restart by the one call.
pub(crate) fn initiator_restart(state: &mut [u8; ffi::KOY_INITIATOR_SIZE]) -> InitiatorAnswer<'static, 'static> {
    let mut told = [0; 3];
    let code = unsafe { ffi::koy_initiator_restart(state, &mut told) };
    initiator_answer(code, told, &[], &[]).expect("a restart is never refused")
}

/// What a person asks of a head end's record; koyandefa.h gives its layout.
pub(crate) fn show_initiator<'a, 'b>(
    name: &str,
    state: &[u8; ffi::KOY_INITIATOR_SIZE],
    f: &'b mut fmt::Formatter<'a>,
) -> fmt::DebugStruct<'b, 'a> {
    let (phase, pending) = match state[3] {
        1 => ("open (next under Low)", false),
        2 => ("open (next under High)", false),
        3 => ("opening", true),
        4 => ("order sent under Low", true),
        5 => ("order sent under High", true),
        _ => ("closed", false),
    };
    let mut shown = f.debug_struct(name);
    shown
        .field("own", &state[0])
        .field("peer", &state[1])
        .field("tries", &state[2])
        .field("phase", &format_args!("{phase}"));
    if pending {
        let len = usize::from(state[5]).min(LONGEST_ORDER);
        shown.field("tries_used", &state[4]).field("pending", &format_args!("{len} bytes"));
    }
    shown
}

impl Initiator {
    /// A link that is closed; 1 to 8 tries. Refusals 18, 19, in this order. An order that was pending in a record now lost was carried
    /// out at most once.
    pub fn new(own: Address, peer: Address, tries: u8) -> Result<Initiator, Refusal> {
        let mut state = [0; ffi::KOY_INITIATOR_SIZE];
        done(unsafe { ffi::koy_initiator_new(&mut state, own.0, peer.0, tries) })?;
        Ok(Initiator { state })
    }

    /// The same with no number of tries stated: [`DEFAULT_TRIES`]. Refusal 18.
    pub fn with_default_tries(own: Address, peer: Address) -> Result<Initiator, Refusal> {
        Initiator::new(own, peer, DEFAULT_TRIES)
    }

    /// An order of 1 to 246 bytes. Refusals 10, 17, 16, in this order.
    pub fn submit<'buf>(
        &mut self,
        order: &[u8],
        buf: &'buf mut [u8],
    ) -> Result<InitiatorAnswer<'static, 'buf>, Refusal> {
        let mut told = [0; 3];
        let code = unsafe {
            ffi::koy_initiator_submit(
                &mut self.state,
                order.as_ptr(),
                order.len(),
                buf.as_mut_ptr(),
                buf.len(),
                &mut told,
            )
        };
        initiator_answer(code, told, &[], buf)
    }

    /// Nothing was heard in time. Refusal 10.
    pub fn silence<'buf>(&mut self, buf: &'buf mut [u8]) -> Result<InitiatorAnswer<'static, 'buf>, Refusal> {
        let mut told = [0; 3];
        let code = unsafe { ffi::koy_initiator_silence(&mut self.state, buf.as_mut_ptr(), buf.len(), &mut told) };
        initiator_answer(code, told, &[], buf)
    }

    /// These bytes were heard. Refusal 10.
    pub fn hear<'heard, 'buf>(
        &mut self,
        heard: &'heard [u8],
        buf: &'buf mut [u8],
    ) -> Result<InitiatorAnswer<'heard, 'buf>, Refusal> {
        let mut told = [0; 3];
        let code = unsafe {
            ffi::koy_initiator_hear(
                &mut self.state,
                heard.as_ptr(),
                heard.len(),
                buf.as_mut_ptr(),
                buf.len(),
                &mut told,
            )
        };
        initiator_answer(code, told, heard, buf)
    }

    /// Closes the link and gives a pending order up: says what became of it.
    pub fn restart(&mut self) -> InitiatorAnswer<'static, 'static> {
        initiator_restart(&mut self.state)
    }
}

/// The addresses, the phase, and of a pending order its length and the tries used.
impl fmt::Debug for Initiator {
    fn fmt(&self, f: &mut fmt::Formatter<'_>) -> fmt::Result {
        show_initiator("Initiator", &self.state, f).finish()
    }
}

/// The cabinet's end: it hands each order up once, and repeats its reply. A driver that takes this one, and not
/// [`GuardedResponder`](crate::GuardedResponder), sees to that too, and to it that an answer is to the order handed up last: the first
/// answer is taken for it.
///
/// It is moved and never copied, stored or loaded; keep one for a link. After a loss of power, or a new start of the program, make it
/// with [`Responder::new`]; where it is still there, call [`Responder::restart`]. What an older record would do: record stored, an
/// order carried out, its reply lost, record loaded, the order repeated: carried out twice.
#[derive(PartialEq, Eq)]
pub struct Responder {
    state: [u8; ffi::KOY_RESPONDER_SIZE],
}

/// What a call of the cabinet's end says. A telegram borrows the buffer that the call was lent, and an order the heard bytes.
#[must_use = "an answer that is dropped may be an order to be carried out"]
#[derive(Clone, Copy, Debug, PartialEq, Eq, Hash)]
pub enum ResponderAnswer<'heard, 'buf> {
    /// Send this telegram, the front of the buffer, if it is still within the slot.
    Sent(&'buf [u8]),
    /// Carry this order out, a part of the heard bytes, once; then answer.
    HandedUp(&'heard [u8]),
    /// Nothing to do: send nothing.
    Nothing,
}

fn responder_answer<'heard, 'buf>(
    code: u8,
    told: [usize; 2],
    heard: &'heard [u8],
    buf: &'buf [u8],
) -> Result<ResponderAnswer<'heard, 'buf>, Refusal> {
    let [first, len] = told;
    Ok(match code {
        ffi::KOY_SENT => ResponderAnswer::Sent(&buf[..first]),
        ffi::KOY_HANDED_UP => ResponderAnswer::HandedUp(&heard[first..first + len]),
        ffi::KOY_DONE => ResponderAnswer::Nothing,
        code => return Err(Refusal::of_code(code)),
    })
}

/// What a person asks of a cabinet's record; koyandefa.h gives its layout.
pub(crate) fn show_responder<'a, 'b>(
    name: &str,
    state: &[u8; ffi::KOY_RESPONDER_SIZE],
    f: &'b mut fmt::Formatter<'a>,
) -> fmt::DebugStruct<'b, 'a> {
    let (phase, holds) = match state[2] {
        1 => ("opened", false),
        2 => ("owes the reply to an order under Low", false),
        3 => ("owes the reply to an order under High", false),
        4 => ("holds the reply to an order under Low", true),
        5 => ("holds the reply to an order under High", true),
        _ => ("blank", false),
    };
    let mut shown = f.debug_struct(name);
    shown.field("own", &state[0]).field("peer", &state[1]).field("phase", &format_args!("{phase}"));
    if holds {
        let len = usize::from(state[3]).min(LONGEST_ORDER);
        shown.field("reply", &format_args!("{len} bytes"));
    }
    shown
}

impl Responder {
    /// A responder that remembers nothing. Refusal 18.
    pub fn new(own: Address, peer: Address) -> Result<Responder, Refusal> {
        let mut state = [0; ffi::KOY_RESPONDER_SIZE];
        done(unsafe { ffi::koy_responder_new(&mut state, own.0, peer.0) })?;
        Ok(Responder { state })
    }

    /// These bytes were heard. Refusal 10.
    pub fn hear<'heard, 'buf>(
        &mut self,
        heard: &'heard [u8],
        buf: &'buf mut [u8],
    ) -> Result<ResponderAnswer<'heard, 'buf>, Refusal> {
        let mut told = [0; 2];
        let code = unsafe {
            ffi::koy_responder_hear(
                &mut self.state,
                heard.as_ptr(),
                heard.len(),
                buf.as_mut_ptr(),
                buf.len(),
                &mut told,
            )
        };
        responder_answer(code, told, heard, buf)
    }

    /// The reply to the order handed up, up to 246 bytes. Refusals 10, 21, 9, in this order.
    pub fn answer<'buf>(
        &mut self,
        reply: &[u8],
        buf: &'buf mut [u8],
    ) -> Result<ResponderAnswer<'static, 'buf>, Refusal> {
        let mut told = [0; 2];
        let code = unsafe {
            ffi::koy_responder_answer(
                &mut self.state,
                reply.as_ptr(),
                reply.len(),
                buf.as_mut_ptr(),
                buf.len(),
                &mut told,
            )
        };
        responder_answer(code, told, &[], buf)
    }

    /// Forgets all.
    pub fn restart(&mut self) {
        unsafe { ffi::koy_responder_restart(&mut self.state) }
    }
}

/// The addresses, the phase, and of a reply that is held its length.
impl fmt::Debug for Responder {
    fn fmt(&self, f: &mut fmt::Formatter<'_>) -> fmt::Result {
        show_responder("Responder", &self.state, f).finish()
    }
}
