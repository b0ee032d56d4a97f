//! The two ends of the order link with their guards: what was received before an end's own last telegram is not heard, and an answer
//! names the order that it answers. Take these, unless the driver itself sees to both.
use crate::address::Address;
use crate::ffi;
use crate::link::{
    initiator_answer, initiator_restart, show_initiator, show_responder, InitiatorAnswer, LONGEST_ORDER,
};
use crate::refusal::{done, Refusal};
use core::fmt;
use core::sync::atomic::{AtomicUsize, Ordering};

#[cfg(test)]
mod tests;

/// Bytes that were received, with the stamp of the moment at which the last of them came in (not of the moment at which they are read
/// from a queue).
///
/// Stamps are the driver's own, at each end: of any clock or count that never goes back. Bytes count as received after a telegram was
/// written only where their stamp is the greater one, so that the clock must tick between the two; a count that the driver steps at
/// each event will do. `now` of the ends' calls is the stamp of the call, by the same clock.
#[derive(Clone, Copy, Debug, PartialEq, Eq, Hash)]
pub struct Received<'a> {
    /// When the last byte came in.
    pub at: usize,
    /// One telegram that fills these bytes, as [`read`](crate::read) or [`telegrams`](crate::telegrams) finds it; others are ignored.
    pub bytes: &'a [u8],
}

/// The head end: [`Initiator`](crate::Initiator) with the stamp of its last telegram. Bytes that were not received after it are ignored:
/// they can be no reply to it. `now` is the stamp of a call, as [`Received`] says.
///
/// It is moved and never copied, stored or loaded; keep one for a link. After a loss of power, or a new start of the program, make it
/// with [`GuardedInitiator::new`]; where it is still there, call [`GuardedInitiator::restart`].
///
/// Both ends, and an order whose reply comes at once:
///
/// ```
/// # use koyandefa::{Address, GuardedInitiator, GuardedResponder, Heard, InitiatorAnswer, Received, Refusal, ROOM};
/// # fn main() -> Result<(), Refusal> {
/// // Stamps: both ends are in one program here, so that one count will do.
/// let mut events = 0;
/// let mut now = || {
///     events += 1;
///     events
/// };
/// let mut head_end = GuardedInitiator::new(Address(2), Address(5), 2, now())?;
/// let mut cabinet = GuardedResponder::new(Address(5), Address(2), now())?;
/// let (mut sent, mut reply) = ([0; ROOM], [0; ROOM]);
///
/// // The first order opens the link first.
/// let opening = match head_end.submit(now(), b"close-18", &mut sent)? {
///     InitiatorAnswer::Sent(telegram) => telegram,
///     other => panic!("{other:?}"),
/// };
/// let ok = match cabinet.hear(Received { at: now(), bytes: opening }, now(), &mut reply)? {
///     Heard::Sent(telegram) => telegram,
///     other => panic!("{other:?}"),
/// };
/// let order = match head_end.hear(Received { at: now(), bytes: ok }, now(), &mut sent)? {
///     InitiatorAnswer::Sent(telegram) => telegram,
///     other => panic!("{other:?}"),
/// };
///
/// // The cabinet carries the order out, once, and answers with it.
/// let order = match cabinet.hear(Received { at: now(), bytes: order }, now(), &mut reply)? {
///     Heard::HandedUp(order) => order,
///     other => panic!("{other:?}"),
/// };
/// assert_eq!(order.order(), b"close-18");
/// let answer = cabinet.answer(order, now(), b"closed", &mut reply).expect("it is owed, and there is room");
///
/// let answer = head_end.hear(Received { at: now(), bytes: answer }, now(), &mut sent)?;
/// assert_eq!(answer, InitiatorAnswer::Confirmed { reply: b"closed", tries: 1 });
/// # Ok(())
/// # }
/// ```
#[derive(PartialEq, Eq)]
pub struct GuardedInitiator {
    state: [u8; ffi::KOY_INITIATOR_SIZE],
    last: [usize; 1],
}

impl GuardedInitiator {
    /// A link that is closed; 1 to 8 tries. Refusals 18, 19, in this order. An order that was pending in a record now lost was carried
    /// out at most once.
    pub fn new(own: Address, peer: Address, tries: u8, now: usize) -> Result<GuardedInitiator, Refusal> {
        let mut state = [0; ffi::KOY_INITIATOR_SIZE];
        let mut last = [0];
        done(unsafe { ffi::koy_guarded_initiator_new(&mut state, &mut last, own.0, peer.0, tries, now) })?;
        Ok(GuardedInitiator { state, last })
    }

    /// The same with no number of tries stated: [`DEFAULT_TRIES`](crate::DEFAULT_TRIES). Refusal 18.
    pub fn with_default_tries(own: Address, peer: Address, now: usize) -> Result<GuardedInitiator, Refusal> {
        GuardedInitiator::new(own, peer, crate::DEFAULT_TRIES, now)
    }

    /// An order of 1 to 246 bytes. Gives [`InitiatorAnswer::Sent`]. Refusals 10, 17, 16, in this order.
    pub fn submit<'buf>(
        &mut self,
        now: usize,
        order: &[u8],
        buf: &'buf mut [u8],
    ) -> Result<InitiatorAnswer<'static, 'buf>, Refusal> {
        let mut told = [0; 3];
        let code = unsafe {
            ffi::koy_guarded_initiator_submit(
                &mut self.state,
                &mut self.last,
                now,
                order.as_ptr(),
                order.len(),
                buf.as_mut_ptr(),
                buf.len(),
                &mut told,
            )
        };
        initiator_answer(code, told, &[], buf)
    }

    /// Nothing was heard in time: the line has been idle for the slot time after the last byte sent or received. Gives
    /// [`InitiatorAnswer::Sent`] while tries are left, then `NotSent` or `Unknown`; `Nothing` where no order is pending. Refusal 10.
    pub fn silence<'buf>(
        &mut self,
        now: usize,
        buf: &'buf mut [u8],
    ) -> Result<InitiatorAnswer<'static, 'buf>, Refusal> {
        let mut told = [0; 3];
        let code = unsafe {
            ffi::koy_guarded_initiator_silence(
                &mut self.state,
                &mut self.last,
                now,
                buf.as_mut_ptr(),
                buf.len(),
                &mut told,
            )
        };
        initiator_answer(code, told, &[], buf)
    }

    /// These bytes were received. Gives [`InitiatorAnswer::Sent`] (the order, after its opening), `Confirmed` or `Nothing`. Refusal 10.
    pub fn hear<'heard, 'buf>(
        &mut self,
        heard: Received<'heard>,
        now: usize,
        buf: &'buf mut [u8],
    ) -> Result<InitiatorAnswer<'heard, 'buf>, Refusal> {
        let mut told = [0; 3];
        let code = unsafe {
            ffi::koy_guarded_initiator_hear(
                &mut self.state,
                &mut self.last,
                heard.at,
                now,
                heard.bytes.as_ptr(),
                heard.bytes.len(),
                buf.as_mut_ptr(),
                buf.len(),
                &mut told,
            )
        };
        initiator_answer(code, told, heard.bytes, buf)
    }

    /// Closes the link and gives a pending order up: says what became of it, `NotSent`, `Unknown` or `Nothing`. The guard goes on.
    ///
    /// What it says is not to be dropped:
    ///
    /// ```compile_fail
    /// #![deny(unused_must_use)]
    /// # fn driver(mut head_end: koyandefa::GuardedInitiator) {
    /// head_end.restart();
    /// # }
    /// ```
    pub fn restart(&mut self) -> InitiatorAnswer<'static, 'static> {
        initiator_restart(&mut self.state)
    }
}

/// The addresses, the phase, of a pending order its length and the tries used, and the stamp of the last telegram.
impl fmt::Debug for GuardedInitiator {
    fn fmt(&self, f: &mut fmt::Formatter<'_>) -> fmt::Result {
        show_initiator("GuardedInitiator", &self.state, f).field("last_written", &self.last[0]).finish()
    }
}

/// An order that was handed up: carry it out, and answer with this value. It cannot be copied or made by hand, and answering uses it
/// up. It names its order, so that an answer that comes too late is refused, and is not taken for the order handed up since.
#[must_use = "an order that was handed up is carried out and answered"]
#[derive(PartialEq, Eq)]
pub struct HandUp {
    order: [u8; LONGEST_ORDER],
    len: usize,
    number: usize,
    end: usize,
}

impl HandUp {
    /// The order, 1 to 246 bytes.
    #[must_use]
    pub fn order(&self) -> &[u8] {
        &self.order[..self.len]
    }
}

/// The order's number and its bytes.
impl fmt::Debug for HandUp {
    fn fmt(&self, f: &mut fmt::Formatter<'_>) -> fmt::Result {
        let mut shown = f.debug_struct("HandUp");
        shown.field("number", &self.number).field("order", &format_args!("{:02X?}", self.order())).finish()
    }
}

/// What the cabinet's end says of what it heard. A telegram borrows the buffer that the call was lent; an order is a copy.
#[must_use = "an answer that is dropped may be an order to be carried out"]
#[derive(Debug, PartialEq, Eq)]
// Without std there is no heap to put the order on.
#[allow(clippy::large_enum_variant)]
pub enum Heard<'buf> {
    /// Send this telegram, the front of the buffer, if it is still within the slot.
    Sent(&'buf [u8]),
    /// Carry this order out, once, then answer with it.
    HandedUp(HandUp),
    /// Nothing to do: send nothing.
    Nothing,
}

/// Why an answer was not taken.
#[must_use]
#[derive(Debug, PartialEq, Eq)]
#[allow(clippy::large_enum_variant)]
pub enum NotTaken {
    /// 10, the buffer is too short, or 9, the reply is too long: answer again with the order, which comes back.
    Again(Refusal, HandUp),
    /// 21: this order is no longer waited for. What was carried out is reported by nobody; do not answer for it.
    NoReplyOwed,
}

impl NotTaken {
    /// The refusal: 9, 10 or 21.
    #[must_use]
    pub fn refusal(&self) -> Refusal {
        match self {
            NotTaken::Again(refusal, _) => *refusal,
            NotTaken::NoReplyOwed => Refusal::NoReplyOwed,
        }
    }
}

/// The refusal's words.
impl fmt::Display for NotTaken {
    fn fmt(&self, f: &mut fmt::Formatter<'_>) -> fmt::Result {
        self.refusal().fmt(f)
    }
}

#[cfg(feature = "std")]
impl std::error::Error for NotTaken {}

/// The cabinet's end: [`Responder`](crate::Responder) with the stamp of its last telegram, and the number of the order that it handed up
/// last. `now` is the stamp of a call, as [`Received`] says.
///
/// It is moved and never copied, stored or loaded; keep one for a link. After a loss of power, or a new start of the program, make it
/// with [`GuardedResponder::new`]; where it is still there, call [`GuardedResponder::restart`]. [`GuardedInitiator`] shows an order
/// through both ends.
#[derive(PartialEq, Eq)]
pub struct GuardedResponder {
    state: [u8; ffi::KOY_RESPONDER_SIZE],
    guard: [usize; 2],
    end: usize,
}

/// Numbers may come again where a responder is made anew and the clock has begun anew: an order handed up by another one, or by an
/// earlier one, is told apart by this.
static ENDS: AtomicUsize = AtomicUsize::new(0);

impl GuardedResponder {
    /// A responder that remembers nothing. Refusal 18.
    pub fn new(own: Address, peer: Address, now: usize) -> Result<GuardedResponder, Refusal> {
        let mut state = [0; ffi::KOY_RESPONDER_SIZE];
        let mut guard = [0; 2];
        done(unsafe { ffi::koy_guarded_responder_new(&mut state, &mut guard, own.0, peer.0, now) })?;
        Ok(GuardedResponder { state, guard, end: ENDS.fetch_add(1, Ordering::Relaxed) })
    }

    /// These bytes were received: an opening or a repeat is answered at once, a new order is handed up, once. Refusal 10.
    pub fn hear<'buf>(&mut self, heard: Received<'_>, now: usize, buf: &'buf mut [u8]) -> Result<Heard<'buf>, Refusal> {
        let mut told = [0; 3];
        let code = unsafe {
            ffi::koy_guarded_responder_hear(
                &mut self.state,
                &mut self.guard,
                heard.at,
                now,
                heard.bytes.as_ptr(),
                heard.bytes.len(),
                buf.as_mut_ptr(),
                buf.len(),
                &mut told,
            )
        };
        let [first, len, number] = told;
        Ok(match code {
            ffi::KOY_SENT => Heard::Sent(&buf[..first]),
            ffi::KOY_HANDED_UP => {
                let mut order = [0; LONGEST_ORDER];
                order[..len].copy_from_slice(&heard.bytes[first..first + len]);
                Heard::HandedUp(HandUp { order, len, number, end: self.end })
            }
            ffi::KOY_DONE => Heard::Nothing,
            code => return Err(Refusal::of_code(code)),
        })
    }

    /// The reply to this order, up to 246 bytes: the telegram, which stands at the front of the buffer. Send it if it is still within the
    /// slot; later, throw it away: the head end's repeat fetches the reply. Refusals 21 where another order was handed up since; then
    /// 10, 21, 9, in this order.
    // An order that comes back with the refusal is large; without std there is no heap to put it on.
    #[allow(clippy::result_large_err)]
    pub fn answer<'buf>(
        &mut self,
        hand_up: HandUp,
        now: usize,
        reply: &[u8],
        buf: &'buf mut [u8],
    ) -> Result<&'buf [u8], NotTaken> {
        if hand_up.end != self.end {
            return Err(NotTaken::NoReplyOwed);
        }
        let mut told = [0; 3];
        let code = unsafe {
            ffi::koy_guarded_responder_answer(
                &mut self.state,
                &mut self.guard,
                hand_up.number,
                now,
                reply.as_ptr(),
                reply.len(),
                buf.as_mut_ptr(),
                buf.len(),
                &mut told,
            )
        };
        if code == ffi::KOY_SENT {
            return Ok(&buf[..told[0]]);
        }
        Err(match Refusal::of_code(code) {
            Refusal::NoReplyOwed => NotTaken::NoReplyOwed,
            refusal => NotTaken::Again(refusal, hand_up),
        })
    }

    /// Forgets all; an order that was handed up is no longer waited for. The guard goes on.
    pub fn restart(&mut self) {
        unsafe { ffi::koy_responder_restart(&mut self.state) }
    }
}

/// The addresses, the phase, of a reply that is held its length, the stamp of the last telegram and the number of the last order.
impl fmt::Debug for GuardedResponder {
    fn fmt(&self, f: &mut fmt::Formatter<'_>) -> fmt::Result {
        show_responder("GuardedResponder", &self.state, f)
            .field("last_written", &self.guard[0])
            .field("last_number", &self.guard[1])
            .finish()
    }
}
