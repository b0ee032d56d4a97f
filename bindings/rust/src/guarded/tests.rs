//! Two runs that document 01's plain calls end wrong where a driver hears or answers late, and the guarded ends right: a late answer of
//! the application, and a late telegram from a receive queue.
use super::*;
use crate::{Initiator, Responder, ResponderAnswer, ROOM};
use std::string::String;
use std::vec::Vec;

const HEAD_END: Address = Address(2);
const CABINET: Address = Address(5);

/// A clock that ticks at each event.
struct Clock(usize);

impl Clock {
    fn tick(&mut self) -> usize {
        self.0 += 1;
        self.0
    }
}

/// The telegram that the head end has sent.
fn written(answer: InitiatorAnswer) -> Vec<u8> {
    match answer {
        InitiatorAnswer::Sent(telegram) => telegram.to_vec(),
        other => panic!("{other:?}"),
    }
}

/// The telegram that the cabinet has sent.
fn responded(answer: ResponderAnswer) -> Vec<u8> {
    match answer {
        ResponderAnswer::Sent(telegram) => telegram.to_vec(),
        other => panic!("{other:?}"),
    }
}

/// The reply with which an order is confirmed.
fn confirmed(answer: InitiatorAnswer) -> String {
    match answer {
        InitiatorAnswer::Confirmed { reply, .. } => String::from_utf8(reply.to_vec()).unwrap(),
        other => panic!("{other:?}"),
    }
}

/// Both plain ends, up to an order handed up: the line is without a fault.
struct Plain {
    initiator: Initiator,
    responder: Responder,
    buf: [u8; ROOM],
}

impl Plain {
    fn new(tries: u8) -> Plain {
        let initiator = Initiator::new(HEAD_END, CABINET, tries).unwrap();
        let responder = Responder::new(CABINET, HEAD_END).unwrap();
        Plain { initiator, responder, buf: [0; ROOM] }
    }

    fn submit(&mut self, order: &str) -> Vec<u8> {
        written(self.initiator.submit(order.as_bytes(), &mut self.buf).unwrap())
    }

    fn initiator_hears<'a>(&'a mut self, heard: &'a [u8]) -> InitiatorAnswer<'a, 'a> {
        self.initiator.hear(heard, &mut self.buf).unwrap()
    }

    fn responder_writes(&mut self, heard: &[u8]) -> Vec<u8> {
        responded(self.responder.hear(heard, &mut self.buf).unwrap())
    }

    fn handed_up(&mut self, heard: &[u8]) -> String {
        match self.responder.hear(heard, &mut self.buf).unwrap() {
            ResponderAnswer::HandedUp(order) => String::from_utf8(order.to_vec()).unwrap(),
            other => panic!("{other:?}"),
        }
    }

    fn opened_and_handed_up(&mut self, order: &str) {
        let opening = self.submit(order);
        let ok = self.responder_writes(&opening);
        let telegram = written(self.initiator_hears(&ok));
        assert_eq!(self.handed_up(&telegram), order);
    }

    fn answer(&mut self, reply: &str) -> Vec<u8> {
        responded(self.responder.answer(reply.as_bytes(), &mut self.buf).unwrap())
    }
}

/// The same with the guarded ends; each keeps its own time.
struct Guarded {
    initiator: GuardedInitiator,
    responder: GuardedResponder,
    head_end: Clock,
    cabinet: Clock,
    buf: [u8; ROOM],
}

impl Guarded {
    fn new(tries: u8) -> Guarded {
        Guarded {
            initiator: GuardedInitiator::new(HEAD_END, CABINET, tries, 0).unwrap(),
            responder: GuardedResponder::new(CABINET, HEAD_END, 7000).unwrap(),
            head_end: Clock(0),
            cabinet: Clock(7000),
            buf: [0; ROOM],
        }
    }

    fn submit(&mut self, order: &str) -> Vec<u8> {
        let now = self.head_end.tick();
        written(self.initiator.submit(now, order.as_bytes(), &mut self.buf).unwrap())
    }

    /// Received and heard at once.
    fn initiator_hears<'a>(&'a mut self, heard: &'a [u8]) -> InitiatorAnswer<'a, 'a> {
        let at = self.head_end.tick();
        self.initiator_hears_from_queue(at, heard)
    }

    fn initiator_hears_from_queue<'a>(&'a mut self, at: usize, heard: &'a [u8]) -> InitiatorAnswer<'a, 'a> {
        let now = self.head_end.tick();
        self.initiator.hear(Received { at, bytes: heard }, now, &mut self.buf).unwrap()
    }

    fn responder_hears(&mut self, heard: &[u8]) -> Heard<'_> {
        let at = self.cabinet.tick();
        self.responder_hears_from_queue(at, heard)
    }

    fn responder_hears_from_queue(&mut self, at: usize, heard: &[u8]) -> Heard<'_> {
        let now = self.cabinet.tick();
        self.responder.hear(Received { at, bytes: heard }, now, &mut self.buf).unwrap()
    }

    fn handed_up(&mut self, heard: &[u8]) -> HandUp {
        match self.responder_hears(heard) {
            Heard::HandedUp(order) => order,
            other => panic!("{other:?}"),
        }
    }

    fn opened_and_handed_up(&mut self, order: &str) -> HandUp {
        let opening = self.submit(order);
        let ok = match self.responder_hears(&opening) {
            Heard::Sent(telegram) => telegram.to_vec(),
            other => panic!("{other:?}"),
        };
        let telegram = written(self.initiator_hears(&ok));
        let handed_up = self.handed_up(&telegram);
        assert_eq!(handed_up.order(), order.as_bytes());
        handed_up
    }

    #[allow(clippy::result_large_err)]
    fn answer(&mut self, order: HandUp, reply: &str) -> Result<Vec<u8>, NotTaken> {
        let now = self.cabinet.tick();
        self.responder.answer(order, now, reply.as_bytes(), &mut self.buf).map(<[u8]>::to_vec)
    }
}

/// Order A is handed up, and its application is slow. The head end, with one try, reports A unknown and submits B, which is handed up too.
/// Now the application is done with A.
#[test]
fn a_late_answer_to_an_order_given_up() {
    let mut plain = Plain::new(1);
    plain.opened_and_handed_up("A");
    assert_eq!(plain.initiator.silence(&mut plain.buf), Ok(InitiatorAnswer::Unknown { tries: 1 }));
    plain.opened_and_handed_up("B");
    let late = plain.answer("A is done");
    assert_eq!(
        confirmed(plain.initiator_hears(&late)),
        "A is done",
        "the plain calls end WRONG: B is confirmed by A's reply"
    );

    let mut run = Guarded::new(1);
    let a = run.opened_and_handed_up("A");
    let now = run.head_end.tick();
    assert_eq!(run.initiator.silence(now, &mut run.buf), Ok(InitiatorAnswer::Unknown { tries: 1 }));
    let b = run.opened_and_handed_up("B");
    assert_eq!(run.answer(a, "A is done"), Err(NotTaken::NoReplyOwed), "21");
    let reply = run.answer(b, "B is done").unwrap();
    assert_eq!(confirmed(run.initiator_hears(&reply)), "B is done");
}

/// The order is handed up, and the application is slow. Silence is reported and the retry written, which waits in the cabinet's receive
/// queue while the late answer is written. Then the retry is heard.
#[test]
fn an_answer_after_its_slot() {
    let mut plain = Plain::new(2);
    plain.opened_and_handed_up("close-18");
    let retry = written(plain.initiator.silence(&mut plain.buf).unwrap());
    let first = plain.answer("close-18 is done");
    let second = plain.responder_writes(&retry);
    assert_eq!(confirmed(plain.initiator_hears(&first)), "close-18 is done");
    plain.submit("open-19");
    assert_eq!(
        confirmed(plain.initiator_hears(&second)),
        "close-18 is done",
        "the plain calls end WRONG: open-19 is confirmed by close-18's reply, and was never carried out"
    );

    let mut run = Guarded::new(2);
    let order = run.opened_and_handed_up("close-18");
    let now = run.head_end.tick();
    let retry = written(run.initiator.silence(now, &mut run.buf).unwrap());
    let queued = run.cabinet.tick();
    let first = run.answer(order, "close-18 is done").unwrap();
    assert_eq!(
        run.responder_hears_from_queue(queued, &retry),
        Heard::Nothing,
        "received before the answer was written"
    );
    assert_eq!(confirmed(run.initiator_hears(&first)), "close-18 is done");
    let telegram = run.submit("open-19");
    let order = run.handed_up(&telegram);
    assert_eq!(order.order(), b"open-19");
    let reply = run.answer(order, "open-19 is done").unwrap();
    assert_eq!(confirmed(run.initiator_hears(&reply)), "open-19 is done");
}

/// The head end's own guard: a second copy of a reply, on the line for whatever reason, waits in its receive queue while the next order is
/// submitted.
#[test]
fn a_second_copy_in_the_head_ends_queue() {
    let mut run = Guarded::new(2);
    let order = run.opened_and_handed_up("close-18");
    let reply = run.answer(order, "close-18 is done").unwrap();
    assert_eq!(confirmed(run.initiator_hears(&reply)), "close-18 is done");
    let queued = run.head_end.tick();
    let telegram = run.submit("open-19");
    assert_eq!(run.initiator_hears_from_queue(queued, &reply), InitiatorAnswer::Nothing);
    let same_moment = run.head_end.0 - 1;
    assert_eq!(run.initiator_hears_from_queue(same_moment, &reply), InitiatorAnswer::Nothing, "a tie is no order");
    let order = run.handed_up(&telegram);
    let reply = run.answer(order, "open-19 is done").unwrap();
    assert_eq!(confirmed(run.initiator_hears(&reply)), "open-19 is done");
}

/// A clock that goes back does not let in again what was shut out.
#[test]
fn a_clock_that_went_back() {
    let mut run = Guarded::new(2);
    run.head_end.0 = 1000;
    run.submit("close-18");
    assert_eq!(run.initiator.last, [1001]);
    run.head_end.0 = 10;
    let now = run.head_end.tick();
    written(run.initiator.silence(now, &mut run.buf).unwrap());
    assert_eq!(run.initiator.last, [1001]);
}

/// A refusal that can be mended gives the order back; one that cannot does not.
#[test]
fn an_order_comes_back_where_the_answer_can_be_mended() {
    let mut run = Guarded::new(2);
    let order = run.opened_and_handed_up("close-18");
    let (state, guard) = (run.responder.state, run.responder.guard);
    let now = run.cabinet.tick();
    let mut order = order;
    for (reply, room, refusal) in [(4, 254, Refusal::NoRoom), (247, 255, Refusal::TooLong)] {
        order = match run.responder.answer(order, now, &[0; 247][..reply], &mut run.buf[..room]) {
            Err(NotTaken::Again(given, order)) if given == refusal => order,
            other => panic!("{other:?}"),
        };
    }
    assert_eq!((run.responder.state, run.responder.guard), (state, guard));
    assert_eq!(order.order(), b"close-18");
    assert!(run.answer(order, "done").is_ok());
}

/// An order of a responder that was restarted or made anew is no longer waited for. Where the clock went on its number is another; where
/// it began anew, so that the number is there again, the order's value tells the two responders apart.
#[test]
fn an_order_of_an_earlier_responder() {
    let mut run = Guarded::new(2);
    let order = run.opened_and_handed_up("close-18");
    run.responder.restart();
    assert_eq!(run.answer(order, "done"), Err(NotTaken::NoReplyOwed));

    let mut run = Guarded::new(2);
    let old = run.opened_and_handed_up("close-18");
    run.responder = GuardedResponder::new(CABINET, HEAD_END, run.cabinet.tick()).unwrap();
    let _ = run.initiator.restart();
    let new = run.opened_and_handed_up("open-19");
    assert_ne!(old.number, new.number);
    run.responder = GuardedResponder::new(CABINET, HEAD_END, new.number - 1).unwrap();
    let _ = run.initiator.restart();
    let newest = run.opened_and_handed_up("open-20");
    assert_eq!(new.number, newest.number);
    assert_eq!(run.answer(old, "close-18 is done"), Err(NotTaken::NoReplyOwed));
    assert_eq!(run.answer(new, "open-19 is done"), Err(NotTaken::NoReplyOwed));
    assert!(run.answer(newest, "open-20 is done").is_ok());
}

/// Numbers go on at 0 behind the greatest.
#[test]
fn the_greatest_number() {
    let mut run = Guarded::new(2);
    run.responder.guard[1] = usize::MAX;
    let order = run.opened_and_handed_up("close-18");
    assert_eq!((order.number, run.responder.guard[1]), (0, 0));
    assert!(run.answer(order, "done").is_ok());
}

/// What a person asks, and no bytes of a record.
#[test]
fn what_is_shown() {
    let mut run = Guarded::new(2);
    let order = run.opened_and_handed_up("close-18");
    assert_eq!(
        format!("{:?}", run.initiator),
        "GuardedInitiator { own: 2, peer: 5, tries: 2, phase: order sent under Low, tries_used: 1, pending: 8 bytes, \
         last_written: 3 }"
    );
    assert_eq!(format!("{order:?}"), "HandUp { number: 7001, order: [63, 6C, 6F, 73, 65, 2D, 31, 38] }");
    run.answer(order, "done").unwrap();
    assert_eq!(
        format!("{:?}", run.responder),
        "GuardedResponder { own: 5, peer: 2, phase: holds the reply to an order under Low, reply: 4 bytes, \
         last_written: 7005, last_number: 7001 }"
    );
}
