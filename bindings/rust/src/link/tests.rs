//! Here alone can a record be made of any bytes or put back, since the field is open to this module: the accidents by which the ends
//! are moved only, beside `new` and `restart`, which are right.
use super::*;
use std::string::{String, ToString};
use std::vec::Vec;

const HEAD_END: Address = Address(2);
const CABINET: Address = Address(5);

/// The telegram that an end has sent.
fn sent(answer: Result<InitiatorAnswer, Refusal>) -> Vec<u8> {
    match answer {
        Ok(InitiatorAnswer::Sent(telegram)) => telegram.to_vec(),
        other => panic!("{other:?}"),
    }
}

#[test]
fn any_bytes_are_an_end() {
    let mut buf = [0; ROOM];
    for fill in 0..=255u8 {
        let mut initiator = Initiator { state: [fill; ffi::KOY_INITIATOR_SIZE] };
        let _ = initiator.submit(&[1, 2], &mut buf);
        let _ = initiator.silence(&mut buf);
        let _ = initiator.restart();
        assert_eq!(initiator.state[3..6], [0, 0, 0]);
        let mut responder = Responder { state: [fill; ffi::KOY_RESPONDER_SIZE] };
        let _ = responder.answer(&[1, 2], &mut buf);
        responder.restart();
        assert_eq!(responder.state[2..], [0; 248]);
    }
}

struct Link {
    initiator: Initiator,
    responder: Responder,
    carried_out: u32,
    line: Vec<u8>,
}

impl Link {
    /// Open, one order confirmed.
    fn new() -> Link {
        let (initiator, responder) =
            (Initiator::new(HEAD_END, CABINET, 2).unwrap(), Responder::new(CABINET, HEAD_END).unwrap());
        let mut link = Link { initiator, responder, carried_out: 0, line: Vec::new() };
        assert_eq!(link.confirmed("order-1"), ("order-1".to_string(), 1));
        link
    }

    fn submit(&mut self, order: &str) {
        self.line = sent(self.initiator.submit(order.as_bytes(), &mut [0; ROOM]));
    }

    /// The cabinet hears the line; its reply to an order is the order's own text.
    fn cabinet(&mut self) {
        let (mut buf, mut other) = ([0; ROOM], [0; ROOM]);
        let mut answer = self.responder.hear(&self.line, &mut buf).unwrap();
        if let ResponderAnswer::HandedUp(order) = answer {
            self.carried_out += 1;
            answer = self.responder.answer(order, &mut other).unwrap();
        }
        self.line = if let ResponderAnswer::Sent(telegram) = answer { telegram.to_vec() } else { Vec::new() };
    }

    /// The reply with which an order is confirmed, and how often anything was carried out for it.
    fn confirmed(&mut self, order: &str) -> (String, u32) {
        self.carried_out = 0;
        self.submit(order);
        loop {
            self.cabinet();
            match self.initiator.hear(&self.line, &mut [0; ROOM]) {
                Ok(InitiatorAnswer::Sent(telegram)) => self.line = telegram.to_vec(),
                Ok(InitiatorAnswer::Confirmed { reply, .. }) => {
                    return (String::from_utf8(reply.to_vec()).unwrap(), self.carried_out);
                }
                other => panic!("{other:?}"),
            }
        }
    }
}

#[test]
fn an_initiator_put_back_shows_an_old_reply() {
    for (restarted, reply, carried_out) in
        [("put back", "close-18", 0), ("new", "open-19", 1), ("restart", "open-19", 1)]
    {
        let mut link = Link::new();
        let stored = link.initiator.state;
        assert_eq!(link.confirmed("close-18"), ("close-18".to_string(), 1));
        match restarted {
            "put back" => link.initiator.state = stored,
            "new" => link.initiator = Initiator::new(HEAD_END, CABINET, 2).unwrap(),
            _ => assert_eq!(link.initiator.restart(), InitiatorAnswer::Nothing),
        }
        assert_eq!(link.confirmed("open-19"), (reply.to_string(), carried_out), "{restarted}");
    }
}

#[test]
fn a_responder_put_back_carries_an_order_out_twice() {
    for (restarted, carried_out) in [("put back", 2), ("new", 1), ("restart", 1)] {
        let mut link = Link::new();
        let stored = link.responder.state;
        link.carried_out = 0;
        link.submit("close-18");
        link.cabinet();
        match restarted {
            "put back" => link.responder.state = stored,
            "new" => link.responder = Responder::new(CABINET, HEAD_END).unwrap(),
            _ => link.responder.restart(),
        }
        link.line = sent(link.initiator.silence(&mut [0; ROOM]));
        link.cabinet();
        assert_eq!(link.carried_out, carried_out, "{restarted}");
    }
}

/// What a person asks, and no bytes of a record.
#[test]
fn what_is_shown() {
    let mut initiator = Initiator::new(HEAD_END, CABINET, 3).unwrap();
    assert_eq!(format!("{initiator:?}"), "Initiator { own: 2, peer: 5, tries: 3, phase: closed }");
    sent(initiator.submit(b"close-18", &mut [0; ROOM]));
    sent(initiator.silence(&mut [0; ROOM]));
    assert_eq!(
        format!("{initiator:?}"),
        "Initiator { own: 2, peer: 5, tries: 3, phase: opening, tries_used: 2, pending: 8 bytes }"
    );
    let mut link = Link::new();
    assert_eq!(
        format!("{:?}", link.initiator),
        "Initiator { own: 2, peer: 5, tries: 2, phase: open (next under High) }"
    );
    assert_eq!(
        format!("{:?}", link.responder),
        "Responder { own: 5, peer: 2, phase: holds the reply to an order under Low, reply: 7 bytes }"
    );
    link.submit("open-19");
    let handed_up = link.responder.hear(&link.line, &mut [0; ROOM]) == Ok(ResponderAnswer::HandedUp(b"open-19"));
    assert!(handed_up);
    assert_eq!(
        format!("{:?}", link.responder),
        "Responder { own: 5, peer: 2, phase: owes the reply to an order under High }"
    );
    let any = [255; ffi::KOY_INITIATOR_SIZE];
    assert_eq!(
        format!("{:?}", Initiator { state: any }),
        "Initiator { own: 255, peer: 255, tries: 255, phase: closed }"
    );
}
