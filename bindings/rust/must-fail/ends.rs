//! Wrong programs: drivers that keep an older record of an end of the link, share one between threads without a lock, or answer an order
//! twice or without having been handed it. `run` has this file compiled with each `wrong` below, which must be refused with the error
//! named beside it and no other, and without any, which must be taken.
use koyandefa::{GuardedInitiator, GuardedResponder, HandUp, Initiator, NotTaken, Responder, StationList, ROOM};
use std::{sync::Mutex, thread};

pub fn driver(mut initiator: Initiator, mut responder: Responder) {
    #[cfg(wrong = "initiator_cloned")] // E0599
    let old: Initiator = initiator.clone();
    #[cfg(wrong = "initiator_copied")] // E0382
    let old: Initiator = initiator;
    #[cfg(wrong = "initiator_stored")] // E0599
    let old = initiator.to_bytes();
    #[cfg(wrong = "initiator_loaded")] // E0599
    let mut initiator = Initiator::from_bytes([0; 252]);
    #[cfg(wrong = "initiator_made_of_bytes")] // E0451
    let mut initiator = Initiator { state: [0; 252] };
    #[cfg(wrong = "initiator_shared")] // E0499
    thread::scope(|threads| {
        threads.spawn(|| initiator.restart());
        threads.spawn(|| initiator.restart());
    });
    #[cfg(wrong = "responder_cloned")] // E0599
    let old: Responder = responder.clone();
    #[cfg(wrong = "responder_copied")] // E0382
    let old: Responder = responder;
    #[cfg(wrong = "responder_stored")] // E0599
    let old = responder.to_bytes();
    #[cfg(wrong = "responder_loaded")] // E0599
    let mut responder = Responder::from_bytes([0; 250]);
    #[cfg(wrong = "responder_made_of_bytes")] // E0451
    let mut responder = Responder { state: [0; 250] };
    #[cfg(wrong = "responder_shared")] // E0499
    thread::scope(|threads| {
        threads.spawn(|| responder.restart());
        threads.spawn(|| responder.restart());
    });
    let _ = initiator.restart();
    responder.restart();
}

pub fn guarded_driver(mut initiator: GuardedInitiator, mut responder: GuardedResponder) {
    #[cfg(wrong = "guarded_initiator_cloned")] // E0599
    let old: GuardedInitiator = initiator.clone();
    #[cfg(wrong = "guarded_initiator_copied")] // E0382
    let old: GuardedInitiator = initiator;
    #[cfg(wrong = "guarded_initiator_made_of_bytes")] // E0451
    let mut initiator = GuardedInitiator { state: [0; 252], last: [0] };
    #[cfg(wrong = "guarded_responder_cloned")] // E0599
    let old: GuardedResponder = responder.clone();
    #[cfg(wrong = "guarded_responder_copied")] // E0382
    let old: GuardedResponder = responder;
    #[cfg(wrong = "guarded_responder_made_of_bytes")] // E0451
    let mut responder = GuardedResponder { state: [0; 250], guard: [0; 2], end: 0 };
    #[cfg(wrong = "guard_copied")] // E0616
    let old = responder.guard;
    let _ = initiator.restart();
    responder.restart();
}

pub fn application(responder: &mut GuardedResponder, order: HandUp, buf: &mut [u8; ROOM]) {
    #[cfg(wrong = "hand_up_cloned")] // E0599
    let twin: HandUp = order.clone();
    #[cfg(wrong = "hand_up_used_twice")] // E0382
    let _ = responder.answer(order, 1, b"done", buf);
    #[cfg(wrong = "hand_up_made_by_hand")] // E0451
    let order = HandUp { order: [0; 246], len: 1, number: 1, end: 0 };
    #[cfg(wrong = "hand_up_given_another_number")] // E0616
    let order = {
        let mut order = order;
        order.number = 2;
        order
    };
    // What a driver may do: answer again where that can be mended.
    if let Err(NotTaken::Again(_, order)) = responder.answer(order, 2, b"done", &mut buf[..254]) {
        let _ = responder.answer(order, 3, b"done", buf);
    }
}

/// What a driver may do: share an end behind a lock, and clone, store and load the station list.
pub fn right(initiator: Initiator, list: &StationList) -> bool {
    let locked = Mutex::new(initiator);
    thread::scope(|threads| {
        threads.spawn(|| locked.lock().unwrap().restart());
        threads.spawn(|| locked.lock().unwrap().restart());
    });
    StationList::from_bytes(list.to_bytes()) == list.clone()
}
