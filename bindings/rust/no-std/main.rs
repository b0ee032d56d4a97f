//! A program without std, heap or unwinding: what of a board's firmware is the library's. `run` has it compiled and linked with the library
//! built without its feature `std`, and runs it; its status is 0 where the order is confirmed.
#![no_std]
#![no_main]
use core::panic::PanicInfo;
use koyandefa::{Address, GuardedInitiator, GuardedResponder, Heard, InitiatorAnswer, Received, Refusal, ROOM};

#[panic_handler]
fn stop(_: &PanicInfo) -> ! {
    loop {}
}

/// The core library of a hosted target is built for unwinding and names this. Nothing unwinds here, so that it is never called.
#[no_mangle]
pub extern "C" fn rust_eh_personality() {}

fn order() -> Result<bool, Refusal> {
    let mut head_end = GuardedInitiator::new(Address(2), Address(5), 2, 0)?;
    let mut cabinet = GuardedResponder::new(Address(5), Address(2), 0)?;
    let (mut line, mut answer) = ([0; ROOM], [0; ROOM]);
    let mut heard = head_end.submit(1, b"close-18", &mut line)?;
    for now in (2..).step_by(2) {
        let telegram = match heard {
            InitiatorAnswer::Sent(telegram) => telegram,
            other => return Ok(other == InitiatorAnswer::Confirmed { reply: b"closed", tries: 1 }),
        };
        let reply = match cabinet.hear(Received { at: now, bytes: telegram }, now, &mut answer)? {
            Heard::Sent(telegram) => telegram,
            Heard::HandedUp(order) => {
                cabinet.answer(order, now, b"closed", &mut answer).map_err(|not_taken| not_taken.refusal())?
            }
            Heard::Nothing => break,
        };
        heard = head_end.hear(Received { at: now + 1, bytes: reply }, now + 1, &mut line)?;
    }
    Ok(false)
}

/// The C library's start calls it.
#[no_mangle]
pub extern "C" fn main() -> i32 {
    i32::from(order() != Ok(true))
}
