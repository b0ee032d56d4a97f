//! Proved fieldbus functions for Rust: PROFIBUS telegrams, the station list, extended diagnostics, and an order link that
//! carries each order out at most once. A safe wrapper over the static libraries `libexports.a` and `libexports_link.a`,
//! which are written in Rattle; every call is proved to answer every input as document 01 says. No dependencies, and no std; the feature
//! `std`, which is on unless `default-features = false` is said, adds `std::error::Error` to the refusals.
//!
//! A refused call returns the [`Refusal`] with its number and leaves all that it was lent as it came. ("Document 01" is the paper
//! of scope and precise rules that the functions are proved against. What a driver needs of it is said here. Strict reading and the guarded
//! ends go beyond it, and are proved to do what is said of them here.)
//!
//! | to | take |
//! |---|---|
//! | read one telegram | [`read`] |
//! | go through the telegrams of a capture or a receive buffer, noise between them | [`telegrams`] |
//! | find couplers that send sloppy SD2 telegrams | [`read_strict`], beside one of these |
//! | write a telegram | [`write_data`], [`write_token`], [`write_confirmation`] |
//! | follow the token | [`StationList`] |
//! | go through extended diagnostics | [`Walk`] |
//! | send orders, as the head end | [`GuardedInitiator`] |
//! | carry orders out, as the cabinet | [`GuardedResponder`] |
//! | read and write the settings of a link | [`Settings`] |
//!
//! # The order link
//!
//! The ends of the order link are [`GuardedInitiator`] and [`GuardedResponder`]. [`Initiator`] and [`Responder`] are document 01's plain
//! calls, for drivers that see themselves to what the guards see to: that no telegram is heard late, and no answer given late.
//!
//! A driver of the head end goes through these calls for each order:
//!
//! 1. `submit`, and send what it gives.
//! 2. A telegram came in: `hear`. The line was idle for the slot time instead: `silence`.
//! 3. `Sent`: send it, and on with 2. `Nothing`: on with 2. `Confirmed`, `NotSent` or `Unknown`: the order is over.
//!
//! A driver of the cabinet calls `hear` for each telegram that comes in, sends what is `Sent`, and for `HandedUp` carries the order out
//! and calls `answer` with it. What else a driver owes, each rule with the run that goes wrong without it, is in docs/DRIVERS.md;
//! examples/ten_orders is a driver that does all of it.
//!
//! The [`StationList`] may be cloned, stored and loaded. The ends of the link may not: an older record put back shows an old reply for
//! a new order ([`Initiator`]) or carries an order out twice ([`Responder`]). They are moved only, and two threads need a lock.
#![no_std]
#![deny(missing_docs)]

#[cfg(any(test, feature = "std"))]
#[cfg_attr(test, macro_use)]
extern crate std;

mod address;
mod diagnostics;
mod ffi;
mod function_code;
mod guarded;
mod link;
mod refusal;
mod settings;
mod stations;
mod telegram;

pub use address::{Address, Sap};
pub use diagnostics::{fill, module_is_set, modules, Block, ChannelDataType, ChannelError, Walk};
pub use function_code::{FrameCountBit, FunctionCode, RequestType, ResponseState, ResponseStatus};
pub use guarded::{GuardedInitiator, GuardedResponder, HandUp, Heard, NotTaken, Received};
pub use link::{Initiator, InitiatorAnswer, Responder, ResponderAnswer, DEFAULT_TRIES, LONGEST_ORDER, ROOM};
pub use refusal::Refusal;
pub use settings::Settings;
pub use stations::{Phase, StationList};
pub use telegram::{
    read, read_strict, telegrams, write_confirmation, write_data, write_token, End, Found, Header, Reading, Telegram,
    Telegrams, Written, LONGEST_TELEGRAM,
};
