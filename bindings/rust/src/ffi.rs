//! The functions of libexports.a and libexports_link.a as Rattle exports them. tests/drift.rs holds this file and the C header
//! against the source.
//!
//! Why the wrapper's calls of them are safe: each is proved to answer every number, length and content, and owes what memcpy owes. A
//! pointer and a length are those of one slice, which is there, and whose pointer is not null where it is empty; an array is lent by
//! reference; what is written to is borrowed as `&mut`, so that it overlaps nothing else. What is told lies within what was lent, by the
//! calls' promises, so that no slicing of the wrapper's panics.
#![allow(dead_code)]

pub const KOY_DONE: u8 = 0;
pub const KOY_INCOMPLETE: u8 = 100;
pub const KOY_AT_END: u8 = 101;
pub const KOY_SENT: u8 = 102;
pub const KOY_CONFIRMED: u8 = 103;
pub const KOY_NOT_SENT: u8 = 104;
pub const KOY_UNKNOWN: u8 = 105;
pub const KOY_HANDED_UP: u8 = 106;
pub const KOY_ABSENT: usize = 256;
pub const KOY_LONGEST_TELEGRAM: usize = 261;
pub const KOY_DEFAULT_TRIES: u8 = 4;
pub const KOY_STATIONS_SIZE: usize = 132;
pub const KOY_INITIATOR_SIZE: usize = 252;
pub const KOY_RESPONDER_SIZE: usize = 250;

extern "C" {
    pub fn koy_read(bytes: *const u8, bytes_len: usize, told: *mut [usize; 9]) -> u8;
    pub fn koy_read_strict(bytes: *const u8, bytes_len: usize, told: *mut [usize; 9]) -> u8;
    pub fn koy_write_data(
        da: u8,
        sa: u8,
        dsap: usize,
        ssap: usize,
        fc: u8,
        pdu: *const u8,
        pdu_len: usize,
        buf: *mut u8,
        buf_len: usize,
        told: *mut [usize; 2],
    ) -> u8;
    pub fn koy_write_token(da: u8, sa: u8, buf: *mut u8, buf_len: usize) -> u8;
    pub fn koy_write_confirmation(buf: *mut u8, buf_len: usize) -> u8;
    pub fn koy_stations_new(state: *mut [u8; 132], own: u8) -> u8;
    pub fn koy_stations_witness(state: *mut [u8; 132], sa: u8, da: u8);
    pub fn koy_stations_claim(state: *mut [u8; 132]);
    pub fn koy_stations_set_next(state: *mut [u8; 132], address: u8) -> u8;
    pub fn koy_stations_remove(state: *mut [u8; 132], address: u8) -> u8;
    pub fn koy_stations_about(state: *const [u8; 132], told: *mut [usize; 4]);
    pub fn koy_stations_is_active(state: *const [u8; 132], address: u8) -> bool;
    pub fn koy_stations_first_from(state: *const [u8; 132], address: u8) -> usize;
    pub fn koy_stations_last_to(state: *const [u8; 132], address: u8) -> usize;
    pub fn koy_diagnostics_step(
        store: *const u8,
        store_len: usize,
        walked: usize,
        cursor: *mut [usize; 1],
        told: *mut [usize; 9],
    ) -> u8;
    pub fn koy_diagnostics_fill(
        store: *mut u8,
        store_len: usize,
        walked: *mut [usize; 1],
        bytes: *const u8,
        bytes_len: usize,
    ) -> bool;
    pub fn koy_diagnostics_module(body: *const u8, body_len: usize, module: usize) -> bool;
    pub fn koy_settings_read(text: *const u8, text_len: usize, told: *mut [usize; 3]) -> u8;
    pub fn koy_settings_write(own: u8, peer: u8, tries: u8, buf: *mut u8, buf_len: usize, told: *mut [usize; 1]) -> u8;
    pub fn koy_guarded_initiator_new(
        state: *mut [u8; 252],
        last: *mut [usize; 1],
        own: u8,
        peer: u8,
        tries: u8,
        moment: usize,
    ) -> u8;
    pub fn koy_guarded_initiator_submit(
        state: *mut [u8; 252],
        last: *mut [usize; 1],
        moment: usize,
        order: *const u8,
        order_len: usize,
        buf: *mut u8,
        buf_len: usize,
        told: *mut [usize; 3],
    ) -> u8;
    pub fn koy_guarded_initiator_silence(
        state: *mut [u8; 252],
        last: *mut [usize; 1],
        moment: usize,
        buf: *mut u8,
        buf_len: usize,
        told: *mut [usize; 3],
    ) -> u8;
    pub fn koy_guarded_initiator_hear(
        state: *mut [u8; 252],
        last: *mut [usize; 1],
        received: usize,
        moment: usize,
        heard: *const u8,
        heard_len: usize,
        buf: *mut u8,
        buf_len: usize,
        told: *mut [usize; 3],
    ) -> u8;
    pub fn koy_guarded_responder_new(
        state: *mut [u8; 250],
        guard: *mut [usize; 2],
        own: u8,
        peer: u8,
        moment: usize,
    ) -> u8;
    pub fn koy_guarded_responder_hear(
        state: *mut [u8; 250],
        guard: *mut [usize; 2],
        received: usize,
        moment: usize,
        heard: *const u8,
        heard_len: usize,
        buf: *mut u8,
        buf_len: usize,
        told: *mut [usize; 3],
    ) -> u8;
    pub fn koy_guarded_responder_answer(
        state: *mut [u8; 250],
        guard: *mut [usize; 2],
        number: usize,
        moment: usize,
        reply: *const u8,
        reply_len: usize,
        buf: *mut u8,
        buf_len: usize,
        told: *mut [usize; 3],
    ) -> u8;
    pub fn koy_initiator_new(state: *mut [u8; 252], own: u8, peer: u8, tries: u8) -> u8;
    pub fn koy_initiator_submit(
        state: *mut [u8; 252],
        order: *const u8,
        order_len: usize,
        buf: *mut u8,
        buf_len: usize,
        told: *mut [usize; 3],
    ) -> u8;
    pub fn koy_initiator_silence(state: *mut [u8; 252], buf: *mut u8, buf_len: usize, told: *mut [usize; 3]) -> u8;
    pub fn koy_initiator_hear(
        state: *mut [u8; 252],
        heard: *const u8,
        heard_len: usize,
        buf: *mut u8,
        buf_len: usize,
        told: *mut [usize; 3],
    ) -> u8;
    pub fn koy_initiator_restart(state: *mut [u8; 252], told: *mut [usize; 3]) -> u8;
    pub fn koy_responder_new(state: *mut [u8; 250], own: u8, peer: u8) -> u8;
    pub fn koy_responder_hear(
        state: *mut [u8; 250],
        heard: *const u8,
        heard_len: usize,
        buf: *mut u8,
        buf_len: usize,
        told: *mut [usize; 2],
    ) -> u8;
    pub fn koy_responder_answer(
        state: *mut [u8; 250],
        reply: *const u8,
        reply_len: usize,
        buf: *mut u8,
        buf_len: usize,
        told: *mut [usize; 2],
    ) -> u8;
    pub fn koy_responder_restart(state: *mut [u8; 250]);
}
