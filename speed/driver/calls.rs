//! Both sides behind the same calls: `koy_…` is the static library (bindings/c/koyandefa.h), `rust_…` the original. A call of
//! ours and its counterpart take the same numbers and bytes and give the same numbers back; the station list and the walk
//! are kept by the caller in each side's own form.

use original::diagnostics::{ExtDiagBlock, ExtDiagBlockIter};
use original::telegram::{DataTelegramHeader, FunctionCode, Telegram, TelegramTx};
use original::token_ring::TokenRing;
use original::Address;

pub const ABSENT: usize = 256;
pub const INCOMPLETE: u8 = 100;
pub const AT_END: u8 = 101;
pub const SENT: u8 = 102;
pub const CONFIRMED: u8 = 103;
pub const HANDED_UP: u8 = 106;

pub type Stations = [u8; 132];
pub type Initiator = [u8; 252];
pub type Responder = [u8; 250];

extern "C" {
    pub fn koy_read(bytes: *const u8, len: usize, told: &mut [usize; 9]) -> u8;
    pub fn koy_read_strict(bytes: *const u8, len: usize, told: &mut [usize; 9]) -> u8;
    pub fn koy_write_data(
        da: u8,
        sa: u8,
        dsap: usize,
        ssap: usize,
        fc: u8,
        pdu: *const u8,
        pdu_len: usize,
        buf: *mut u8,
        buf_len: usize,
        told: &mut [usize; 2],
    ) -> u8;
    pub fn koy_write_token(da: u8, sa: u8, buf: *mut u8, buf_len: usize) -> u8;
    pub fn koy_write_confirmation(buf: *mut u8, buf_len: usize) -> u8;
    pub fn koy_stations_new(state: &mut Stations, own: u8) -> u8;
    pub fn koy_stations_witness(state: &mut Stations, sa: u8, da: u8);
    pub fn koy_stations_claim(state: &mut Stations);
    pub fn koy_stations_set_next(state: &mut Stations, address: u8) -> u8;
    pub fn koy_stations_remove(state: &mut Stations, address: u8) -> u8;
    pub fn koy_stations_about(state: &Stations, told: &mut [usize; 4]);
    pub fn koy_stations_is_active(state: &Stations, address: u8) -> bool;
    pub fn koy_stations_first_from(state: &Stations, address: u8) -> usize;
    pub fn koy_stations_last_to(state: &Stations, address: u8) -> usize;
    pub fn koy_diagnostics_step(
        store: *const u8,
        store_len: usize,
        walked: usize,
        cursor: &mut [usize; 1],
        told: &mut [usize; 9],
    ) -> u8;
    pub fn koy_diagnostics_fill(
        store: *mut u8,
        store_len: usize,
        walked: &mut [usize; 1],
        bytes: *const u8,
        bytes_len: usize,
    ) -> bool;
    pub fn koy_diagnostics_module(body: *const u8, body_len: usize, module: usize) -> bool;
    pub fn koy_settings_read(text: *const u8, text_len: usize, told: &mut [usize; 3]) -> u8;
    pub fn koy_settings_write(
        own: u8,
        peer: u8,
        tries: u8,
        buf: *mut u8,
        buf_len: usize,
        told: &mut [usize; 1],
    ) -> u8;
    pub fn koy_initiator_new(state: &mut Initiator, own: u8, peer: u8, tries: u8) -> u8;
    pub fn koy_initiator_submit(
        state: &mut Initiator,
        order: *const u8,
        order_len: usize,
        buf: *mut u8,
        buf_len: usize,
        told: &mut [usize; 3],
    ) -> u8;
    pub fn koy_initiator_silence(state: &mut Initiator, buf: *mut u8, buf_len: usize, told: &mut [usize; 3]) -> u8;
    pub fn koy_initiator_restart(state: &mut Initiator, told: &mut [usize; 3]) -> u8;
    pub fn koy_initiator_hear(
        state: &mut Initiator,
        heard: *const u8,
        heard_len: usize,
        buf: *mut u8,
        buf_len: usize,
        told: &mut [usize; 3],
    ) -> u8;
    pub fn koy_responder_new(state: &mut Responder, own: u8, peer: u8) -> u8;
    pub fn koy_responder_hear(
        state: &mut Responder,
        heard: *const u8,
        heard_len: usize,
        buf: *mut u8,
        buf_len: usize,
        told: &mut [usize; 2],
    ) -> u8;
    pub fn koy_responder_restart(state: &mut Responder);
    pub fn koy_responder_answer(
        state: &mut Responder,
        reply: *const u8,
        reply_len: usize,
        buf: *mut u8,
        buf_len: usize,
        told: &mut [usize; 2],
    ) -> u8;
    pub fn koy_guarded_initiator_new(
        state: &mut Initiator,
        last: &mut [usize; 1],
        own: u8,
        peer: u8,
        tries: u8,
        moment: usize,
    ) -> u8;
    pub fn koy_guarded_initiator_submit(
        state: &mut Initiator,
        last: &mut [usize; 1],
        moment: usize,
        order: *const u8,
        order_len: usize,
        buf: *mut u8,
        buf_len: usize,
        told: &mut [usize; 3],
    ) -> u8;
    pub fn koy_guarded_initiator_silence(
        state: &mut Initiator,
        last: &mut [usize; 1],
        moment: usize,
        buf: *mut u8,
        buf_len: usize,
        told: &mut [usize; 3],
    ) -> u8;
    pub fn koy_guarded_initiator_hear(
        state: &mut Initiator,
        last: &mut [usize; 1],
        received: usize,
        moment: usize,
        heard: *const u8,
        heard_len: usize,
        buf: *mut u8,
        buf_len: usize,
        told: &mut [usize; 3],
    ) -> u8;
    pub fn koy_guarded_responder_new(
        state: &mut Responder,
        guard: &mut [usize; 2],
        own: u8,
        peer: u8,
        moment: usize,
    ) -> u8;
    pub fn koy_guarded_responder_hear(
        state: &mut Responder,
        guard: &mut [usize; 2],
        received: usize,
        moment: usize,
        heard: *const u8,
        heard_len: usize,
        buf: *mut u8,
        buf_len: usize,
        told: &mut [usize; 3],
    ) -> u8;
    pub fn koy_guarded_responder_answer(
        state: &mut Responder,
        guard: &mut [usize; 2],
        number: usize,
        moment: usize,
        reply: *const u8,
        reply_len: usize,
        buf: *mut u8,
        buf_len: usize,
        told: &mut [usize; 3],
    ) -> u8;
}

/// Every call of the static libraries by its first instruction, so that none is left out where the stack is measured.
pub fn ours() -> Vec<(*const (), &'static str)> {
    vec![
        (koy_read as *const (), "read"),
        (koy_read_strict as *const (), "read_strict"),
        (koy_write_data as *const (), "write_data"),
        (koy_write_token as *const (), "write_token"),
        (koy_write_confirmation as *const (), "write_confirmation"),
        (koy_stations_new as *const (), "stations_new"),
        (koy_stations_witness as *const (), "stations_witness"),
        (koy_stations_claim as *const (), "stations_claim"),
        (koy_stations_set_next as *const (), "stations_set_next"),
        (koy_stations_remove as *const (), "stations_remove"),
        (koy_stations_about as *const (), "stations_about"),
        (koy_stations_is_active as *const (), "stations_is_active"),
        (koy_stations_first_from as *const (), "stations_first_from"),
        (koy_stations_last_to as *const (), "stations_last_to"),
        (koy_diagnostics_step as *const (), "diagnostics_step"),
        (koy_diagnostics_fill as *const (), "diagnostics_fill"),
        (koy_diagnostics_module as *const (), "diagnostics_module"),
        (koy_settings_read as *const (), "settings_read"),
        (koy_settings_write as *const (), "settings_write"),
        (koy_initiator_new as *const (), "initiator_new"),
        (koy_initiator_submit as *const (), "initiator_submit"),
        (koy_initiator_silence as *const (), "initiator_silence"),
        (koy_initiator_hear as *const (), "initiator_hear"),
        (koy_initiator_restart as *const (), "initiator_restart"),
        (koy_responder_new as *const (), "responder_new"),
        (koy_responder_hear as *const (), "responder_hear"),
        (koy_responder_answer as *const (), "responder_answer"),
        (koy_responder_restart as *const (), "responder_restart"),
        (koy_guarded_initiator_new as *const (), "guarded_initiator_new"),
        (koy_guarded_initiator_submit as *const (), "guarded_initiator_submit"),
        (koy_guarded_initiator_silence as *const (), "guarded_initiator_silence"),
        (koy_guarded_initiator_hear as *const (), "guarded_initiator_hear"),
        (koy_guarded_responder_new as *const (), "guarded_responder_new"),
        (koy_guarded_responder_hear as *const (), "guarded_responder_hear"),
        (koy_guarded_responder_answer as *const (), "guarded_responder_answer"),
    ]
}

fn number(byte: Option<u8>) -> usize {
    byte.map_or(ABSENT, usize::from)
}

fn sap(number: usize) -> Option<u8> {
    u8::try_from(number).ok()
}

/// The original tells no refusal from another: 1 stands for all.
#[no_mangle]
#[inline(never)]
pub fn rust_read(bytes: &[u8], told: &mut [usize; 9]) -> u8 {
    match Telegram::deserialize(bytes) {
        None => INCOMPLETE,
        Some(Err(())) => 1,
        Some(Ok((telegram, total))) => {
            *told = match telegram {
                Telegram::ShortConfirmation(_) => [1, total, ABSENT, ABSENT, ABSENT, ABSENT, ABSENT, 0, 0],
                Telegram::Token(t) => [2, total, usize::from(t.da), usize::from(t.sa), ABSENT, ABSENT, ABSENT, 0, 0],
                Telegram::Data(t) => [
                    3,
                    total,
                    usize::from(t.h.da),
                    usize::from(t.h.sa),
                    number(t.h.dsap),
                    number(t.h.ssap),
                    usize::from(t.h.fc.to_byte()),
                    t.pdu.as_ptr() as usize - bytes.as_ptr() as usize,
                    t.pdu.len(),
                ],
            };
            0
        }
    }
}

#[no_mangle]
#[inline(never)]
#[allow(clippy::too_many_arguments)]
pub fn rust_write_data(
    da: u8,
    sa: u8,
    dsap: usize,
    ssap: usize,
    fc: u8,
    pdu: &[u8],
    buf: &mut [u8],
    told: &mut [usize; 2],
) -> u8 {
    let Ok(fc) = FunctionCode::from_byte(fc) else { return 4 };
    let header = DataTelegramHeader { da, sa, dsap: sap(dsap), ssap: sap(ssap), fc };
    let response = TelegramTx::new(buf).send_data_telegram(header, pdu.len(), |place| place.copy_from_slice(pdu));
    *told = [response.bytes_sent(), number(response.expects_reply())];
    0
}

#[no_mangle]
#[inline(never)]
pub fn rust_write_token(da: u8, sa: u8, buf: &mut [u8]) -> u8 {
    TelegramTx::new(buf).send_token_telegram(da, sa);
    0
}

#[no_mangle]
#[inline(never)]
pub fn rust_write_confirmation(buf: &mut [u8]) -> u8 {
    TelegramTx::new(buf).send_short_confirmation();
    0
}

#[no_mangle]
#[inline(never)]
pub fn rust_stations_new(own: Address) -> TokenRing {
    TokenRing::new(&original::fdl::Parameters { address: own })
}

#[no_mangle]
#[inline(never)]
pub fn rust_stations_witness(ring: &mut TokenRing, sa: Address, da: Address) {
    ring.witness_token_pass(sa, da);
}

#[no_mangle]
#[inline(never)]
pub fn rust_stations_set_next(ring: &mut TokenRing, address: Address) -> u8 {
    ring.set_next_station(address);
    0
}

#[no_mangle]
#[inline(never)]
pub fn rust_stations_remove(ring: &mut TokenRing, address: Address) -> u8 {
    ring.remove_station(address);
    0
}

/// The original gives a block's body as a slice: `store` is where the store begins. It tells no refusal from the end.
#[no_mangle]
#[inline(never)]
pub fn rust_diagnostics_step(store: usize, walk: &mut ExtDiagBlockIter, told: &mut [usize; 9]) -> u8 {
    let Some(block) = walk.next() else { return AT_END };
    *told = match block {
        ExtDiagBlock::Identifier(body) => {
            let body = body.bytes();
            [1, body.as_ptr() as usize - store, body.len(), 0, 0, 0, 0, 0, 0]
        }
        ExtDiagBlock::Device(body) => [2, body.as_ptr() as usize - store, body.len(), 0, 0, 0, 0, 0, 0],
        ExtDiagBlock::Channel(channel) => [
            3,
            0,
            0,
            usize::from(channel.module),
            usize::from(channel.channel),
            usize::from(channel.input),
            usize::from(channel.output),
            channel.dtype as usize,
            usize::from(error_number(channel.error)),
        ],
    };
    0
}

// `into_diag_byte2` is private to the original.
fn error_number(error: original::diagnostics::ChannelError) -> u8 {
    use original::diagnostics::ChannelError::*;
    match error {
        ShortCircuit => 1,
        UnderVoltage => 2,
        OverVoltage => 3,
        OverLoad => 4,
        OverTemperature => 5,
        LineBreak => 6,
        UpperLimitOvershoot => 7,
        LowerLimitUndershoot => 8,
        Error => 9,
        Vendor(number) | Reserved(number) => number,
    }
}
