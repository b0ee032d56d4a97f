//! The commands on telegrams.
use crate::caught::{original, Panicked};
use crate::refusals;
use crate::telegram::{
    DataTelegram, DataTelegramHeader, FrameCountBit, FunctionCode, ResponseState, ResponseStatus, Telegram, TelegramTx,
    TelegramTxResponse,
};
use crate::text;

pub fn read(bytes: &str) -> Option<String> {
    let bytes = text::bytes(bytes)?;
    Some(match original(|| Telegram::deserialize(&bytes)) {
        Err(Panicked) => "panic".to_string(),
        Ok(None) => "incomplete".to_string(),
        Ok(Some(Err(()))) => refused(&bytes),
        Ok(Some(Ok((telegram, length)))) => shown(&telegram, length),
    })
}

/// An unknown first byte is the one refusal of `Telegram::deserialize` that it does not log.
fn refused(bytes: &[u8]) -> String {
    use crate::consts::{SC, SD1, SD2, SD3, SD4};
    match refusals::logged() {
        Some(number) => format!("refused {number}"),
        None if ![SC, SD1, SD2, SD3, SD4].contains(&bytes[0]) => "refused 1".to_string(),
        None => "refused".to_string(),
    }
}

fn shown(telegram: &Telegram, length: usize) -> String {
    match telegram {
        Telegram::ShortConfirmation(_) => format!("ack {length}"),
        Telegram::Token(token) => format!("token {length} {} {}", token.da, token.sa),
        Telegram::Data(DataTelegram { h, pdu }) => {
            let (dsap, ssap) = (text::or_dash(h.dsap), text::or_dash(h.ssap));
            let (fc, pdu) = (h.fc.to_byte(), text::hex(pdu));
            format!("data {length} {} {} {dsap} {ssap} {fc} {pdu}", h.da, h.sa)
        }
    }
}

pub fn write(addresses: [&str; 2], saps: [&str; 2], fc: &str, pdu: &str, room: &str) -> Option<String> {
    let (da, sa) = (text::byte(addresses[0])?, text::byte(addresses[1])?);
    let (dsap, ssap) = (text::maybe_byte(saps[0])?, text::maybe_byte(saps[1])?);
    let (fc, pdu, room) = (text::byte(fc)?, text::bytes(pdu)?, text::room(room)?);
    let Ok(fc) = FunctionCode::from_byte(fc) else {
        return Some("badfc".to_string());
    };
    let header = DataTelegramHeader { da, sa, dsap, ssap, fc };
    Some(written(room, |tx| tx.send_data_telegram(header, pdu.len(), |place| place.copy_from_slice(&pdu))))
}

pub fn write_token(da: &str, sa: &str, room: &str) -> Option<String> {
    let (da, sa) = (text::byte(da)?, text::byte(sa)?);
    Some(written(text::room(room)?, |tx| tx.send_token_telegram(da, sa)))
}

pub fn write_ack(room: &str) -> Option<String> {
    Some(written(text::room(room)?, |tx| tx.send_short_confirmation()))
}

pub fn write_status_request(da: &str, sa: &str, room: &str) -> Option<String> {
    let (da, sa) = (text::byte(da)?, text::byte(sa)?);
    Some(written(text::room(room)?, |tx| tx.send_fdl_status_request(da, sa)))
}

pub fn write_status_response(addresses: [&str; 2], state: &str, status: &str, room: &str) -> Option<String> {
    let (da, sa) = (text::byte(addresses[0])?, text::byte(addresses[1])?);
    let (state, status, room) = (text::byte(state)?, text::byte(status)?, text::room(room)?);
    let (Some(state), Some(status)) = (ResponseState::from_u8(state), ResponseStatus::from_u8(status)) else {
        return Some("badfc".to_string());
    };
    Some(written(room, |tx| tx.send_fdl_status_response(da, sa, state, status)))
}

fn written(room: usize, send: impl FnOnce(TelegramTx) -> TelegramTxResponse) -> String {
    let mut buffer = vec![0xAA; room];
    match original(|| send(TelegramTx::new(&mut buffer))) {
        Err(Panicked) => "panic".to_string(),
        Ok(response) => {
            let reply = text::or_dash(response.expects_reply());
            format!("written {} {} reply={reply}", response.bytes_sent(), text::hex(&buffer))
        }
    }
}

pub fn function_code(byte: &str) -> Option<String> {
    Some(match FunctionCode::from_byte(text::byte(byte)?) {
        Err(()) => "refused".to_string(),
        Ok(code @ FunctionCode::Request { fcb, req }) => {
            let reply = u8::from(req.expects_reply());
            format!("request {fcb:?} {} byte={} reply={reply}", req as u8, code.to_byte())
        }
        Ok(code @ FunctionCode::Response { state, status }) => {
            format!("response {} {} byte={} reply=-", state as u8, status as u8, code.to_byte())
        }
    })
}

pub fn cycle(fcb: &str) -> Option<String> {
    let mut fcb = match fcb {
        "First" => FrameCountBit::First,
        "High" => FrameCountBit::High,
        "Low" => FrameCountBit::Low,
        "Inactive" => FrameCountBit::Inactive,
        _ => return None,
    };
    Some(match original(|| fcb.cycle()) {
        Err(Panicked) => "panic".to_string(),
        Ok(()) => format!("{fcb:?}"),
    })
}

pub fn about(bytes: &str) -> Option<String> {
    let bytes = text::bytes(bytes)?;
    Some(match original(|| Telegram::deserialize(&bytes)) {
        Err(Panicked) => "panic".to_string(),
        Ok(None | Some(Err(()))) => "none".to_string(),
        Ok(Some(Ok((telegram, _)))) => {
            let source = text::or_dash(telegram.source_address());
            let destination = text::or_dash(telegram.destination_address());
            let (asking, status) = match &telegram {
                Telegram::Data(data) => (data.is_fdl_status_request(), data.is_response()),
                _ => (None, None),
            };
            let (asking, status) = (text::or_dash(asking), text::or_dash(status.map(|status| status as u8)));
            format!("about {source} {destination} {asking} {status}")
        }
    })
}
