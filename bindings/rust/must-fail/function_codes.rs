//! Wrong programs: drivers that give a bare byte for a function code, or count on it that a response and the refusals tell no more one day
//! than they do now. `run` has this file compiled with each `wrong` below, which must be refused with the error named beside it and no
//! other, and without any, which must be taken.
use koyandefa::{Address, FunctionCode, Header, Refusal, ResponseState, ResponseStatus};

pub fn header(station: Address, code: FunctionCode) -> Header {
    #[cfg(wrong = "byte_as_function_code")] // E0308
    let header = Header::new(station, station, 0x49);
    #[cfg(wrong = "function_code_as_byte")] // E0308
    let byte: u8 = code;
    Header::new(station, station, code)
}

pub fn made(state: ResponseState, status: ResponseStatus) -> FunctionCode {
    #[cfg(wrong = "response_made_by_hand")] // E0639
    let response = FunctionCode::Response { state, status };
    FunctionCode::response(state, status)
}

pub fn matched(code: FunctionCode) -> bool {
    #[cfg(wrong = "response_matched_whole")] // E0638
    let slave = matches!(code, FunctionCode::Response { state: ResponseState::Slave, status: _ });
    matches!(code, FunctionCode::Response { state: ResponseState::Slave, .. })
}

pub fn refusals(refusal: Refusal) -> bool {
    #[cfg(wrong = "refusals_matched_whole")] // E0004
    match refusal {
        Refusal::UnknownStart
        | Refusal::LengthsDiffer
        | Refusal::LengthTooSmall
        | Refusal::FunctionCode
        | Refusal::SapMissing
        | Refusal::Checksum
        | Refusal::EndDelimiter
        | Refusal::AddressTooLarge
        | Refusal::TooLong
        | Refusal::NoRoom
        | Refusal::NotAStation
        | Refusal::BlockCutOff
        | Refusal::BlockReserved
        | Refusal::BlockLengthZero
        | Refusal::CycleInactive
        | Refusal::OrderLength
        | Refusal::OrderPending
        | Refusal::LinkAddresses
        | Refusal::Tries
        | Refusal::SettingsForm
        | Refusal::NoReplyOwed
        | Refusal::InputTooLong
        | Refusal::LengthNotStandard
        | Refusal::FourthByte => {}
    }
    refusal == Refusal::NoRoom
}
