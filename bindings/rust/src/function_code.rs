//! The function code of a data telegram, to and from its byte. tests/function_codes.rs holds it against the library for all 256 bytes.
use crate::refusal::Refusal;

/// Frame count bit: it detects lost telegrams and prevents doubled ones.
#[derive(Clone, Copy, Debug, PartialEq, Eq, Hash)]
pub enum FrameCountBit {
    /// FCV 0, FCB 1: the first request to a station.
    First,
    /// FCV 1, FCB 1.
    High,
    /// FCV 1, FCB 0.
    Low,
    /// FCV 0, FCB 0: not counted.
    Inactive,
}

/// What a request asks.
#[derive(Clone, Copy, Debug, PartialEq, Eq, Hash)]
#[repr(u8)]
pub enum RequestType {
    /// Clock value.
    ClockValue = 0x80,
    /// Time event.
    TimeEvent = 0x0,
    /// SDA (send data acknowledged) with low priority.
    SdaLow = 0x3,
    /// SDN (send data not acknowledged) with low priority.
    SdnLow = 0x4,
    /// SDA (send data acknowledged) with high priority.
    SdaHigh = 0x5,
    /// SDN (send data not acknowledged) with high priority.
    SdnHigh = 0x6,
    /// SRD (send and request data) with multicast reply.
    MulticastSrd = 0x7,
    /// Request FDL status.
    FdlStatus = 0x9,
    /// SRD (send and request data) with low priority.
    SrdLow = 0xC,
    /// SRD (send and request data) with high priority.
    SrdHigh = 0xD,
    /// Request ident.
    Ident = 0xE,
    /// Request LSAP status.
    LsapStatus = 0xF,
}

/// What the station that responds is.
#[derive(Clone, Copy, Debug, PartialEq, Eq, Hash)]
#[repr(u8)]
pub enum ResponseState {
    /// A slave.
    Slave = 0,
    /// A master that is not ready.
    MasterNotReady = 1,
    /// A master that is ready but has no token.
    MasterWithoutToken = 2,
    /// A master that is ready and in the token ring.
    MasterInRing = 3,
}

/// How a request was taken.
#[derive(Clone, Copy, Debug, PartialEq, Eq, Hash)]
#[repr(u8)]
pub enum ResponseStatus {
    /// OK.
    Ok = 0x0,
    /// UE: user error.
    UserError = 0x1,
    /// RR: no resources.
    NoResources = 0x2,
    /// RS: SAP not enabled.
    SapNotEnabled = 0x3,
    /// DL: data low.
    DataLow = 0x8,
    /// NR: no data ready.
    NoDataReady = 0x9,
    /// DH: data high.
    DataHigh = 0xA,
    /// RDL: data not received, data low.
    NotReceivedDataLow = 0xC,
    /// RDH: data not received, data high.
    NotReceivedDataHigh = 0xD,
}

/// The function code of a data telegram: 120 of the 256 bytes are one. Reading a response ignores bit 7, and writing clears it, so that 84
/// codes are left.
///
/// ```
/// # use koyandefa::{FrameCountBit, FunctionCode, RequestType, ResponseState, ResponseStatus};
/// let order = FunctionCode::request(FrameCountBit::Low, RequestType::SrdLow);
/// assert_eq!(order.to_byte(), 0x5C);
/// assert_eq!(FunctionCode::from_byte(0x5C), Some(order));
/// match FunctionCode::from_byte(0x08) {
///     Some(FunctionCode::Response { state, status, .. }) => {
///         assert_eq!((state, status), (ResponseState::Slave, ResponseStatus::DataLow));
///     }
///     other => panic!("{other:?}"),
/// }
/// assert_eq!(FunctionCode::from_byte(0x41), None);
/// ```
#[derive(Clone, Copy, Debug, PartialEq, Eq, Hash)]
pub enum FunctionCode {
    /// Bit 6 set: a request.
    Request {
        /// Bits 4 and 5.
        fcb: FrameCountBit,
        /// Bit 7 and the low four bits.
        req: RequestType,
    },
    /// Bit 6 clear: a response. More of it may be told one day: make it with [`FunctionCode::response`], and match it with `..`.
    #[non_exhaustive]
    Response {
        /// Bits 4 and 5.
        state: ResponseState,
        /// The low four bits.
        status: ResponseStatus,
    },
}

impl FrameCountBit {
    /// FCB and FCV at their places in the byte.
    const fn part(self) -> u8 {
        match self {
            FrameCountBit::First => 0x20,
            FrameCountBit::High => 0x30,
            FrameCountBit::Low => 0x10,
            FrameCountBit::Inactive => 0,
        }
    }
}

impl RequestType {
    /// Of a byte of which only bit 7 and the low four bits are left.
    const fn of(byte: u8) -> Option<RequestType> {
        Some(match byte {
            0x80 => RequestType::ClockValue,
            0x0 => RequestType::TimeEvent,
            0x3 => RequestType::SdaLow,
            0x4 => RequestType::SdnLow,
            0x5 => RequestType::SdaHigh,
            0x6 => RequestType::SdnHigh,
            0x7 => RequestType::MulticastSrd,
            0x9 => RequestType::FdlStatus,
            0xC => RequestType::SrdLow,
            0xD => RequestType::SrdHigh,
            0xE => RequestType::Ident,
            0xF => RequestType::LsapStatus,
            _ => return None,
        })
    }
}

impl ResponseStatus {
    const fn of(low: u8) -> Option<ResponseStatus> {
        Some(match low {
            0x0 => ResponseStatus::Ok,
            0x1 => ResponseStatus::UserError,
            0x2 => ResponseStatus::NoResources,
            0x3 => ResponseStatus::SapNotEnabled,
            0x8 => ResponseStatus::DataLow,
            0x9 => ResponseStatus::NoDataReady,
            0xA => ResponseStatus::DataHigh,
            0xC => ResponseStatus::NotReceivedDataLow,
            0xD => ResponseStatus::NotReceivedDataHigh,
            _ => return None,
        })
    }
}

impl FunctionCode {
    /// A request. An FDL status request has [`FrameCountBit::Inactive`] and [`RequestType::FdlStatus`].
    #[must_use]
    pub const fn request(fcb: FrameCountBit, req: RequestType) -> FunctionCode {
        FunctionCode::Request { fcb, req }
    }

    /// A response.
    #[must_use]
    pub const fn response(state: ResponseState, status: ResponseStatus) -> FunctionCode {
        FunctionCode::Response { state, status }
    }

    /// The function code of a byte, if it is one.
    #[must_use]
    pub const fn from_byte(byte: u8) -> Option<FunctionCode> {
        if byte & 0x40 == 0 {
            let state = match byte >> 4 & 3 {
                0 => ResponseState::Slave,
                1 => ResponseState::MasterNotReady,
                2 => ResponseState::MasterWithoutToken,
                _ => ResponseState::MasterInRing,
            };
            return match ResponseStatus::of(byte & 0x0F) {
                Some(status) => Some(FunctionCode::Response { state, status }),
                None => None,
            };
        }
        let fcb = match byte & 0x30 {
            0x20 => FrameCountBit::First,
            0x30 => FrameCountBit::High,
            0x10 => FrameCountBit::Low,
            _ => FrameCountBit::Inactive,
        };
        match RequestType::of(byte & 0x8F) {
            Some(req) => Some(FunctionCode::Request { fcb, req }),
            None => None,
        }
    }

    /// The byte that is written for it.
    #[must_use]
    pub const fn to_byte(self) -> u8 {
        match self {
            FunctionCode::Request { fcb, req } => 0x40 | fcb.part() | req as u8,
            FunctionCode::Response { state, status } => (state as u8) << 4 | status as u8,
        }
    }
}

/// Refusal 4 where the byte is no function code.
impl TryFrom<u8> for FunctionCode {
    type Error = Refusal;

    fn try_from(byte: u8) -> Result<FunctionCode, Refusal> {
        FunctionCode::from_byte(byte).ok_or(Refusal::FunctionCode)
    }
}

impl From<FunctionCode> for u8 {
    fn from(code: FunctionCode) -> u8 {
        code.to_byte()
    }
}
