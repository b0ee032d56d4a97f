//! Station addresses and service access points: a byte each, and no place takes the one for the other.
use core::fmt;

/// The address of a station. Stations have 0 to 125; what is read may have up to 127 (data telegrams) or 255 (tokens).
///
/// ```
/// # use koyandefa::Address;
/// assert_eq!(Address(5).to_string(), "5");
/// assert!(Address(5) < Address(7));
/// ```
#[derive(Clone, Copy, Debug, PartialEq, Eq, PartialOrd, Ord, Hash)]
pub struct Address(pub u8);

/// A service access point (SAP) of a station.
///
/// An address is refused where a SAP is wanted, and the other way round:
///
/// ```compile_fail,E0308
/// # use koyandefa::{Address, FrameCountBit, FunctionCode, Header, RequestType};
/// let mut header = Header::new(Address(5), Address(2), FunctionCode::request(FrameCountBit::Low, RequestType::SrdLow));
/// header.dsap = Some(Address(60));
/// ```
#[derive(Clone, Copy, Debug, PartialEq, Eq, PartialOrd, Ord, Hash)]
pub struct Sap(pub u8);

impl fmt::Display for Address {
    fn fmt(&self, f: &mut fmt::Formatter<'_>) -> fmt::Result {
        self.0.fmt(f)
    }
}

impl fmt::Display for Sap {
    fn fmt(&self, f: &mut fmt::Formatter<'_>) -> fmt::Result {
        self.0.fmt(f)
    }
}

/// An address that is told as a number, where 256 and above says that there is none.
pub(crate) fn told_address(number: usize) -> Option<Address> {
    u8::try_from(number).ok().map(Address)
}
