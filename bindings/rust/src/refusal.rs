//! Document 01's refusals, and those of strict reading.
use core::fmt;

/// Why a call was refused, with its number: 1 to 22 are document 01's, 24 and 25 those of strict reading. More may come with later requests.
///
/// ```
/// # use koyandefa::Refusal;
/// let refusal = koyandefa::read(&[0x68, 3, 4, 0, 0, 0]).unwrap_err();
/// assert_eq!((refusal, refusal.number()), (Refusal::LengthsDiffer, 2));
/// assert_eq!(refusal.to_string(), "refused 2: second and third byte of an SD2 telegram differ");
/// ```
#[derive(Clone, Copy, Debug, PartialEq, Eq, Hash)]
#[repr(u8)]
#[non_exhaustive]
pub enum Refusal {
    /// 1, reading: the first byte begins no telegram.
    UnknownStart = 1,
    /// 2, reading: second and third byte of an SD2 telegram differ.
    LengthsDiffer = 2,
    /// 3, reading: the length byte of an SD2 telegram is below 3.
    LengthTooSmall = 3,
    /// 4: the byte is no function code.
    FunctionCode = 4,
    /// 5, reading: a SAP that an address announces is missing.
    SapMissing = 5,
    /// 6, reading: the checksum is another.
    Checksum = 6,
    /// 7, reading: the last byte is no end delimiter.
    EndDelimiter = 7,
    /// 8, writing data: da or sa is above 127.
    AddressTooLarge = 8,
    /// 9: the length byte is above 249, or a link reply above 246 bytes.
    TooLong = 9,
    /// 10: the buffer is too short; link calls that may write want [`ROOM`](crate::ROOM), 255 bytes.
    NoRoom = 10,
    /// 11: the own, set or removed address is above 125.
    NotAStation = 11,
    /// 12, diagnostics: the block is cut off.
    BlockCutOff = 12,
    /// 13, diagnostics: the block's header is reserved.
    BlockReserved = 13,
    /// 14, diagnostics: the block's length is zero.
    BlockLengthZero = 14,
    /// 15: an inactive frame count bit is not cycled. No call of this crate gives it.
    CycleInactive = 15,
    /// 16: the order is empty or above 246 bytes.
    OrderLength = 16,
    /// 17: an order is already pending.
    OrderPending = 17,
    /// 18: a link address is above 125, or both are equal.
    LinkAddresses = 18,
    /// 19: the tries are outside 1 to 8.
    Tries = 19,
    /// 20: the settings text has another form.
    SettingsForm = 20,
    /// 21: an answer is given where none is owed, or for another order.
    NoReplyOwed = 21,
    /// 22: the lister's input is above 4,096 bytes. No call of this crate gives it.
    InputTooLong = 22,
    /// 24, strict reading alone: the length byte of an SD2 telegram is 3 or above 249.
    LengthNotStandard = 24,
    /// 25, strict reading alone: the fourth byte of an SD2 telegram is not 68.
    FourthByte = 25,
}

use Refusal::*;

/// Every refusal in the order of its number, with its words.
const ALL: [(Refusal, &str); 24] = [
    (UnknownStart, "the first byte begins no telegram"),
    (LengthsDiffer, "second and third byte of an SD2 telegram differ"),
    (LengthTooSmall, "the length byte of an SD2 telegram is below 3"),
    (FunctionCode, "the byte is no function code"),
    (SapMissing, "a SAP that an address announces is missing"),
    (Checksum, "the checksum is another"),
    (EndDelimiter, "the last byte is no end delimiter"),
    (AddressTooLarge, "da or sa is above 127"),
    (TooLong, "the length byte is above 249, or a link reply above 246 bytes"),
    (NoRoom, "the buffer is too short; link calls that may write want 255 bytes"),
    (NotAStation, "the own, set or removed address is above 125"),
    (BlockCutOff, "the block is cut off"),
    (BlockReserved, "the block's header is reserved"),
    (BlockLengthZero, "the block's length is zero"),
    (CycleInactive, "an inactive frame count bit is not cycled"),
    (OrderLength, "the order is empty or above 246 bytes"),
    (OrderPending, "an order is already pending"),
    (LinkAddresses, "a link address is above 125, or both are equal"),
    (Tries, "the tries are outside 1 to 8"),
    (SettingsForm, "the settings text has another form"),
    (NoReplyOwed, "an answer is given where none is owed, or for another order"),
    (InputTooLong, "the lister's input is above 4,096 bytes"),
    (LengthNotStandard, "the length byte of an SD2 telegram is 3 or above 249, in strict mode"),
    (FourthByte, "the fourth byte of an SD2 telegram is not 68, in strict mode"),
];

impl Refusal {
    /// Its number: 1 to 22 are document 01's, 24 and 25 those of [`read_strict`](crate::read_strict). There is no 23.
    #[must_use]
    pub const fn number(self) -> u8 {
        self as u8
    }

    /// The refusal of a number.
    ///
    /// ```
    /// # use koyandefa::Refusal;
    /// assert_eq!(Refusal::of(6), Some(Refusal::Checksum));
    /// assert_eq!((Refusal::of(0), Refusal::of(23)), (None, None));
    /// ```
    #[must_use]
    pub fn of(number: u8) -> Option<Refusal> {
        ALL.iter().map(|&(refusal, _)| refusal).find(|refusal| refusal.number() == number)
    }

    /// When it is given.
    // Every refusal stands in `ALL`, so the other words are never met.
    pub(crate) fn words(self) -> &'static str {
        ALL.iter().find(|&&(refusal, _)| refusal == self).map_or("a refusal without words", |&(_, words)| words)
    }

    // The library returns no other number than its promise says, so the panic is never met.
    pub(crate) fn of_code(code: u8) -> Refusal {
        Refusal::of(code).unwrap_or_else(|| panic!("code {code} is no refusal"))
    }
}

/// What a code says that is 0 for done.
pub(crate) fn done(code: u8) -> Result<(), Refusal> {
    match code {
        crate::ffi::KOY_DONE => Ok(()),
        code => Err(Refusal::of_code(code)),
    }
}

/// The number, and when it is given, in words.
impl fmt::Display for Refusal {
    fn fmt(&self, f: &mut fmt::Formatter<'_>) -> fmt::Result {
        write!(f, "refused {}: {}", self.number(), self.words())
    }
}

#[cfg(feature = "std")]
impl std::error::Error for Refusal {}
