//! Telegrams, read and written, and those of a byte string, one behind the other.
use crate::address::{told_address, Address, Sap};
use crate::ffi;
use crate::function_code::FunctionCode;
use crate::refusal::{done, Refusal};
use core::fmt;

/// The room of a receive buffer. We write 255 bytes at most, but bytes `68 FF FF 68 …`, noise or a foreign telegram, announce 261: in a
/// shorter buffer they stay [`Reading::Incomplete`] for ever. 261 bytes never are.
pub const LONGEST_TELEGRAM: usize = ffi::KOY_LONGEST_TELEGRAM;

/// The header of a data telegram.
#[derive(Clone, Copy, Debug, PartialEq, Eq, Hash)]
pub struct Header {
    /// The destination's address.
    pub da: Address,
    /// The source's address.
    pub sa: Address,
    /// The destination's service access point.
    pub dsap: Option<Sap>,
    /// The source's service access point.
    pub ssap: Option<Sap>,
    /// The function code.
    pub fc: FunctionCode,
}

impl Header {
    /// A header without SAPs.
    #[must_use]
    pub const fn new(da: Address, sa: Address, fc: FunctionCode) -> Header {
        Header { da, sa, dsap: None, ssap: None, fc }
    }
}

/// A telegram that was read. `{:02X?}` shows the bytes of its PDU as hexadecimal.
#[derive(Clone, Copy, Debug, PartialEq, Eq, Hash)]
pub enum Telegram<'a> {
    /// A short confirmation, the byte `E5`.
    ShortConfirmation,
    /// The token is passed.
    Token {
        /// To this station, a whole byte.
        da: Address,
        /// From this station, a whole byte.
        sa: Address,
    },
    /// A data telegram.
    Data {
        /// Its header.
        header: Header,
        /// Its PDU, a part of the bytes that were read.
        pdu: &'a [u8],
    },
}

/// What a byte string begins with.
#[must_use]
#[derive(Clone, Copy, Debug, PartialEq, Eq, Hash)]
pub enum Reading<'a> {
    /// A telegram.
    Telegram {
        /// What it says.
        telegram: Telegram<'a>,
        /// Its own bytes, the front of those that were read: exactly these are handed to `hear`.
        bytes: &'a [u8],
    },
    /// More bytes are needed to tell.
    Incomplete,
}

/// A data telegram that was written.
#[must_use]
#[derive(Clone, Copy, Debug, PartialEq, Eq, Hash)]
pub struct Written<'a> {
    /// The telegram, the front of the buffer: send these bytes.
    pub telegram: &'a [u8],
    /// The station that is to reply, if one is.
    pub replier: Option<Address>,
}

fn told_sap(number: usize) -> Option<Sap> {
    u8::try_from(number).ok().map(Sap)
}

fn number(sap: Option<Sap>) -> usize {
    sap.map_or(ffi::KOY_ABSENT, |sap| usize::from(sap.0))
}

/// The telegram that these bytes begin with. Refusals 1 to 7.
///
/// ```
/// # use koyandefa::{read, Address, FrameCountBit, FunctionCode, Header, Reading, Refusal, RequestType, Telegram};
/// let bytes = [0x68, 0x05, 0x05, 0x68, 0x05, 0x02, 0x5C, 0x01, 0x03, 0x67, 0x16, 0xFF];
/// match read(&bytes) {
///     Ok(Reading::Telegram { telegram: Telegram::Data { header, pdu }, bytes }) => {
///         let fc = FunctionCode::request(FrameCountBit::Low, RequestType::SrdLow);
///         assert_eq!(header, Header::new(Address(5), Address(2), fc));
///         assert_eq!(pdu, [0x01, 0x03]);
///         assert_eq!(bytes.len(), 11);
///     }
///     other => panic!("{other:?}"),
/// }
/// assert_eq!(read(&bytes[..10]), Ok(Reading::Incomplete));
/// assert_eq!(read(&bytes[11..]), Err(Refusal::UnknownStart));
/// ```
pub fn read(bytes: &[u8]) -> Result<Reading<'_>, Refusal> {
    let mut told = [0; 9];
    let code = unsafe { ffi::koy_read(bytes.as_ptr(), bytes.len(), &mut told) };
    reading(bytes, code, told)
}

/// The telegram that these bytes begin with, in strict mode: for who hunts couplers that send sloppy SD2 telegrams. Refusals 1 to 7, 24
/// and 25.
///
/// Of an SD2 telegram, behind refusals 2 and 3 and before its total length is looked at, 24 is given where the length byte is 3 or above
/// 249, then 25 where the fourth byte is not 68. All else is answered as by [`read`]: what is read here, `read` reads alike.
///
/// Drivers keep [`read`], as [`telegrams`] and the order link do: what a sloppy coupler sends is still a telegram. Take this call beside it,
/// on the bytes of each telegram that `read` has found, as examples/list.rs does with `--strict`.
///
/// ```
/// # use koyandefa::{read, read_strict, Reading, Refusal};
/// // From station 12, whose coupler sends 00 for the fourth byte.
/// let sloppy = [0x68, 0x07, 0x07, 0x00, 0x02, 0x0C, 0x08, 0x02, 0x33, 0x1F, 0x00, 0x6A, 0x16];
/// assert!(matches!(read(&sloppy), Ok(Reading::Telegram { bytes, .. }) if bytes == sloppy));
/// assert_eq!(read_strict(&sloppy), Err(Refusal::FourthByte));
/// // The same as it ought to be.
/// let tidy = [0x68, 0x07, 0x07, 0x68, 0x02, 0x0C, 0x08, 0x02, 0x33, 0x1F, 0x00, 0x6A, 0x16];
/// assert!(matches!(read_strict(&tidy), Ok(Reading::Telegram { bytes, .. }) if bytes == tidy));
/// ```
pub fn read_strict(bytes: &[u8]) -> Result<Reading<'_>, Refusal> {
    let mut told = [0; 9];
    let code = unsafe { ffi::koy_read_strict(bytes.as_ptr(), bytes.len(), &mut told) };
    reading(bytes, code, told)
}

/// What a reader of these bytes answered and told.
fn reading(bytes: &[u8], code: u8, told: [usize; 9]) -> Result<Reading<'_>, Refusal> {
    if code == ffi::KOY_INCOMPLETE {
        return Ok(Reading::Incomplete);
    }
    done(code)?;
    let [kind, total, da, sa, dsap, ssap, fc, start, len] = told;
    let (da, sa) = (Address(da as u8), Address(sa as u8));
    let telegram = match kind {
        1 => Telegram::ShortConfirmation,
        2 => Telegram::Token { da, sa },
        _ => {
            let fc = FunctionCode::try_from(fc as u8)?;
            let header = Header { da, sa, dsap: told_sap(dsap), ssap: told_sap(ssap), fc };
            Telegram::Data { header, pdu: &bytes[start..start + len] }
        }
    };
    Ok(Reading::Telegram { telegram, bytes: &bytes[..total] })
}

/// A data telegram to the front of `buf`. Refusals 8, 9, 10, in this order. 255 bytes are always room enough.
///
/// ```
/// # use koyandefa::{write_data, Address, FrameCountBit, FunctionCode, Header, RequestType, ROOM};
/// let fc = FunctionCode::request(FrameCountBit::Inactive, RequestType::FdlStatus);
/// let mut buf = [0; ROOM];
/// let written = write_data(&Header::new(Address(5), Address(2), fc), &[], &mut buf)?;
/// assert_eq!(written.telegram, [0x10, 0x05, 0x02, 0x49, 0x50, 0x16]);
/// assert_eq!(written.replier, Some(Address(5)));
/// # Ok::<(), koyandefa::Refusal>(())
/// ```
pub fn write_data<'a>(header: &Header, pdu: &[u8], buf: &'a mut [u8]) -> Result<Written<'a>, Refusal> {
    let Header { da, sa, dsap, ssap, fc } = *header;
    let mut told = [0; 2];
    done(unsafe {
        ffi::koy_write_data(
            da.0,
            sa.0,
            number(dsap),
            number(ssap),
            fc.to_byte(),
            pdu.as_ptr(),
            pdu.len(),
            buf.as_mut_ptr(),
            buf.len(),
            &mut told,
        )
    })?;
    Ok(Written { telegram: &buf[..told[0]], replier: told_address(told[1]) })
}

/// A token to the front of `buf`: its 3 bytes. Refusal 10.
///
/// ```
/// # use koyandefa::{write_token, Address};
/// let mut buf = [0; 3];
/// assert_eq!(write_token(Address(5), Address(2), &mut buf)?, [0xDC, 5, 2]);
/// # Ok::<(), koyandefa::Refusal>(())
/// ```
pub fn write_token(da: Address, sa: Address, buf: &mut [u8]) -> Result<&[u8], Refusal> {
    done(unsafe { ffi::koy_write_token(da.0, sa.0, buf.as_mut_ptr(), buf.len()) })?;
    Ok(&buf[..3])
}

/// A short confirmation to the front of `buf`: its 1 byte. Refusal 10.
pub fn write_confirmation(buf: &mut [u8]) -> Result<&[u8], Refusal> {
    done(unsafe { ffi::koy_write_confirmation(buf.as_mut_ptr(), buf.len()) })?;
    Ok(&buf[..1])
}

/// The telegrams of a byte string, one behind the other, from its first byte on. See [`Telegrams`].
pub fn telegrams(bytes: &[u8]) -> Telegrams<'_> {
    Telegrams { bytes, at: 0 }
}

/// A telegram of a byte string, and where it is.
#[derive(Clone, Copy, Debug, PartialEq, Eq, Hash)]
pub struct Found<'a> {
    /// Where its first byte is in the byte string.
    pub at: usize,
    /// Its own bytes.
    pub bytes: &'a [u8],
    /// What it says.
    pub telegram: Telegram<'a>,
}

/// Where and how the telegrams of a byte string end.
#[must_use]
#[derive(Clone, Copy, Debug, PartialEq, Eq, Hash)]
pub enum End {
    /// With the last byte.
    Done {
        /// How many bytes there are.
        at: usize,
    },
    /// With bytes that may be the beginning of a telegram.
    Incomplete {
        /// Where that begins.
        at: usize,
    },
    /// With bytes that begin no telegram.
    Refused {
        /// Where these begin.
        at: usize,
        /// Why, 1 to 7.
        refusal: Refusal,
    },
}

/// In words, as `refused 6 at 11: the checksum is another`.
impl fmt::Display for End {
    fn fmt(&self, f: &mut fmt::Formatter<'_>) -> fmt::Result {
        match *self {
            End::Done { at } => write!(f, "done at {at}"),
            End::Incomplete { at } => write!(f, "incomplete at {at}"),
            End::Refused { at, refusal } => write!(f, "refused {} at {at}: {}", refusal.number(), refusal.words()),
        }
    }
}

/// The telegrams of a byte string, as [`telegrams`] gives them: an iterator that stops where no whole telegram begins, for one of the
/// reasons of [`End`]. It can then be moved on.
///
/// The way back after noise is to pass over one byte and to try again:
///
/// ```
/// # use koyandefa::{telegrams, Address, End, Telegram};
/// let capture = [0xE5, 0xFF, 0x00, 0xDC, 0x05, 0x02, 0xDC];
/// let (mut found, mut noise) = (Vec::new(), Vec::new());
/// let mut all = telegrams(&capture);
/// loop {
///     for telegram in &mut all {
///         found.push((telegram.at, telegram.telegram));
///     }
///     match all.end() {
///         End::Refused { .. } => noise.extend(all.pass_over()),
///         // There is no more, or the rest of a telegram is still to come: keep `all.rest()` for it.
///         End::Done { .. } | End::Incomplete { .. } => break,
///     }
/// }
/// assert_eq!(found, [(0, Telegram::ShortConfirmation), (3, Telegram::Token { da: Address(5), sa: Address(2) })]);
/// assert_eq!(noise, [0xFF, 0x00]);
/// assert_eq!((all.end(), all.rest()), (End::Incomplete { at: 6 }, &[0xDC][..]));
/// ```
///
/// Noise may look like the beginning of a telegram of up to 261 bytes. Where nothing more can come, since the line is idle or the capture
/// is at its end, incomplete bytes are passed over too: what stands behind them may be whole telegrams. Then
/// [`pass_over_noise`](Telegrams::pass_over_noise) does it all:
///
/// ```
/// # use koyandefa::{telegrams, End};
/// let capture = [0x68, 0xFF, 0xFF, 0x68, 0xE5, 0xDC, 0x05, 0x02, 0xDC];
/// let mut lines = Vec::new();
/// let mut all = telegrams(&capture);
/// while !all.rest().is_empty() {
///     for found in &mut all {
///         lines.push(format!("{}: {:?}", found.at, found.telegram));
///     }
///     let end = all.end();
///     let noise = all.pass_over_noise();
///     if !noise.is_empty() {
///         lines.push(format!("{} bytes of noise: {end}", noise.len()));
///     }
/// }
/// assert_eq!(lines[0], "4 bytes of noise: incomplete at 0");
/// assert_eq!(lines[1], "4: ShortConfirmation");
/// assert_eq!(lines[3], "1 bytes of noise: incomplete at 8");
/// assert_eq!(all.end(), End::Done { at: 9 });
/// ```
#[must_use]
#[derive(Clone)]
pub struct Telegrams<'a> {
    bytes: &'a [u8],
    at: usize,
}

impl<'a> Telegrams<'a> {
    /// Where the next telegram is looked for.
    #[must_use]
    pub fn at(&self) -> usize {
        self.at
    }

    /// The bytes from there on.
    #[must_use]
    pub fn rest(&self) -> &'a [u8] {
        &self.bytes[self.at..]
    }

    /// Where and how the telegrams end. Those that the iterator has not given yet are passed over for it; it stays where it is.
    pub fn end(&self) -> End {
        let mut last = self.clone();
        (&mut last).for_each(drop);
        let at = last.at;
        match read(last.rest()) {
            Err(refusal) => End::Refused { at, refusal },
            Ok(_) if last.rest().is_empty() => End::Done { at },
            Ok(_) => End::Incomplete { at },
        }
    }

    /// Passes over one byte, and gives it: nothing where no byte is left. For bytes to which more may come.
    pub fn pass_over(&mut self) -> Option<u8> {
        let passed = self.rest().first().copied()?;
        self.at += 1;
        Some(passed)
    }

    /// Passes over all bytes up to the next whole telegram, or to the last byte, and gives them. For bytes to which nothing more can come:
    /// incomplete ones are passed over too.
    pub fn pass_over_noise(&mut self) -> &'a [u8] {
        let begin = self.at;
        while self.clone().next().is_none() && self.pass_over().is_some() {}
        &self.bytes[begin..self.at]
    }
}

impl<'a> Iterator for Telegrams<'a> {
    type Item = Found<'a>;

    fn next(&mut self) -> Option<Found<'a>> {
        match read(self.rest()) {
            Ok(Reading::Telegram { telegram, bytes }) => {
                let at = self.at;
                self.at += bytes.len();
                Some(Found { at, bytes, telegram })
            }
            Ok(Reading::Incomplete) | Err(_) => None,
        }
    }
}

/// Where it stands, and in how many bytes.
impl fmt::Debug for Telegrams<'_> {
    fn fmt(&self, f: &mut fmt::Formatter<'_>) -> fmt::Result {
        f.debug_struct("Telegrams").field("at", &self.at).field("of", &self.bytes.len()).finish()
    }
}
