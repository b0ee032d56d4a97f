//! Extended diagnostics: filling a store, and the walk over its blocks.
use crate::ffi;
use crate::refusal::Refusal;
use core::fmt;

/// A block of extended diagnostics.
#[derive(Clone, Copy, Debug, PartialEq, Eq, Hash)]
pub enum Block<'a> {
    /// A bit for each module: [`modules`] lists those that are set. The body is a part of the store.
    Identifier(&'a [u8]),
    /// What the device's maker says. The body is a part of the store.
    Device(&'a [u8]),
    /// What is wrong with one channel.
    Channel {
        /// The module, 0 to 63.
        module: u8,
        /// The channel of the module, 0 to 63.
        channel: u8,
        /// It is an input.
        input: bool,
        /// It is an output.
        output: bool,
        /// The type of its data.
        dtype: ChannelDataType,
        /// What is wrong.
        error: ChannelError,
    },
}

/// The type of a channel's data.
#[derive(Clone, Copy, Debug, PartialEq, Eq, Hash)]
pub enum ChannelDataType {
    /// One bit, number 1.
    Bit,
    /// Two bits, 2.
    Bit2,
    /// Four bits, 3.
    Bit4,
    /// A byte, 4.
    Byte,
    /// A word, 5.
    Word,
    /// Two words, 6.
    DWord,
    /// No type: 0 and 7.
    Invalid,
}

/// What is wrong with a channel.
#[derive(Clone, Copy, Debug, PartialEq, Eq, Hash)]
pub enum ChannelError {
    /// Number 1.
    ShortCircuit,
    /// 2.
    UnderVoltage,
    /// 3.
    OverVoltage,
    /// 4.
    OverLoad,
    /// 5.
    OverTemperature,
    /// 6.
    LineBreak,
    /// 7.
    UpperLimitOvershoot,
    /// 8.
    LowerLimitUndershoot,
    /// 9.
    Error,
    /// 0 and 10 to 15.
    Reserved(u8),
    /// 16 to 31, a vendor's own.
    Vendor(u8),
}

impl ChannelDataType {
    fn of(number: usize) -> ChannelDataType {
        match number {
            1 => ChannelDataType::Bit,
            2 => ChannelDataType::Bit2,
            3 => ChannelDataType::Bit4,
            4 => ChannelDataType::Byte,
            5 => ChannelDataType::Word,
            6 => ChannelDataType::DWord,
            _ => ChannelDataType::Invalid,
        }
    }
}

impl ChannelError {
    fn of(number: u8) -> ChannelError {
        match number {
            1 => ChannelError::ShortCircuit,
            2 => ChannelError::UnderVoltage,
            3 => ChannelError::OverVoltage,
            4 => ChannelError::OverLoad,
            5 => ChannelError::OverTemperature,
            6 => ChannelError::LineBreak,
            7 => ChannelError::UpperLimitOvershoot,
            8 => ChannelError::LowerLimitUndershoot,
            9 => ChannelError::Error,
            0 | 10..=15 => ChannelError::Reserved(number),
            _ => ChannelError::Vendor(number),
        }
    }
}

/// The walk over the first `walked` bytes of a store, block by block. A refusal, 12 to 14, ends it.
///
/// ```
/// # use koyandefa::{fill, modules, Block, ChannelError, ChannelDataType, Refusal, Walk};
/// let mut store = [0; 64];
/// let walked = fill(&mut store, &[0x42, 0x05, 0x83, 0xC1, 0x26, 0x40]).expect("they fit");
/// let mut walk = Walk::new(&store, walked);
/// match walk.next() {
///     Some(Ok(Block::Identifier(body))) => assert_eq!(modules(body).collect::<Vec<_>>(), [0, 2]),
///     other => panic!("{other:?}"),
/// }
/// match walk.next() {
///     Some(Ok(Block::Channel { module: 3, channel: 1, dtype: ChannelDataType::Bit, error: ChannelError::LineBreak, .. })) => {}
///     other => panic!("{other:?}"),
/// }
/// assert_eq!(walk.next(), Some(Err(Refusal::BlockLengthZero)));
/// assert_eq!(walk.next(), None);
/// ```
#[must_use]
#[derive(Clone)]
pub struct Walk<'a> {
    store: &'a [u8],
    walked: usize,
    cursor: [usize; 1],
}

impl<'a> Walk<'a> {
    /// A walk that begins at the store's first byte. `walked` above the store's length counts as that.
    pub fn new(store: &'a [u8], walked: usize) -> Walk<'a> {
        Walk { store, walked, cursor: [0] }
    }

    /// Where the next block is looked for.
    #[must_use]
    pub fn cursor(&self) -> usize {
        self.cursor[0]
    }
}

impl<'a> Iterator for Walk<'a> {
    type Item = Result<Block<'a>, Refusal>;

    fn next(&mut self) -> Option<Self::Item> {
        let mut told = [0; 9];
        let code = unsafe {
            ffi::koy_diagnostics_step(self.store.as_ptr(), self.store.len(), self.walked, &mut self.cursor, &mut told)
        };
        let [kind, start, len, module, channel, input, output, dtype, error] = told;
        match code {
            ffi::KOY_AT_END => None,
            ffi::KOY_DONE => Some(Ok(match kind {
                1 => Block::Identifier(&self.store[start..start + len]),
                2 => Block::Device(&self.store[start..start + len]),
                _ => Block::Channel {
                    module: module as u8,
                    channel: channel as u8,
                    input: input == 1,
                    output: output == 1,
                    dtype: ChannelDataType::of(dtype),
                    error: ChannelError::of(error as u8),
                },
            })),
            code => Some(Err(Refusal::of_code(code))),
        }
    }
}

/// Where it stands, and in how many bytes.
impl fmt::Debug for Walk<'_> {
    fn fmt(&self, f: &mut fmt::Formatter<'_>) -> fmt::Result {
        let of = self.walked.min(self.store.len());
        f.debug_struct("Walk").field("cursor", &self.cursor()).field("of", &of).finish()
    }
}

/// `bytes` to the front of the store: how many are to be walked then. Nothing where there is no store or they do not fit it.
#[must_use]
pub fn fill(store: &mut [u8], bytes: &[u8]) -> Option<usize> {
    let mut walked = [0];
    let filled =
        unsafe { ffi::koy_diagnostics_fill(store.as_mut_ptr(), store.len(), &mut walked, bytes.as_ptr(), bytes.len()) };
    filled.then_some(walked[0])
}

/// Whether a module's bit is set in the body of an identifier block.
#[must_use]
pub fn module_is_set(body: &[u8], module: usize) -> bool {
    unsafe { ffi::koy_diagnostics_module(body.as_ptr(), body.len(), module) }
}

/// The modules whose bit is set in the body of an identifier block, rising.
pub fn modules(body: &[u8]) -> impl Iterator<Item = usize> + '_ {
    (0..8 * body.len()).filter(move |&module| module_is_set(body, module))
}
