//! The settings text of a link.
use crate::address::Address;
use crate::ffi;
use crate::refusal::{done, Refusal};

/// The settings of an end of a link, and their text: three lines `own=2`, `peer=5`, `tries=2`, each ended by a line feed.
///
/// ```
/// # use koyandefa::{Address, GuardedInitiator, Refusal, Settings};
/// let settings = Settings::read(b"own=2\npeer=5\ntries=2\n")?;
/// assert_eq!(settings, Settings { own: Address(2), peer: Address(5), tries: 2 });
/// assert_eq!(settings.write(&mut [0; Settings::LONGEST])?, b"own=2\npeer=5\ntries=2\n");
/// assert_eq!(Settings::read(b"own=2\r\npeer=5\r\ntries=2\r\n"), Err(Refusal::SettingsForm));
/// let head_end = GuardedInitiator::new(settings.own, settings.peer, settings.tries, 0)?;
/// # Ok::<(), Refusal>(())
/// ```
#[derive(Clone, Copy, Debug, PartialEq, Eq, Hash)]
pub struct Settings {
    /// This end's address, 0 to 125.
    pub own: Address,
    /// The other end's, another one.
    pub peer: Address,
    /// How often a telegram is written before it is given up, 1 to 8.
    pub tries: u8,
}

impl Settings {
    /// The length of the longest text.
    pub const LONGEST: usize = 25;

    /// The settings of a text. Refusals 20, 18, 19, in this order.
    pub fn read(text: &[u8]) -> Result<Settings, Refusal> {
        let mut told = [0; 3];
        done(unsafe { ffi::koy_settings_read(text.as_ptr(), text.len(), &mut told) })?;
        Ok(Settings { own: Address(told[0] as u8), peer: Address(told[1] as u8), tries: told[2] as u8 })
    }

    /// The text, to the front of `buf`. Refusals 18, 19, 10, in this order.
    pub fn write<'a>(&self, buf: &'a mut [u8]) -> Result<&'a [u8], Refusal> {
        let mut told = [0];
        done(unsafe {
            ffi::koy_settings_write(self.own.0, self.peer.0, self.tries, buf.as_mut_ptr(), buf.len(), &mut told)
        })?;
        Ok(&buf[..told[0]])
    }
}
