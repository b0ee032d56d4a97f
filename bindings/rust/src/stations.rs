//! The station list.
use crate::address::{told_address, Address};
use crate::ffi;
use crate::refusal::{done, Refusal};
use core::fmt;

/// How far a station list can be trusted.
#[derive(Clone, Copy, Debug, PartialEq, Eq, Hash)]
pub enum Phase {
    /// Nothing was witnessed yet; waits for a pass that wraps around.
    Uninitialized,
    /// The stations are being collected.
    Discovery,
    /// What was collected is being seen a second time.
    Verification,
    /// The list holds.
    Valid,
}

/// The list of active stations from one station's point of view. It may be cloned, stored and loaded, as the link's ends may not.
///
/// ```
/// # use koyandefa::{Address, Phase, StationList};
/// let mut list = StationList::new(Address(7))?;
/// for (sa, da) in [(9, 2), (2, 5), (5, 9), (9, 2), (2, 5), (5, 9), (9, 2)] {
///     list.witness(Address(sa), Address(da));
/// }
/// assert_eq!(list.phase(), Phase::Valid);
/// assert_eq!(list.active().collect::<Vec<_>>(), [Address(2), Address(5), Address(9)]);
/// assert_eq!(format!("{list:?}"), "StationList { phase: Valid, own: 7, next: 9, previous: 5, active: {2, 5, 9} }");
/// # Ok::<(), koyandefa::Refusal>(())
/// ```
#[derive(Clone, PartialEq, Eq, Hash)]
pub struct StationList {
    state: [u8; ffi::KOY_STATIONS_SIZE],
}

impl StationList {
    /// A fresh list. Refusal 11.
    pub fn new(own: Address) -> Result<StationList, Refusal> {
        let mut state = [0; ffi::KOY_STATIONS_SIZE];
        done(unsafe { ffi::koy_stations_new(&mut state, own.0) })?;
        Ok(StationList { state })
    }

    /// The list as bytes, to be stored; the header koyandefa.h gives their layout.
    #[must_use]
    pub fn to_bytes(&self) -> [u8; ffi::KOY_STATIONS_SIZE] {
        self.state
    }

    /// The list of any bytes: every content is answered.
    #[must_use]
    pub fn from_bytes(state: [u8; ffi::KOY_STATIONS_SIZE]) -> StationList {
        StationList { state }
    }

    /// A token pass from `sa` to `da` was seen. An address above 125 changes nothing.
    pub fn witness(&mut self, sa: Address, da: Address) {
        unsafe { ffi::koy_stations_witness(&mut self.state, sa.0, da.0) }
    }

    /// The token was claimed: the phase is [`Phase::Valid`].
    pub fn claim(&mut self) {
        unsafe { ffi::koy_stations_claim(&mut self.state) }
    }

    /// Makes a station active, and the next one. Refusal 11.
    pub fn set_next(&mut self, address: Address) -> Result<(), Refusal> {
        done(unsafe { ffi::koy_stations_set_next(&mut self.state, address.0) })
    }

    /// Takes a station out of the list. Refusal 11.
    pub fn remove(&mut self, address: Address) -> Result<(), Refusal> {
        done(unsafe { ffi::koy_stations_remove(&mut self.state, address.0) })
    }

    fn about(&self) -> [usize; 4] {
        let mut told = [0; 4];
        unsafe { ffi::koy_stations_about(&self.state, &mut told) };
        told
    }

    /// How far the list can be trusted.
    #[must_use]
    pub fn phase(&self) -> Phase {
        match self.about()[0] {
            0 => Phase::Uninitialized,
            1 => Phase::Discovery,
            2 => Phase::Verification,
            _ => Phase::Valid,
        }
    }

    /// The station whose list this is.
    #[must_use]
    pub fn own(&self) -> Address {
        Address(self.about()[1] as u8)
    }

    /// The station that we pass the token to.
    #[must_use]
    pub fn next(&self) -> Address {
        Address(self.about()[2] as u8)
    }

    /// The station that passes the token to us.
    #[must_use]
    pub fn previous(&self) -> Address {
        Address(self.about()[3] as u8)
    }

    /// Whether a station is in the list.
    #[must_use]
    pub fn is_active(&self, address: Address) -> bool {
        unsafe { ffi::koy_stations_is_active(&self.state, address.0) }
    }

    /// The first active station from an address upward.
    #[must_use]
    pub fn first_from(&self, address: Address) -> Option<Address> {
        told_address(unsafe { ffi::koy_stations_first_from(&self.state, address.0) })
    }

    /// The last active station up to an address.
    #[must_use]
    pub fn last_to(&self, address: Address) -> Option<Address> {
        told_address(unsafe { ffi::koy_stations_last_to(&self.state, address.0) })
    }

    /// The active stations, rising.
    pub fn active(&self) -> impl Iterator<Item = Address> + '_ {
        (0..128).map(Address).filter(move |&address| self.is_active(address))
    }
}

/// The active stations as a set of numbers.
struct Set<'a>(&'a StationList);

impl fmt::Debug for Set<'_> {
    fn fmt(&self, f: &mut fmt::Formatter<'_>) -> fmt::Result {
        f.debug_set().entries(self.0.active().map(|address| address.0)).finish()
    }
}

/// The phase, the neighbours and the active stations.
impl fmt::Debug for StationList {
    fn fmt(&self, f: &mut fmt::Formatter<'_>) -> fmt::Result {
        f.debug_struct("StationList")
            .field("phase", &self.phase())
            .field("own", &self.own().0)
            .field("next", &self.next().0)
            .field("previous", &self.previous().0)
            .field("active", &Set(self))
            .finish()
    }
}
