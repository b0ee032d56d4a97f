//! The crate root of the original: takes its files in unchanged, as compare/oracle/root.rs does. It is a crate of its own, as it
//! is for a program that depends on profirust: what is not generic is compiled here and called from the driver.
//!
//! speed/run lays this file beside `original`, a link to the folder with profirust's sources. What the files want of the rest
//! of their crate is stood in for here.

pub type Address = u8;

#[path = "original/consts.rs"]
#[allow(dead_code)]
pub mod consts;

#[path = "original/fdl/telegram.rs"]
pub mod telegram;

pub mod fdl {
    pub struct Parameters {
        pub address: crate::Address,
    }
}

pub mod token_ring {
    include!("original/fdl/token_ring.rs");
}

// Included, not named as a module, so that a line of ours can begin a walk on any store.
#[allow(dead_code)]
pub mod diagnostics {
    include!("original/dp/diagnostics.rs");

    impl<'a> ExtendedDiagnostics<'a> {
        pub fn of(store: &'a mut [u8], length: usize) -> Self {
            let buffer = managed::ManagedSlice::Borrowed(store);
            Self { buffer, length }
        }
    }
}
