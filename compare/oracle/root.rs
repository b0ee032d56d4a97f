//! The crate root of the oracle: takes the original files in unchanged and puts a program that speaks the bench's text
//! in front of them.
//!
//! compare/build lays this file beside `original`, a link to the folder with profirust's sources, and `oracle`, a link
//! to this folder. What the four files want of the rest of their crate is stood in for here: `Address`, as its lib.rs
//! has it, and of `fdl::Parameters` the one field that is read.

pub type Address = u8;

#[path = "original/consts.rs"]
#[allow(dead_code)]
pub mod consts;

#[path = "original/fdl/telegram.rs"]
#[allow(dead_code)]
pub mod telegram;

pub mod fdl {
    pub struct Parameters {
        pub address: crate::Address,
    }
}

// These two keep what the bench shows in private fields. They are included, not named as modules, so that a few lines of
// ours can stand in the same module and show them; the files themselves begin with items, so that they can be.

#[allow(dead_code)]
pub mod token_ring {
    include!("original/fdl/token_ring.rs");
    include!("oracle/shown_ring.rs");
}

#[allow(dead_code)]
pub mod diagnostics {
    include!("original/dp/diagnostics.rs");
    include!("oracle/shown_walk.rs");
}

#[path = "oracle/bench.rs"]
mod bench;
#[path = "oracle/caught.rs"]
mod caught;
#[path = "oracle/refusals.rs"]
mod refusals;
#[path = "oracle/stations.rs"]
mod stations;
#[path = "oracle/telegrams.rs"]
mod telegrams;
#[path = "oracle/text.rs"]
mod text;
#[path = "oracle/walk.rs"]
mod walk;

fn main() {
    bench::run();
}
