//! All cases, and how one of them is measured on both sides.

use crate::measures::{measure, Measure, Side};
use crate::{guarded, link, orders, others, stations, telegrams, walks};

/// Which cases are measured, and how.
#[derive(Clone, Copy)]
pub struct Plan<'a> {
    pub how: Measure,
    pub word: &'a str,
}

impl Plan<'_> {
    pub fn wants(self, case: &str) -> bool {
        case.contains(self.word)
    }

    /// Measures a case on both sides.
    pub fn case(self, case: &str, ours: Side, rust: Side) {
        self.one_side(case, "ours", ours);
        self.one_side(case, "rust", rust);
    }

    /// The same without a copy of what is lent, for time alone: the runs follow each other on one record.
    pub fn kept(self, case: &str, ours: Side, rust: Side) {
        if self.how == Measure::Time {
            self.one_side(case, "ours-kept", ours);
            self.one_side(case, "rust-kept", rust);
        }
    }

    pub fn one_side(self, case: &str, side: &str, with: Side) {
        if self.wants(case) {
            measure(self.how, case, side, with);
        }
    }
}

pub fn run(how: Measure, word: &str) {
    let plan = Plan { how, word };
    telegrams::reading(plan);
    telegrams::writing(plan);
    stations::list(plan);
    walks::walks(plan);
    orders::orders(plan);
    link::calls(plan);
    guarded::calls(plan);
    others::calls(plan);
}
