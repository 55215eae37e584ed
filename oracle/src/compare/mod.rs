//! The comparison at scale: the same inputs to the port and to the old modem, and every value compared.

pub mod calls;
pub mod flat;
pub mod lengths;
pub mod listening;
pub mod listings;
pub mod pieces;
pub mod port;
pub mod receivers;
pub mod recordings;
pub mod refusals;
pub mod senders;
pub mod sessions;
pub mod smallest;
pub mod steps;
pub mod stretch_calls;
pub mod stretch_cases;
pub mod stretch_counts;
pub mod stretch_signals;
pub mod stretches;
pub mod tally;
#[cfg(not(feature = "rate24"))]
pub mod unamended;
pub mod values;
pub mod wire;

use std::panic::{catch_unwind, AssertUnwindSafe};

/// What the old modem's text gives, or that it stops, which is a difference too.
pub fn caught<T>(asked: impl FnOnce() -> T) -> Result<T, String> {
    catch_unwind(AssertUnwindSafe(asked)).map_err(|_| "the old modem panics".to_string())
}

/// A difference, with the smallest input found that shows it.
pub struct Difference {
    pub what: String,
    pub input: String,
}
