//! modem.rs, the very file, with nothing amended: what tools/compare asks where an amendment changes nothing.

#![allow(clippy::needless_range_loop)]

include!(env!("M17CORE_MODEM"));

#[path = "../modem/peek.rs"]
pub mod peek;

#[path = "../modem/lay.rs"]
pub mod lay;
