//! modem.rs, whole, with the amendments of the requests, and below it the modules that look into its records and
//! make them up.

#![allow(clippy::needless_range_loop)]

include!(concat!(env!("OUT_DIR"), "/modem.rs"));

pub mod found;
pub mod kept;
pub mod peek;

#[cfg(feature = "compare")]
pub mod lay;
