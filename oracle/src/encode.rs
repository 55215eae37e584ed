//! The two fixed frames, cut out of encode.rs as they stand, and the harness's frames of symbols under
//! the names that modem.rs asks for.

include!(concat!(env!("OUT_DIR"), "/encode.rs"));

pub(crate) use crate::harness::{encode_lsf, encode_packet, encode_stream};
