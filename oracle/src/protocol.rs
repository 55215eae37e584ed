//! The six bursts and the frames' types, cut out of protocol.rs as they stand.

#![allow(dead_code)]

include!(concat!(env!("OUT_DIR"), "/protocol.rs"));
