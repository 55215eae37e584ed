//! Slicer and correlator, cut out of decode.rs as they stand, and the harness's decoders under the names
//! that modem.rs asks for.

#![allow(clippy::needless_range_loop)]

use crate::protocol::{
    BERT_SYNC, END_OF_TRANSMISSION, LSF_SYNC, PACKET_SYNC, PREAMBLE, STREAM_SYNC,
};

include!(concat!(env!("OUT_DIR"), "/decode.rs"));

pub(crate) use crate::harness::{parse_lsf, parse_packet, parse_stream};

/// The slicer, which is private there.
pub(crate) fn slice(sample: f32) -> [u8; 2] {
    decode_sample(sample)
}

/// The bursts in the order in which a search tries them.
pub(crate) const BURSTS: [SyncBurst; 6] = [
    SyncBurst::Preamble,
    SyncBurst::EndOfTransmission,
    SyncBurst::Lsf,
    SyncBurst::Bert,
    SyncBurst::Stream,
    SyncBurst::Packet,
];

/// The four that head a frame, in the same order.
pub(crate) const KINDS: [SyncBurst; 4] = [
    SyncBurst::Lsf,
    SyncBurst::Bert,
    SyncBurst::Stream,
    SyncBurst::Packet,
];

/// The word that the lists use for a burst.
pub(crate) fn name(burst: SyncBurst) -> &'static str {
    match burst {
        SyncBurst::Lsf => "lsf",
        SyncBurst::Bert => "bert",
        SyncBurst::Stream => "stream",
        SyncBurst::Packet => "packet",
        SyncBurst::Preamble => "preamble",
        SyncBurst::EndOfTransmission => "end",
    }
}

pub(crate) fn signs(burst: SyncBurst) -> [f32; 8] {
    burst.target().map(f32::from)
}
