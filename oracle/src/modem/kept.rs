//! What the modem's records keep, in a form of our own: one for the amended modem and the unamended one.

use crate::decode::SyncBurst;

/// What the receiver keeps besides its two rings.
#[derive(Clone, Copy, PartialEq)]
pub struct Control {
    pub count: u64,
    pub candidate: Option<Held>,
    pub wait: Option<u16>,
    pub timer: Option<u64>,
}

#[derive(Clone, Copy, PartialEq)]
pub struct Held {
    pub(crate) burst: SyncBurst,
    pub age: u8,
    pub diff: f32,
    pub gain: f32,
    pub shift: f32,
}

/// What the sender keeps besides its window and its frame.
pub struct Sending {
    pub length: usize,
    pub read: usize,
    pub padding: usize,
    pub idle_due: bool,
    pub wish: bool,
    pub end_owed: bool,
    pub end: Option<usize>,
    pub fill: usize,
    pub capacity: usize,
    pub latency: usize,
}
