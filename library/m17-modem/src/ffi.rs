//! The archive's functions, each under a safe one. A slice crosses as a pointer and a length. All that the archive asks of a caller is that
//! each pointer is aligned for its type, and that what one call is lent does not overlap: references give both.
#![allow(unsafe_code)]
use crate::archive;

/// A receiver's memory.
#[derive(Clone)]
pub(crate) struct Receiver {
    window: [i16; 162],
    ring: [f32; 1920],
    numbers: [u64; 14],
    levels: [f32; 3],
}

/// A sender's memory.
#[derive(Clone)]
pub(crate) struct Sender {
    store: [i16; 4000],
    window: [f32; 81],
    numbers: [u64; 13],
}

/// A report's memory.
#[derive(Clone, Debug, PartialEq)]
pub(crate) struct Totals {
    pub(crate) numbers: [u64; 52],
    pub(crate) gains: [f32; 4],
}

/// The memory of eight seats.
#[derive(Clone)]
pub(crate) struct Seats {
    windows: [i16; 1296],
    rings: [f32; 15360],
    numbers: [u64; 112],
    levels: [f32; 24],
    opened: [u64; 8],
}

/// What a feed tells beside its code: how many samples went in, the offer's four numbers, and its gain.
#[derive(Default)]
pub(crate) struct Told {
    pub(crate) numbers: [u64; 5],
    pub(crate) gain: [f32; 1],
}

// In each call below an array goes with the length that the archive's function has for it, and a slice with its own.

impl Receiver {
    pub(crate) const fn zeroed() -> Self {
        Self { window: [0; 162], ring: [0.0; 1920], numbers: [0; 14], levels: [0.0; 3] }
    }

    pub(crate) fn numbers(&self) -> &[u64; 14] {
        &self.numbers
    }

    pub(crate) fn start(&mut self, rate: u32) -> u32 {
        let (w, r, n, l) = (self.window.as_mut_ptr(), self.ring.as_mut_ptr(), self.numbers.as_mut_ptr(), self.levels.as_mut_ptr());
        unsafe { archive::m17_receiver_new(w, r, n, l, rate) }
    }

    pub(crate) fn feed(&mut self, samples: &[i16], room: &mut [f32], told: &mut Told) -> u32 {
        let (w, r, n, l) = (self.window.as_mut_ptr(), self.ring.as_mut_ptr(), self.numbers.as_mut_ptr(), self.levels.as_mut_ptr());
        let (out, gain) = (told.numbers.as_mut_ptr(), told.gain.as_mut_ptr());
        unsafe { archive::m17_receiver_feed(w, r, n, l, samples.as_ptr(), samples.len(), room.as_mut_ptr(), room.len(), out, gain) }
    }

    pub(crate) fn reply(&mut self, accepted: bool) -> u32 {
        let (w, r, n, l) = (self.window.as_ptr(), self.ring.as_ptr(), self.numbers.as_mut_ptr(), self.levels.as_mut_ptr());
        unsafe { archive::m17_receiver_reply(w, r, n, l, accepted.into()) }
    }

    pub(crate) fn carrier(&self) -> u32 {
        unsafe { archive::m17_receiver_carrier(self.window.as_ptr(), self.numbers.as_ptr(), self.levels.as_ptr()) }
    }
}

impl Sender {
    pub(crate) const fn zeroed() -> Self {
        Self { store: [0; 4000], window: [0.0; 81], numbers: [0; 13] }
    }

    fn lend(&mut self) -> (*mut i16, *mut f32, *mut u64) {
        (self.store.as_mut_ptr(), self.window.as_mut_ptr(), self.numbers.as_mut_ptr())
    }

    pub(crate) fn start(&mut self, rate: u32) -> u32 {
        let (s, w, n) = self.lend();
        unsafe { archive::m17_sender_new(s, w, n, rate) }
    }

    pub(crate) fn preamble(&mut self, bert: bool, tx_delay: u8) -> u32 {
        let (s, w, n) = self.lend();
        unsafe { archive::m17_sender_preamble(s, w, n, bert.into(), tx_delay) }
    }

    pub(crate) fn symbols(&mut self, bert: bool, symbols: &[f32]) -> u32 {
        let (s, w, n) = self.lend();
        unsafe { archive::m17_sender_symbols(s, w, n, bert.into(), symbols.as_ptr(), symbols.len()) }
    }

    pub(crate) fn end(&mut self) -> u32 {
        let (s, w, n) = self.lend();
        unsafe { archive::m17_sender_end(s, w, n) }
    }

    pub(crate) fn no_frame(&mut self) -> u32 {
        let (s, w, n) = self.lend();
        unsafe { archive::m17_sender_no_frame(s, w, n) }
    }

    pub(crate) fn read(&mut self, out: &mut [i16], told: &mut u64) -> u32 {
        let (s, w, n) = self.lend();
        unsafe { archive::m17_sender_read(s, w, n, out.as_mut_ptr(), out.len(), told) }
    }

    pub(crate) fn update(&mut self, fill: u64, capacity: u64, latency: u64) -> u32 {
        let (s, w, n) = self.lend();
        unsafe { archive::m17_sender_update(s, w, n, fill, capacity, latency) }
    }

    pub(crate) fn run(&mut self, told: &mut u64) -> u32 {
        let (s, w, n) = self.lend();
        unsafe { archive::m17_sender_run(s, w, n, told) }
    }
}

impl Totals {
    pub(crate) const fn zeroed() -> Self {
        Self { numbers: [0; 52], gains: [0.0; 4] }
    }

    pub(crate) fn start(&mut self) -> u32 {
        unsafe { archive::m17_report_new(self.numbers.as_mut_ptr(), self.gains.as_mut_ptr()) }
    }

    pub(crate) fn add(&mut self, rate: u32, recording: &[i16]) -> u32 {
        let (numbers, gains) = (self.numbers.as_mut_ptr(), self.gains.as_mut_ptr());
        unsafe { archive::m17_report_add(numbers, gains, rate, recording.as_ptr(), recording.len()) }
    }

    pub(crate) fn merge(&mut self, other: &Totals) -> u32 {
        let (numbers, gains) = (self.numbers.as_mut_ptr(), self.gains.as_mut_ptr());
        unsafe { archive::m17_report_merge(numbers, gains, other.numbers.as_ptr(), other.gains.as_ptr()) }
    }
}

impl Seats {
    pub(crate) const fn zeroed() -> Self {
        Self { windows: [0; 1296], rings: [0.0; 15360], numbers: [0; 112], levels: [0.0; 24], opened: [0; 8] }
    }

    fn lend(&mut self) -> (*mut i16, *mut f32, *mut u64, *mut f32, *mut u64) {
        (self.windows.as_mut_ptr(), self.rings.as_mut_ptr(), self.numbers.as_mut_ptr(), self.levels.as_mut_ptr(), self.opened.as_mut_ptr())
    }

    fn show(&self) -> (*const i16, *const f32, *const u64, *const f32, *const u64) {
        (self.windows.as_ptr(), self.rings.as_ptr(), self.numbers.as_ptr(), self.levels.as_ptr(), self.opened.as_ptr())
    }

    pub(crate) fn start(&mut self) -> u32 {
        let (w, r, n, l, o) = self.lend();
        unsafe { archive::m17_desk_new(w, r, n, l, o) }
    }

    pub(crate) fn open(&mut self, seat: u64, rate: u32) -> u32 {
        let (w, r, n, l, o) = self.lend();
        unsafe { archive::m17_desk_open(w, r, n, l, o, seat, rate) }
    }

    pub(crate) fn close(&mut self, seat: u64) -> u32 {
        let (w, r, n, l, o) = self.lend();
        unsafe { archive::m17_desk_close(w, r, n, l, o, seat) }
    }

    pub(crate) fn feed(&mut self, seat: u64, samples: &[i16], room: &mut [f32], told: &mut Told) -> u32 {
        let (w, r, n, l, o) = self.lend();
        let (out, gain) = (told.numbers.as_mut_ptr(), told.gain.as_mut_ptr());
        unsafe { archive::m17_desk_feed(w, r, n, l, o, seat, samples.as_ptr(), samples.len(), room.as_mut_ptr(), room.len(), out, gain) }
    }

    pub(crate) fn reply(&mut self, seat: u64, accepted: bool) -> u32 {
        let (w, r, n, l, o) = self.lend();
        unsafe { archive::m17_desk_reply(w, r, n, l, o, seat, accepted.into()) }
    }

    pub(crate) fn carrier(&self, seat: u64) -> u32 {
        let (w, r, n, l, o) = self.show();
        unsafe { archive::m17_desk_carrier(w, r, n, l, o, seat) }
    }

    pub(crate) fn list(&self, lines: &mut [u64; 24]) -> u32 {
        let (w, r, n, l, o) = self.show();
        unsafe { archive::m17_desk_list(w, r, n, l, o, lines.as_mut_ptr()) }
    }
}

pub(crate) fn accepts(kind: u32, symbols: &[f32; 192]) -> u32 {
    unsafe { archive::m17_accepts(kind, symbols.as_ptr()) }
}

pub(crate) fn line(symbols: &[f32; 192], line: &mut [u8; 97]) {
    unsafe { archive::m17_line(symbols.as_ptr(), line.as_mut_ptr()) }
}

pub(crate) fn line_symbols(line: &[u8; 97], symbols: &mut [f32; 192]) -> u32 {
    unsafe { archive::m17_line_symbols(line.as_ptr(), symbols.as_mut_ptr()) }
}

pub(crate) fn bit_errors(sent: &[f32], received: &[f32], told: &mut u64) -> u32 {
    unsafe { archive::m17_bit_errors(sent.as_ptr(), sent.len(), received.as_ptr(), received.len(), told) }
}

pub(crate) fn replay(rate: u32, recording: &[i16], sample: u64, room: &mut [f32], told: &mut [u64; 4], gain: &mut [f32; 1]) -> u32 {
    let (out, gain) = (told.as_mut_ptr(), gain.as_mut_ptr());
    unsafe { archive::m17_replay(rate, recording.as_ptr(), recording.len(), sample, room.as_mut_ptr(), room.len(), out, gain) }
}

/// A `bool` is a byte, 0 or 1, which is a reply.
pub(crate) fn list(rate: u32, recording: &[i16], replies: &[bool], numbers: &mut [u64], symbols: &mut [f32], told: &mut u64) -> u32 {
    let (all, replied) = (recording.as_ptr(), replies.as_ptr().cast::<u8>());
    let (out, frames) = (numbers.as_mut_ptr(), symbols.as_mut_ptr());
    unsafe { archive::m17_list(rate, all, recording.len(), replied, replies.len(), out, numbers.len(), frames, symbols.len(), told) }
}

pub(crate) fn check(padding: u64, lines: &[u8], samples: &[i16], told: &mut u64) -> u32 {
    unsafe { archive::m17_check(padding, lines.as_ptr(), lines.len(), samples.as_ptr(), samples.len(), told) }
}
