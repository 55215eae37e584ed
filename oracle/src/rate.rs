//! The rate that this build is for, and the old text's numbers at it.

pub const RATE: usize = if cfg!(feature = "rate24") {
    24_000
} else {
    48_000
};

/// The samples in a symbol.
pub const P: usize = RATE / 4800;

pub const WINDOW: usize = 8 * P + 1;
pub const RING: usize = 192 * P;
pub const STORE: usize = 400 * P;

/// The room that a wish needs, and a step of TxDelay.
pub const WISH: usize = 200 * P;
pub const STEP: usize = 48 * P;

/// The limits of the padding and of a reported end.
pub const MOST_PADDING: usize = 255 * STEP;
pub const LAST_END: usize = 33_554_432 + STORE + MOST_PADDING;

/// From the sample that completes a burst to its frame's last, and the spans of the carrier timer.
pub const REST: usize = 184 * P;
pub const BURST_CARRIER: u64 = 24 * P as u64;
pub const FRAME_CARRIER: u64 = 384 * P as u64;

/// The samples of a frame of 192 symbols, and of the end of transmission.
pub const FRAME: usize = 192 * P;
pub const END: usize = 272 * P;

/// Tap i of this rate: at 24 kHz the even-numbered ones of the table.
pub fn tap(i: usize) -> f32 {
    crate::shaping::RRC_48K[10 / P * i]
}
