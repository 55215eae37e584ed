//! Signals for the receiver: transmissions of the old sender, and short ones shaped on purpose.

pub mod moved;
pub mod shaped;

use crate::decode::{signs, SyncBurst};
use crate::harness::{a_stream, lay_symbols};
use crate::modem::{Modulator, ModulatorFrame, SoftModulator};
use crate::random::Random;
use crate::rate::STORE;

/// The symbols that two bits stand for, as encode.rs has them.
pub const DIBITS: [f32; 4] = [1.0, 1.0 / 3.0, -1.0 / 3.0, -1.0];

/// A frame: the burst's signs and a random payload.
pub(crate) fn frame(random: &mut Random, burst: SyncBurst) -> [f32; 192] {
    let mut symbols = [(); 192].map(|()| *random.pick(&DIBITS));
    symbols[..8].copy_from_slice(&signs(burst));
    symbols
}

/// A frame whose payload ends with a burst, so that one is found on the very sample of its offer.
pub(crate) fn frame_with_tail(
    random: &mut Random,
    burst: SyncBurst,
    tail: SyncBurst,
) -> [f32; 192] {
    let mut symbols = frame(random, burst);
    symbols[184..].copy_from_slice(&signs(tail));
    symbols
}

/// Document 01's whole case, 55F7 and 92 digits 0: the burst, and symbols that are all 1/3.
pub fn house_frame() -> [f32; 192] {
    let mut symbols = [DIBITS[1]; 192];
    symbols[..8].copy_from_slice(&signs(SyncBurst::Lsf));
    symbols
}

/// What the old sender makes of a preamble, the frames and the end of transmission.
pub fn transmission(frames: &[[f32; 192]]) -> Vec<i16> {
    let mut sender = SoftModulator::new();
    let mut sent = Vec::new();
    provide(
        &mut sender,
        &mut sent,
        ModulatorFrame::Preamble { tx_delay: 0 },
    );
    for &symbols in frames {
        lay_symbols(symbols);
        provide(&mut sender, &mut sent, ModulatorFrame::Stream(a_stream()));
    }
    provide(&mut sender, &mut sent, ModulatorFrame::EndOfTransmission);
    sent
}

fn provide(sender: &mut SoftModulator, sent: &mut Vec<i16>, frame: ModulatorFrame) {
    let mut room = [0; STORE];
    sender.provide_next_frame(Some(frame));
    let written = sender.read_output_samples(&mut room);
    sent.extend_from_slice(&room[..written]);
}

/// The signal as a card hears it: made fainter, moved by an offset, with noise.
pub fn heard(
    random: &mut Random,
    sent: &[i16],
    fainter: i32,
    offset: i32,
    noise: usize,
) -> Vec<i16> {
    sent.iter()
        .map(|&sample| (i32::from(sample) / fainter + offset + random.around(noise)) as i16)
        .collect()
}

/// Signals one after the other, each but the last drawn out with zeros to `spacing` samples.
pub fn joined(signals: &[Vec<i16>], spacing: usize) -> Vec<i16> {
    let mut samples = Vec::new();
    for (i, signal) in signals.iter().enumerate() {
        samples.resize(i * spacing, 0);
        samples.extend_from_slice(signal);
    }
    samples
}
