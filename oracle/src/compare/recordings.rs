//! Recordings for the receiver: what the old sender sends, whole or damaged, and what nobody sent.

use crate::decode::{signs, BURSTS, KINDS};
use crate::modem::{Modulator, ModulatorFrame, SoftModulator};
use crate::random::Random;
use crate::rate::{tap, FRAME, P, WINDOW};
use crate::signal::shaped::{matching, samples, FIRST};
use crate::signal::{frame, frame_with_tail, transmission};

pub struct Recording {
    pub name: &'static str,
    pub samples: Vec<i16>,
    /// The reply to each offer in turn: `a` accepts, `r` rejects.
    pub replies: String,
    /// The seed of the lengths in which its stretches are fed.
    pub pieces: u64,
}

type Maker = fn(&mut Random) -> Vec<i16>;

const MAKERS: [(&str, Maker); 14] = [
    ("clean", sent),
    ("noisy", noisy),
    ("offset", offset),
    ("fading", fading),
    ("slipping", slipping),
    ("clipped", clipped),
    ("faint", faint),
    ("spliced", spliced),
    ("noise", noise),
    ("silence", silence),
    ("preamble", preamble),
    ("extremes", extremes),
    ("corners", corners),
    ("wrecked", wrecked),
];

/// The kinds of recording take turns.
pub fn recording(random: &mut Random, number: usize) -> Recording {
    let (name, make) = MAKERS[number % MAKERS.len()];
    let samples = make(random);
    let replies = replies(random, samples.len());
    let pieces = u64::from(random.word());
    Recording {
        name,
        samples,
        replies,
        pieces,
    }
}

/// More replies than there can be offers: one comes at least 150 symbols after another.
fn replies(random: &mut Random, samples: usize) -> String {
    let accepted = *random.pick(&[0, 1, 4, 8]);
    (0..samples / (150 * P) + 2)
        .map(|_| if random.below(8) < accepted { 'a' } else { 'r' })
        .collect()
}

/// A few frames in a transmission, some ending with a burst, some made of bursts only.
fn sent(random: &mut Random) -> Vec<i16> {
    let count = 1 + random.below(8);
    let frames: Vec<_> = (0..count).map(|_| any_frame(random)).collect();
    let mut samples = transmission(&frames);
    let late = random.below(200 * P);
    samples.drain(..late);
    let pause = random.below(600 * P);
    samples.extend(std::iter::repeat_n(0, pause));
    samples
}

fn any_frame(random: &mut Random) -> [f32; 192] {
    let kind = *random.pick(&KINDS);
    match random.below(4) {
        0 => {
            let tail = *random.pick(&BURSTS);
            frame_with_tail(random, kind, tail)
        }
        1 => bursts_only(random),
        _ => frame(random, kind),
    }
}

fn bursts_only(random: &mut Random) -> [f32; 192] {
    let mut symbols = [0.0; 192];
    for eight in symbols.chunks_mut(8) {
        eight.copy_from_slice(&signs(*random.pick(&BURSTS)));
    }
    symbols
}

fn limited(value: f64) -> i16 {
    value.clamp(-32_768.0, 32_767.0) as i16
}

fn with_noise(random: &mut Random, samples: &mut [i16], level: usize) {
    for sample in samples {
        *sample = limited(f64::from(*sample) + f64::from(random.around(level)));
    }
}

fn scaled(samples: &mut [i16], by: f64, offset: f64) {
    for sample in samples {
        *sample = limited(f64::from(*sample) * by + offset);
    }
}

fn noisy(random: &mut Random) -> Vec<i16> {
    let mut samples = sent(random);
    let level = *random.pick(&[1, 10, 100, 500, 1000, 2000, 4000, 8000]);
    with_noise(random, &mut samples, level);
    samples
}

fn offset(random: &mut Random) -> Vec<i16> {
    let mut samples = sent(random);
    let offset = f64::from(random.around(16_000));
    let by = 0.02 + random.below(1000) as f64 / 1000.0;
    scaled(&mut samples, by, offset);
    samples
}

/// The gain changes every few hundred samples, now and then to nothing or to the negative.
fn fading(random: &mut Random) -> Vec<i16> {
    let mut samples = sent(random);
    let mut at = 0;
    while at < samples.len() {
        let end = (at + 2 * P + random.below(150 * P)).min(samples.len());
        let by = *random.pick(&[1.0, 0.9, 0.5, 0.1, 0.01, 0.001, 0.0, 1.9, -1.0]);
        scaled(&mut samples[at..end], by, 0.0);
        at = end;
    }
    samples
}

/// Samples are dropped and given twice.
fn slipping(random: &mut Random) -> Vec<i16> {
    let samples = sent(random);
    let rarely = *random.pick(&[10, 100, 1000]);
    let mut out = Vec::with_capacity(samples.len());
    for sample in samples {
        match random.below(2 * rarely) {
            0 => {}
            1 => out.extend([sample; 2]),
            _ => out.push(sample),
        }
    }
    out
}

fn clipped(random: &mut Random) -> Vec<i16> {
    let mut samples = sent(random);
    let by = 1.0 + random.below(40) as f64;
    scaled(&mut samples, by, f64::from(random.around(20_000)));
    samples
}

/// Near the smallest gain, 16, at which a burst is heard.
fn faint(random: &mut Random) -> Vec<i16> {
    let mut samples = sent(random);
    let by = 1.0 / (120 * P + random.below(150 * P)) as f64;
    scaled(&mut samples, by, f64::from(random.around(4)));
    let level = random.below(3);
    with_noise(random, &mut samples, level);
    samples
}

/// Pieces of transmissions, one after the other.
fn spliced(random: &mut Random) -> Vec<i16> {
    let sources = [sent(random), sent(random)];
    let mut out = vec![];
    for _ in 0..60 {
        let from = random.pick(&sources);
        let length = (4 * P + random.below(90 * P)).min(from.len());
        let at = random.below(from.len() - length + 1);
        out.extend_from_slice(&from[at..at + length]);
    }
    out
}

fn noise(random: &mut Random) -> Vec<i16> {
    let level = *random.pick(&[1, 30, 100, 1000, 10_000, 32_767]);
    (0..2_000 * P)
        .map(|_| random.around(level) as i16)
        .collect()
}

/// A steady value: zeros more often than not.
fn silence(random: &mut Random) -> Vec<i16> {
    let value = *random.pick(&[0, 0, 0, 1, -1, 1000, i16::MAX, i16::MIN]);
    vec![value; 600 * P]
}

fn preamble(random: &mut Random) -> Vec<i16> {
    let mut sender = SoftModulator::new();
    let mut samples = vec![0; 6 * FRAME];
    for frame in samples.chunks_mut(FRAME) {
        sender.provide_next_frame(Some(ModulatorFrame::Preamble { tx_delay: 0 }));
        sender.read_output_samples(frame);
    }
    let by = *random.pick(&[1.0, 0.01, 0.0006, 2.0]);
    scaled(&mut samples, by, f64::from(random.around(50)));
    samples
}

/// The largest and lowest samples: at random, in runs, and with the taps' signs.
fn extremes(random: &mut Random) -> Vec<i16> {
    let ends = [i16::MIN, i16::MAX];
    let mut out = vec![];
    while out.len() < 1_500 * P {
        match random.below(4) {
            0 => out.extend((0..20 * P).map(|_| *random.pick(&ends))),
            1 => {
                let run = 1 + random.below(20 * P);
                let end = *random.pick(&ends);
                out.extend(std::iter::repeat_n(end, run));
            }
            2 => {
                let up = random.below(2) == 0;
                out.extend((0..WINDOW).map(|i| ends[usize::from((tap(i) > 0.0) == up)]));
            }
            _ => {
                let by = *random.pick(&ends);
                for sign in signs(*random.pick(&BURSTS)) {
                    let level = if sign > 0.0 { by } else { by.saturating_neg() };
                    out.extend([level; P]);
                }
            }
        }
    }
    out
}

/// Up to three bursts, a sample or two apart, with gains and diffs that let the second replace or age the first.
fn corners(random: &mut Random) -> Vec<i16> {
    let mut out = vec![];
    for _ in 0..8 {
        let gain = *random.pick(&[16.1, 17.0, 40.0, 40.0, 100.0, 400.0]);
        let apart = *random.pick(&[1, 1, 1, 2]);
        let mut wishes = vec![];
        for i in 0..1 + random.below(3) {
            let slack = gain * random.below(25) as f64 / 100.0;
            let bursts = if random.below(6) > 0 {
                &KINDS[..]
            } else {
                &BURSTS
            };
            let burst = *random.pick(bursts);
            wishes.extend(matching(burst, FIRST + i * apart, gain, slack));
        }
        // Several wishes can ask for samples that i16 does not hold: then this corner is left out.
        if let Some(samples) = samples(&wishes) {
            out.extend(samples);
            out.extend([0; 190 * P]);
        }
    }
    out
}

fn wrecked(random: &mut Random) -> Vec<i16> {
    let mut samples = slipping(random);
    let level = *random.pick(&[1, 50, 500]);
    with_noise(random, &mut samples, level);
    let by = *random.pick(&[1.0, 0.01, 0.0007, 3.0]);
    scaled(&mut samples, by, f64::from(random.around(200)));
    samples
}
