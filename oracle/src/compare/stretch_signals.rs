//! Samples for stretches on made-up records, with those that came before.

use super::recordings::recording;
use crate::decode::{SyncBurst, BURSTS, KINDS};
use crate::random::Random;
use crate::signal::shaped::{matching, samples, FIRST};

/// So many samples come before the stretch: a shaped burst can be found at its first sample.
pub const BEFORE: usize = FIRST - 1;

/// How many signals are cut out of a recording before the next one is made.
const CUTS: usize = 32;

/// Bursts that were shaped: the first is found at this place of the stretch, the others a sample or two after it.
#[derive(Clone, Copy)]
pub struct Laid {
    pub at: usize,
    pub burst: SyncBurst,
    /// On how many samples in a row it is found.
    pub times: usize,
}

pub struct Signal {
    /// `BEFORE` samples, then the stretch.
    pub samples: Vec<i16>,
    pub laid: Option<Laid>,
}

#[derive(Default)]
pub struct Signals {
    recording: Vec<i16>,
    number: usize,
    cuts: usize,
}

impl Signals {
    /// One in four is zeros from some place on, or up to it.
    pub fn signal(&mut self, random: &mut Random, length: usize) -> Signal {
        let whole = BEFORE + length;
        let (mut samples, laid) = match random.below(9) {
            0 => (vec![0; whole], None),
            1 => (steady(random, whole), None),
            2 => (noise(random, whole, &[1, 2, 4, 30]), None),
            3 => (noise(random, whole, &[100, 1000, 10_000, 32_767]), None),
            4 | 5 => (self.cut(random, whole), None),
            _ => shaped(random, length),
        };
        let zeros = random.below(whole);
        match random.below(8) {
            0 => samples[zeros..].fill(0),
            1 => samples[..zeros].fill(0),
            _ => {}
        }
        Signal { samples, laid }
    }

    /// A part of a recording. The kinds of recording take turns.
    fn cut(&mut self, random: &mut Random, whole: usize) -> Vec<i16> {
        if self.cuts == 0 || self.recording.len() < whole {
            self.recording = recording(random, self.number).samples;
            self.recording.resize(self.recording.len().max(whole), 0);
            self.number += 1;
            self.cuts = CUTS;
        }
        self.cuts -= 1;
        let at = random.below(self.recording.len() - whole + 1);
        self.recording[at..at + whole].to_vec()
    }
}

fn steady(random: &mut Random, whole: usize) -> Vec<i16> {
    let any = random.sample();
    vec![*random.pick(&[1, -1, 12, 1000, i16::MAX, i16::MIN, any]); whole]
}

fn noise(random: &mut Random, whole: usize, levels: &[usize]) -> Vec<i16> {
    let level = *random.pick(levels);
    (0..whole).map(|_| random.around(level) as i16).collect()
}

/// Bursts in up to three places, over noise or over nothing; what is said of them is said of the first, one in three of
/// which is found at the first sample.
fn shaped(random: &mut Random, length: usize) -> (Vec<i16>, Option<Laid>) {
    let level = *random.pick(&[0, 0, 1, 20]);
    let mut out = noise(random, BEFORE + length, &[level]);
    let mut first = None;
    for _ in 0..1 + random.below(3) {
        let at = match random.below(3) {
            0 if first.is_none() => 0,
            _ => random.below(length),
        };
        let (burst, times, signal) = bursts(random);
        for (sample, more) in out[at..].iter_mut().zip(&signal) {
            *sample = sample.saturating_add(*more);
        }
        let laid = Laid { at, burst, times };
        first = first.or((!signal.is_empty()).then_some(laid));
    }
    (out, first)
}

/// Up to four matches, a sample or two apart, of the same burst or of others; no samples where i16 does not hold them.
fn bursts(random: &mut Random) -> (SyncBurst, usize, Vec<i16>) {
    let gain = *random.pick(&[16.1, 17.0, 40.0, 40.0, 100.0, 400.0]);
    let apart = *random.pick(&[1, 1, 1, 2]);
    let of = if random.below(3) > 0 {
        &KINDS[..]
    } else {
        &BURSTS
    };
    let burst = *random.pick(of);
    let alike = random.below(3) > 0;
    let count = 1 + random.below(4);
    let mut wishes = vec![];
    for i in 0..count {
        let slack = gain * random.below(25) as f64 / 100.0;
        let wished = if alike || i == 0 {
            burst
        } else {
            *random.pick(of)
        };
        wishes.extend(matching(wished, FIRST + i * apart, gain, slack));
    }
    let times = if alike && apart == 1 { count } else { 1 };
    (burst, times, samples(&wishes).unwrap_or_default())
}
