//! Made-up receiver records that a stretch of 12 to 1,500 samples is given to, so that inside it a frame is due, a sample
//! is refused, a timer ends, a burst is found.

use super::flat::*;
use super::lengths::{stretch_length, BLOCK};
use super::receivers::{any_count, filtered, found, held, rings, spoil, LAST};
use super::steps::Step;
use super::stretch_signals::{Laid, Signal, Signals, BEFORE};
use super::values::{bad_rate, numbered, out_of_range};
use crate::decode::KINDS;
use crate::modem::kept::{Control, Held};
use crate::random::Random;
use crate::rate::{FRAME_CARRIER, P, REST, RING, WINDOW};

pub struct StretchCase {
    pub record: Receiver,
    pub samples: Vec<i16>,
    pub room: Vec<f32>,
}

pub fn made_up(random: &mut Random, signals: &mut Signals) -> StretchCase {
    let length = stretch_length(random);
    let signal = signals.signal(random, length);
    let samples = signal.samples[BEFORE..].to_vec();
    let mut record = rings(random);
    if random.below(8) > 0 {
        lay_before(&mut record, &signal);
    }
    let eight = first_eight(&record, samples[0]);
    let control = control(random, length, signal.laid, eight);
    let found = found(random, control);
    record.set_control(control, found, random.below(64) == 0);
    lay_bad_values(random, &mut record, control);
    spoil_some(random, &mut record, samples[0]);
    let size = match random.below(24) {
        0 => 191,
        1 => random.below(191),
        2..=12 => 192,
        _ => 192 + random.below(9),
    };
    StretchCase {
        record,
        samples,
        room: numbered(size),
    }
}

/// Window and ring as the samples before the stretch leave them: the window whole, and the ring's newest seven symbols.
fn lay_before(record: &mut Receiver, signal: &Signal) {
    let (cursor, rx) = record.cursors();
    let newest = |ago: usize| -> [i16; WINDOW] {
        let end = BEFORE - ago;
        let part = &signal.samples[end - WINDOW..end];
        part.try_into().expect("as many samples")
    };
    let mut window = newest(0);
    window.rotate_right(cursor);
    record.lay_twice(&window);
    for ago in 0..7 * P {
        record.floats[(rx + RING - 1 - ago) % RING] = filtered(&newest(ago), 0);
    }
}

/// What the first sample's search reads, the oldest first.
fn first_eight(record: &Receiver, sample: i16) -> [f32; 8] {
    let (cursor, rx) = record.cursors();
    let mut window = *record.half();
    window[cursor] = sample;
    let mut eight = [filtered(&window, (cursor + 1) % WINDOW); 8];
    for (j, value) in eight[..7].iter_mut().enumerate() {
        *value = record.floats[(rx + RING - P * (7 - j)) % RING];
    }
    eight
}

fn control(random: &mut Random, length: usize, laid: Option<Laid>, eight: [f32; 8]) -> Control {
    let aging = laid.and_then(|laid| old_candidate(random, laid));
    let candidate = match random.below(2) {
        _ if aging.is_some() => aging,
        0 => None,
        _ => Some(held(random, eight)),
    };
    let waits = candidate.is_some() && aging.is_none() && random.below(3) > 0;
    let wait = waits.then(|| wait(random, length));
    let mut count = match random.below(8) {
        // The last number lies inside, or just past the stretch.
        0 => LAST - random.below(length + 2) as u64,
        1 => random.below(3) as u64,
        _ => any_count(random),
    };
    if candidate.is_some() {
        count = count.max(1);
    }
    let timer = (random.below(4) > 0).then(|| timer(random, count, length, laid));
    Control {
        count,
        candidate,
        wait,
        timer: timer.map(|end| end.min(LAST + FRAME_CARRIER)),
    }
}

/// Of the kind that matches at the first samples, and nearer than any of them: it grows older at each, up to an age of 255.
fn old_candidate(random: &mut Random, laid: Laid) -> Option<Held> {
    let wanted = laid.at == 0 && KINDS.contains(&laid.burst) && random.below(2) == 0;
    wanted.then(|| Held {
        burst: laid.burst,
        age: 255 - 1 - random.below(laid.times) as u8,
        diff: 0.0,
        gain: 40.0,
        shift: *random.pick(&[0.0, -3.5]),
    })
}

/// Most often it ends inside the stretch; else near its last sample, near 12 or a block, or anywhere.
fn wait(random: &mut Random, length: usize) -> u16 {
    let left = match random.below(8) {
        0 => 1 + random.below(2),
        1 => length - 1 + random.below(4),
        2 => *random.pick(&[11, 12, 13, 14, BLOCK - 1, BLOCK, BLOCK + 1, BLOCK + 2]),
        3 => 1 + random.below(REST - 1),
        _ => 1 + random.below(length),
    };
    left.min(REST - 1) as u16
}

/// Most often it ends inside the stretch, within a block of a burst where one is laid.
fn timer(random: &mut Random, count: u64, length: usize, laid: Option<Laid>) -> u64 {
    match random.below(8) {
        0 => count.saturating_sub(1) + random.below(3) as u64,
        1 => LAST + FRAME_CARRIER,
        2 => count + random.below(390 * P) as u64,
        3 | 4 => count + random.below(length) as u64,
        _ => {
            let at = laid.map_or(0, |laid| laid.at);
            count + (at + random.below(2 * BLOCK)).saturating_sub(BLOCK) as u64
        }
    }
}

/// Out of range or no number: what no sample reads, but one that is due; what a sample of the first symbol reads; what
/// the due one reads.
fn lay_bad_values(random: &mut Random, record: &mut Receiver, control: Control) {
    let rx = record.cursors().1;
    let mut lay = |random: &mut Random, back: usize| {
        record.floats[(rx + 2 * RING - back) % RING] = out_of_range(random);
    };
    match (random.below(8), control.wait) {
        (0 | 1, _) => {
            let one_in = *random.pick(&[1, 2, 30]);
            for back in 7 * P + 1..=RING {
                if random.below(one_in) == 0 {
                    lay(random, back);
                }
            }
        }
        (2, _) => {
            let back = 1 + random.below(7 * P);
            lay(random, back);
        }
        (3, Some(left)) => {
            let back = P * (1 + random.below(191)) + RING + 1 - usize::from(left);
            lay(random, back);
        }
        _ => {}
    }
}

/// One in sixteen by phrases of the unfit list, halves that differ among them; one in thirty-two by its rate.
fn spoil_some(random: &mut Random, record: &mut Receiver, sample: i16) {
    if random.below(16) == 0 {
        let step = Step::Sample {
            sample,
            accepted: true,
        };
        spoil(random, record, &step);
    }
    if random.below(64) == 0 {
        let place = random.below(USED);
        record.window[place] ^= 1;
    }
    if random.below(32) == 0 {
        record.numbers[RECEIVER_RATE] = bad_rate(random);
    }
}
