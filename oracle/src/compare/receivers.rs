//! Made-up receiver records of the build's rate: fit ones that no run reaches, ones that a phrase of the unfit list
//! spoils, and ones of a rate that is none.

use super::flat::*;
use super::refusals::tested;
use super::steps::{Case, Step};
use super::values::{bad_rate, in_range, nan, numbered, out_of_range};
use crate::decode::{signs, sync_burst_correlation, SyncBurst, KINDS};
use crate::modem::found::Found;
use crate::modem::kept::{Control, Held};
use crate::random::Random;
use crate::rate::{tap, BURST_CARRIER, FRAME_CARRIER, P, REST, RING, WINDOW};

pub const LAST: u64 = 1 << 63;

/// The bursts whose last symbol is positive, and the others.
const UP: [SyncBurst; 3] = [
    SyncBurst::Bert,
    SyncBurst::Stream,
    SyncBurst::EndOfTransmission,
];
const DOWN: [SyncBurst; 3] = [SyncBurst::Lsf, SyncBurst::Packet, SyncBurst::Preamble];

pub fn made_up(random: &mut Random) -> Case {
    let step = match random.below(16) {
        0..=9 => Step::Sample {
            sample: any_sample(random),
            accepted: random.below(2) == 0,
        },
        10..=13 => Step::Reply {
            accepted: random.below(4) == 0,
        },
        _ => Step::Query,
    };
    let mut record = rings(random);
    let owed = matches!(step, Step::Reply { .. }) || random.below(60) == 0;
    let eight = burst(random, &mut record, &step);
    let control = control(random, owed, eight);
    let found = found(random, control);
    record.set_control(control, found, owed && random.below(40) > 0);
    if random.below(3) > 0 {
        lay_not_numbers(random, &mut record, &step);
    }
    if random.below(8) == 0 {
        spoil(random, &mut record, &step);
    }
    if random.below(24) == 0 {
        record.numbers[RECEIVER_RATE] = bad_rate(random);
    }
    let size = match random.below(40) {
        0 => random.below(192),
        1 => 0,
        _ => 192 + random.below(9),
    };
    let room = numbered(size);
    Case { record, step, room }
}

fn any_sample(random: &mut Random) -> i16 {
    match random.below(8) {
        0 => *random.pick(&[0, i16::MAX, i16::MIN]),
        _ => random.sample(),
    }
}

/// Both rings with their cursors, and nothing else. The places that the rate does not use hold anything.
pub fn rings(random: &mut Random) -> Receiver {
    let mut record = Receiver::empty();
    let level = *random.pick(&[0, 20, 500, 32_767]);
    record.lay_twice(&[(); WINDOW].map(|()| random.around(level) as i16));
    let scale = *random.pick(&[0.0, 1.0, 40.0, 1000.0, 1_000_000.0]);
    for value in &mut record.floats[..RING] {
        *value = in_range(random, scale);
    }
    for sample in &mut record.window[USED..] {
        *sample = random.sample();
    }
    for value in &mut record.floats[RING..VALUES] {
        *value = out_of_range(random);
    }
    record.numbers[FILTER_CURSOR] = random.below(WINDOW) as u64;
    record.numbers[RX_CURSOR] = match random.below(4) {
        0 => random.below(8 * P) as u64,
        _ => random.below(RING) as u64,
    };
    record
}

/// The filtered value of the window from a cursor on: one rounding an operation, in the Rust's order.
pub fn filtered(window: &[i16; WINDOW], cursor: usize) -> f32 {
    let mut out = 0.0;
    for i in 0..WINDOW {
        out += tap(i) * f32::from(window[(cursor + i) % WINDOW]);
    }
    out
}

/// Lays a burst, more or less exact, in the seven places that the search reads besides the newest value, and
/// gives the eight. What the newest value is depends on the window.
fn burst(random: &mut Random, record: &mut Receiver, step: &Step) -> [f32; 8] {
    let (cursor, rx) = record.cursors();
    let newest = match *step {
        Step::Sample { sample, .. } => {
            let mut window = *record.half();
            window[cursor] = sample;
            filtered(&window, (cursor + 1) % WINDOW)
        }
        _ => {
            let newest = filtered(record.half(), cursor);
            // What a reply searches: the newest value is the last sample's.
            record.floats[(rx + RING - 1) % RING] = newest;
            newest
        }
    };
    let after = if matches!(step, Step::Sample { .. }) {
        rx + 1
    } else {
        rx
    };
    let place = |j: usize| (after + 2 * RING - 1 - P * (7 - j)) % RING;
    if random.below(4) > 0 {
        let signs = signs(*random.pick(if newest > 0.0 { &UP } else { &DOWN }));
        let offset = newest.abs() * random.unit() * *random.pick(&[0.0, 0.05, 0.35]);
        let gain = (newest - offset).abs();
        let noise = gain * *random.pick(&[0.0, 0.01, 0.2, 0.5]);
        for (j, sign) in signs[..7].iter().enumerate() {
            record.floats[place(j)] = gain * sign + offset + noise * random.unit();
        }
    }
    let mut eight = [newest; 8];
    for (j, value) in eight[..7].iter_mut().enumerate() {
        *value = record.floats[place(j)];
    }
    eight
}

pub fn any_count(random: &mut Random) -> u64 {
    (u64::from(random.word()) << 31 | u64::from(random.word())) >> random.below(60)
}

fn control(random: &mut Random, owed: bool, eight: [f32; 8]) -> Control {
    let mut count = match random.below(8) {
        0 => LAST,
        1 => LAST - 1,
        2 => random.below(3) as u64,
        _ => any_count(random),
    };
    if owed {
        // A reply is owed for a sample, so the old modem's count before it is one less.
        count = count.max(1);
    }
    let candidate = (!owed && random.below(5) > 0).then(|| held(random, eight));
    if candidate.is_some() {
        // It was taken at a sample.
        count = count.max(1);
    }
    let wait = (candidate.is_some() && random.below(2) == 0).then(|| match random.below(4) {
        0 => 2,
        1 => 1 + random.below(REST - 1) as u16,
        _ => 1,
    });
    let timer = (random.below(3) > 0).then(|| match random.below(7) {
        0 => 0,
        1 => LAST + FRAME_CARRIER,
        2 => count.saturating_sub(1),
        3 => count,
        4 => count + 1,
        5 => count + BURST_CARRIER - 1,
        _ => count + random.below(390 * P) as u64,
    });
    Control {
        count,
        candidate,
        wait,
        timer: timer.map(|end| end.min(LAST + FRAME_CARRIER)),
    }
}

/// What is kept besides: from the first sample to the last one a candidate may be taken, and a wait's age and mark may
/// be anything but an age of 0.
pub fn found(random: &mut Random, control: Control) -> Found {
    let mut found = Found::default();
    if control.candidate.is_some() {
        found.taken_at = match random.below(4) {
            0 => 1,
            1 => control.count,
            _ => 1 + u64::from(random.word()) % control.count,
        };
    }
    if control.wait.is_some() {
        found.age = *random.pick(&[1, 2, 10, 11, 254, 255]);
        found.replaced = random.below(2) == 0;
    }
    found
}

/// A candidate; its diff is often that of the match at hand, or a step from it, and now and then it is what that match
/// would take.
pub fn held(random: &mut Random, eight: [f32; 8]) -> Held {
    let kind = *random.pick(&KINDS);
    let taken = KINDS
        .iter()
        .map(|&burst| (burst, sync_burst_correlation(burst.target(), &eight)))
        .find(|(_, (diff, _, _))| *diff < 100.0);
    if let (Some((burst, (diff, gain, shift))), 0) = (taken, random.below(12)) {
        return Held {
            burst,
            age: 1,
            diff,
            gain,
            shift,
        };
    }
    let found = taken.map(|(_, (diff, _, _))| diff);
    let diff = match (found, random.below(5)) {
        (Some(diff), 0) => diff,
        (Some(diff), 1) => f32::from_bits(diff.to_bits() + 1),
        (Some(diff), 2) if diff > 0.0 => f32::from_bits(diff.to_bits() - 1),
        (_, 3) => *random.pick(&[0.0, -0.0, 1e-45, 2.4, 99.999_99]),
        _ => random.unit().abs() * 3.0,
    };
    Held {
        burst: kind,
        age: *random.pick(&[1, 1, 2, 3, 9, 10, 100, 253, 254, 254]),
        diff,
        gain: *random.pick(&[16.0, 16.000_002, 100.0, 35_461.0, 1_000_000.0]),
        shift: *random.pick(&[0.0, -0.0, 5.0, -700.25, 1_000_000.0, -1_000_000.0]),
    }
}

/// Not-a-numbers and what is out of range, in places that the call does not test.
fn lay_not_numbers(random: &mut Random, record: &mut Receiver, step: &Step) {
    let mut free = [true; RING];
    for place in tested(record, step) {
        free[place] = false;
    }
    let one_in = *random.pick(&[1, 2, 30]);
    for (place, free) in free.into_iter().enumerate() {
        if free && random.below(one_in) == 0 {
            record.floats[place] = out_of_range(random);
        }
    }
}

/// One thing, or two, that the unfit list names.
pub fn spoil(random: &mut Random, record: &mut Receiver, step: &Step) {
    for _ in 0..1 + random.below(2) {
        let places: Vec<usize> = tested(record, step).collect();
        let (n, f) = (&mut record.numbers, &mut record.floats);
        match random.below(16) {
            0 => n[FILTER_CURSOR] = *random.pick(&[WINDOW as u64, WINDOW as u64 + 1, u64::MAX]),
            // A cursor this large is tested no further.
            1 => {
                n[RX_CURSOR] = *random.pick(&[RING as u64, RING as u64 + 1, u64::MAX]);
                return;
            }
            2 => n[COUNT] = *random.pick(&[LAST + 1, u64::MAX]),
            3 => {
                let end = *random.pick(&[LAST + FRAME_CARRIER + 1, u64::MAX]);
                (n[TIMER_HELD], n[TIMER_END]) = (1, end);
            }
            4 => hold(n, f, *random.pick(&[0, 255]), 1.0, 20.0, 0.0),
            5 => {
                let nan = nan(random);
                let diff = *random.pick(&[-1e-45, 100.0, f32::INFINITY, nan]);
                hold(n, f, 1, diff, 20.0, 0.0);
            }
            6 => {
                let nan = nan(random);
                let gain = *random.pick(&[15.999_999, 1_000_000.06, -16.0, nan]);
                hold(n, f, 1, 1.0, gain, 0.0);
            }
            7 => hold(n, f, 1, 1.0, 20.0, out_of_range(random)),
            8 => {
                hold(n, f, 1, 1.0, 20.0, 0.0);
                wait(n, *random.pick(&[0, REST as u64, 65_535]));
            }
            9 => {
                let_go(n, f);
                wait(n, 1 + random.below(REST - 1) as u64);
            }
            10 => {
                hold(n, f, 1, 1.0, 20.0, 0.0);
                n[OWED] = 1;
            }
            11 => {
                hold(n, f, 1, 1.0, 20.0, 0.0);
                n[TAKEN_AT] = *random.pick(&[0, n[COUNT].saturating_add(1), u64::MAX]);
            }
            12 => {
                hold(n, f, 1, 1.0, 20.0, 0.0);
                wait(n, 1 + random.below(REST - 1) as u64);
                n[WAIT_AGE] = 0;
            }
            13 => {
                let sample = &mut record.window[random.below(USED)];
                *sample = sample.wrapping_add((1 + random.below(65_535)) as i16);
            }
            _ if places.is_empty() => {}
            _ => f[*random.pick(&places)] = out_of_range(random),
        }
    }
}

fn hold(n: &mut [u64; NUMBERS], f: &mut [f32; FLOATS], age: u64, diff: f32, gain: f32, shift: f32) {
    (n[KIND], n[AGE], n[TAKEN_AT]) = (2, age, n[COUNT]);
    f[DIFF..].copy_from_slice(&[diff, gain, shift]);
}

fn wait(n: &mut [u64; NUMBERS], left: u64) {
    (n[WAIT_HELD], n[WAIT_LEFT], n[WAIT_AGE]) = (1, left, 1);
}

fn let_go(n: &mut [u64; NUMBERS], f: &mut [f32; FLOATS]) {
    (n[KIND], n[AGE], n[TAKEN_AT]) = (NO_KIND, 0, 0);
    f[DIFF..].copy_from_slice(&[0.0; 3]);
}
