//! The correlator: `BURST VALUE .. = DIFF GAIN SHIFT`, eight values. The cases in which a -0.0 shows in the
//! Rust's answer are a list of their own, with the answer to 0.0 in its place, which is the port's.

use crate::bits::{hex, row, step};
use crate::decode::{name, signs, sync_burst_correlation, SyncBurst, BURSTS, SYNC_THRESHOLD};
use crate::random::Random;

type Values = [f32; 8];
type Case = (SyncBurst, Values);

pub fn write() -> String {
    lines(|burst, values| !zero_shows(burst, values))
}

pub fn write_differences() -> String {
    lines(zero_shows)
}

/// The answer to the values as the port hears them. It is the Rust's own wherever no zero shows.
fn lines(wanted: fn(SyncBurst, Values) -> bool) -> String {
    cases()
        .into_iter()
        .filter(|&(burst, values)| wanted(burst, values))
        .map(|(burst, values)| {
            let heard = answer(burst, values.map(|value| value + 0.0));
            format!("{} {} = {heard}\n", name(burst), row(&values))
        })
        .collect()
}

fn zero_shows(burst: SyncBurst, values: Values) -> bool {
    answer(burst, values) != answer(burst, values.map(|value| value + 0.0))
}

fn cases() -> Vec<Case> {
    [
        by_hand(),
        smallest_gain(),
        limits(),
        moved(),
        zeros(),
        crossed(),
        random_values(),
        noisy(),
        largest_values(),
    ]
    .concat()
}

fn answer(burst: SyncBurst, values: Values) -> String {
    let (diff, gain, shift) = sync_burst_correlation(burst.target(), &values);
    format!("{} {} {}", hex(diff), hex(gain), hex(shift))
}

fn matches(burst: SyncBurst, values: Values) -> bool {
    sync_burst_correlation(burst.target(), &values).0 < SYNC_THRESHOLD
}

fn scaled(burst: SyncBurst, gain: f32, offset: f32) -> Values {
    signs(burst).map(|sign| sign * gain + offset)
}

/// P3 to P8 of document 01.
fn by_hand() -> Vec<Case> {
    [
        (32.0, 0.0),
        (16.0, 0.0),
        (15.5, 0.0),
        (20.0, 5.0),
        (20.0, 6.0),
        (20.0, 7.0),
    ]
    .map(|(gain, offset)| (SyncBurst::Lsf, scaled(SyncBurst::Lsf, gain, offset)))
    .to_vec()
}

/// Each burst a step below the smallest gain, at it, and a step above.
fn smallest_gain() -> Vec<Case> {
    let mut cases = Vec::new();
    for burst in BURSTS {
        for by in [-1, 0, 1] {
            cases.push((burst, scaled(burst, step(16.0, by), 0.0)));
        }
    }
    cases
}

/// Each burst with its oldest or its newest value where the distance reaches 0.3, for several gains; and P7 with
/// one value moved by a step.
fn limits() -> Vec<Case> {
    let mut cases = Vec::new();
    for burst in BURSTS {
        for gain in [16.0, 20.0, 32.5, 1000.0, 35_461.0, 141_803.0, 700_000.0] {
            for at in [0, 7] {
                let last = last_size(burst, gain, at);
                for by in [-1, 0, 1] {
                    cases.push((burst, drawn_in(burst, gain, at, step(last, by))));
                }
            }
        }
        for at in 0..8 {
            for by in [-1, 1] {
                let mut values = scaled(burst, 20.0, 6.0);
                values[at] = step(values[at], by);
                cases.push((burst, values));
            }
        }
    }
    cases
}

/// A burst with one value of another size; each has a further value of that sign.
fn drawn_in(burst: SyncBurst, gain: f32, at: usize, size: f32) -> Values {
    let mut values = scaled(burst, gain, 0.0);
    values[at] = size.copysign(values[at]);
    values
}

/// The size that still matches while the next step below it does not, found by halving.
fn last_size(burst: SyncBurst, gain: f32, at: usize) -> f32 {
    let (mut outside, mut inside) = (0, gain.to_bits());
    while inside - outside > 1 {
        let middle = outside + (inside - outside) / 2;
        if matches(burst, drawn_in(burst, gain, at, f32::from_bits(middle))) {
            inside = middle;
        } else {
            outside = middle;
        }
    }
    f32::from_bits(inside)
}

/// Request d: each burst moved by an offset, which changes neither match nor gain nor diff where all are whole.
fn moved() -> Vec<Case> {
    let mut cases = Vec::new();
    for burst in BURSTS {
        for offset in [500.0, -5_000.0, 15_000.0, 141_803.0, -999_970.0] {
            for gain in [16.0, 20.0, 20.5] {
                cases.push((burst, scaled(burst, gain, offset)));
            }
        }
    }
    cases
}

/// Eight zeros of one sign, and zeros of both signs beside another value. Not eight of both signs: Rust leaves
/// open which of two zeros is the larger, and the shift would show it.
fn zeros() -> Vec<Case> {
    let mut random = Random::new(3);
    let mut cases = vec![(SyncBurst::Lsf, [0.0; 8]), (SyncBurst::Lsf, [-0.0; 8])];
    for _ in 0..30 {
        for other in [40.0, -40.0] {
            let mut values = [(); 8].map(|()| *random.pick(&[0.0, -0.0, other]));
            values[random.below(8)] = other;
            cases.push((*random.pick(&BURSTS), values));
        }
    }
    cases
}

/// Each burst's signs, looked for as every burst.
fn crossed() -> Vec<Case> {
    let row = |wanted: SyncBurst| BURSTS.map(|sent| (wanted, scaled(sent, 32.0, 0.0)));
    BURSTS.map(row).concat()
}

fn random_values() -> Vec<Case> {
    let mut random = Random::new(4);
    (0..200)
        .map(|_| {
            let size = *random.pick(&[20.0, 1000.0, 1_000_000.0]);
            (
                *random.pick(&BURSTS),
                [(); 8].map(|()| random.unit() * size),
            )
        })
        .collect()
}

/// Each burst with a gain, noise and an offset of its own, of which most are small enough for a match.
fn noisy() -> Vec<Case> {
    let mut random = Random::new(5);
    let mut cases = Vec::new();
    for burst in BURSTS {
        for _ in 0..90 {
            let gain = 18.0 + (random.unit() + 1.0) * *random.pick(&[10.0, 1000.0, 70_000.0]);
            let noise = gain * 0.15 * random.unit();
            let offset = gain * 0.15 * random.unit();
            let values = scaled(burst, gain, offset).map(|value| value + noise * random.unit());
            cases.push((burst, values));
        }
    }
    cases
}

/// The largest values that are let through: as each burst, and all alike.
fn largest_values() -> Vec<Case> {
    let mut cases = BURSTS
        .map(|burst| (burst, scaled(burst, 1e6, 0.0)))
        .to_vec();
    cases.extend([1e6, -1e6].map(|value| (SyncBurst::Lsf, [value; 8])));
    cases
}
