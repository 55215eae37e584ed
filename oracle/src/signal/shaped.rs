//! Short signals whose filtered values pass through wished ones. The corners of the search need two
//! kinds on neighbouring samples, which no sent frame gives.

use crate::decode::{signs, SyncBurst};
use crate::rate::{tap, P, WINDOW};

/// Where a shaped signal has its first match: far enough in for all samples that the values lean on.
pub const FIRST: usize = 16 * P;

/// The eight values that a search reads.
pub type Values = [f32; 8];

/// A wished filtered value, at a sample numbered from 1.
#[derive(Clone, Copy)]
pub struct Wish {
    pub at: usize,
    pub value: f64,
}

/// The wishes under which `burst` matches at sample `at` with this gain. The second value of each sign, neither the
/// oldest nor the newest, is the extreme; the others lie nearer to the shift by `slack`, which makes the diff.
pub(crate) fn matching(burst: SyncBurst, at: usize, gain: f64, slack: f64) -> [Wish; 8] {
    let mut seen = [0; 2];
    let mut place = 0;
    signs(burst).map(|sign| {
        place += 1;
        let same = &mut seen[usize::from(sign > 0.0)];
        *same += 1;
        let size = if *same == 2 { gain } else { gain - slack };
        Wish {
            at: at + P * place - 8 * P,
            value: f64::from(sign) * size,
        }
    })
}

/// Samples that come as near to the wishes as whole samples can: those of least energy, rounded. None
/// where a sample would have to lie outside i16.
pub fn samples(wishes: &[Wish]) -> Option<Vec<i16>> {
    samples_up_to(wishes, wishes.iter().map(|wish| wish.at).max()?)
}

/// The same with so many samples, and zeros after them.
pub fn samples_up_to(wishes: &[Wish], length: usize) -> Option<Vec<i16>> {
    let rows: Vec<Vec<f64>> = wishes.iter().map(|wish| heard(wish.at, length)).collect();
    let product = |a: &[f64], b: &[f64]| a.iter().zip(b).map(|(a, b)| a * b).sum();
    let gram: Vec<Vec<f64>> = rows
        .iter()
        .map(|a| rows.iter().map(|b| product(a, b)).collect())
        .collect();
    let weights = solved(gram, wishes.iter().map(|wish| wish.value).collect());

    let mut exact = vec![0.0; length];
    for (row, weight) in rows.iter().zip(weights) {
        for (sample, tap) in exact.iter_mut().zip(row) {
            *sample += weight * tap;
        }
    }
    let fits = |&value: &f64| f64::abs(value) <= 32_000.0;
    exact
        .iter()
        .all(fits)
        .then(|| exact.iter().map(|value| value.round() as i16).collect())
}

/// The values that a search at sample `at` reads, for looking through many signals quickly; what is found is
/// judged by the receiver.
pub fn eight(samples: &[i16], at: usize) -> Values {
    let mut place = at - 8 * P;
    [(); 8].map(|()| {
        place += P;
        let window = &samples[place - WINDOW..place];
        (0..)
            .zip(window)
            .fold(0.0, |sum, (i, &sample)| sum + tap(i) * f32::from(sample))
    })
}

/// By which tap each of the first samples is heard in the value at sample `at`; those before the first are 0.
fn heard(at: usize, length: usize) -> Vec<f64> {
    (1..=length)
        .map(|number| {
            let place = (number + 8 * P).checked_sub(at).filter(|&i| i < WINDOW);
            place.map_or(0.0, |i| f64::from(tap(i)))
        })
        .collect()
}

/// Solves `rows` times x equals `right`, by elimination with the largest pivot.
fn solved(mut rows: Vec<Vec<f64>>, mut right: Vec<f64>) -> Vec<f64> {
    let n = right.len();
    for at in 0..n {
        let size = |row: &usize| rows[*row][at].abs();
        let pivot = (at..n)
            .max_by(|a, b| size(a).total_cmp(&size(b)))
            .unwrap_or(at);
        rows.swap(at, pivot);
        right.swap(at, pivot);
        for below in at + 1..n {
            let (above, from_here) = rows.split_at_mut(below);
            let (known, row) = (&above[at], &mut from_here[0]);
            let factor = row[at] / known[at];
            for (value, known) in row.iter_mut().zip(known) {
                *value -= factor * known;
            }
            right[below] -= factor * right[at];
        }
    }
    for at in (0..n).rev() {
        let known: f64 = (at + 1..n)
            .map(|column| rows[at][column] * right[column])
            .sum();
        right[at] = (right[at] - known) / rows[at][at];
    }
    right
}
