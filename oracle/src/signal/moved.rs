//! Signals that are searched for: a shaped one, changed by steps that are smaller than shaping can wish for.

use super::shaped::{eight, Values, FIRST};
use crate::rate::{tap, P};

/// How far the ends of a signal are moved.
const REACH: i16 = 1000;

/// The oldest sample that is heard at FIRST, as an index: in the oldest of the eight values alone.
pub const OLDEST: usize = FIRST - (15 * P + 1);

/// The one of a symbol's samples heard in that value alone that is heard most faintly; for signals that end at
/// FIRST, since a later search hears it too.
pub fn faintest() -> usize {
    let loudness = |i: &usize| tap(*i).abs();
    let faintest = (0..P).min_by(|a, b| loudness(a).total_cmp(&loudness(b)));
    OLDEST + faintest.expect("a symbol has samples")
}

/// A signal with two samples moved until its values are as wished and the receiver agrees. One is the last,
/// which is heard in the newest value of the last search alone, the other is `place`; both are heard faintly,
/// so that the values go by small steps. What is wished is asked of the eight values at FIRST with the one
/// moved, and of the last eight with the other.
pub fn ends_moved(
    plain: &[i16],
    place: usize,
    wished: impl Fn(&Values, &Values) -> bool,
    agreed: impl Fn(&[i16]) -> bool,
) -> Option<Vec<i16>> {
    let moved = |first: i16, last: i16| {
        let mut samples = plain.to_vec();
        samples[place] += first;
        samples[plain.len() - 1] += last;
        samples
    };
    let nearby = || (0..=REACH).flat_map(|by| [by, -by]);
    let lasts: Vec<(i16, Values)> = nearby()
        .map(|by| (by, eight(&moved(0, by), plain.len())))
        .collect();
    nearby().find_map(|first| {
        let values = eight(&moved(first, 0), FIRST);
        let fits = |(last, others): &(i16, Values)| {
            wished(&values, others)
                .then(|| moved(first, *last))
                .filter(|samples| agreed(samples))
        };
        lasts.iter().find_map(fits)
    })
}
