//! What the old receiver makes of a signal: the judge of those that are shaped or searched for.

use crate::decode::SyncBurst;
use crate::harness::{lay_replies, take_offer};
use crate::modem::kept::{Control, Held};
use crate::modem::peek::control;
use crate::modem::{Demodulator, SoftDemodulator};

/// Whether the receiver keeps a candidate of this kind and age.
pub(crate) fn holds(state: Control, kind: SyncBurst, age: u8) -> bool {
    state
        .candidate
        .is_some_and(|c| c.burst == kind && c.age == age)
}

/// Whether a candidate was taken in the place of another with the very same diff.
pub fn is_tie((before, after): (Control, Control), wished: impl Fn(Held, Held) -> bool) -> bool {
    before
        .candidate
        .zip(after.candidate)
        .is_some_and(|(held, taken)| {
            held.diff == taken.diff && taken.age == 1 && wished(held, taken)
        })
}

/// What the receiver keeps after each sample, from fresh.
fn steps(samples: &[i16], replies: &str) -> Vec<Control> {
    lay_replies(replies);
    let mut receiver = SoftDemodulator::new();
    let mut kept = vec![control(&receiver)];
    for &sample in samples {
        receiver.demod(sample);
        kept.push(control(&receiver));
    }
    take_offer();
    kept
}

/// Every offer, its kind and sample.
pub fn offered(samples: &[i16], replies: &str) -> Vec<(&'static str, usize)> {
    lay_replies(replies);
    let mut receiver = SoftDemodulator::new();
    let mut hear = |sample: i16| {
        receiver.demod(sample);
        take_offer().map(|offer| offer.kind)
    };
    (1..)
        .zip(samples)
        .filter_map(|(number, &sample)| hear(sample).map(|kind| (kind, number)))
        .collect()
}

/// What the receiver keeps before the last sample of a signal, and after it.
pub fn last_step(samples: &[i16]) -> (Control, Control) {
    let kept = steps(samples, "");
    (kept[samples.len() - 1], kept[samples.len()])
}

/// Every wait that was set, and on which sample.
pub fn waits(samples: &[i16], replies: &str) -> Vec<(usize, u16)> {
    steps(samples, replies)
        .windows(2)
        .filter(|step| step[0].wait.is_none_or(|left| left == 1))
        .filter_map(|step| step[1].wait.map(|left| (step[1].count as usize, left)))
        .collect()
}

/// Every change of the timer's end, and on which sample.
pub fn timers(samples: &[i16], replies: &str) -> Vec<(u64, Option<u64>)> {
    steps(samples, replies)
        .windows(2)
        .filter(|step| step[0].timer != step[1].timer)
        .map(|step| (step[1].count, step[1].timer))
        .collect()
}
