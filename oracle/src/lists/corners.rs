//! The corners of the search: short signals shaped on purpose. Each is judged by the old receiver itself
//! before it is listed.

use crate::bits::step;
use crate::decode::{name, sync_burst_correlation, SyncBurst, KINDS, SYNC_THRESHOLD};
use crate::lists::judge::{holds, is_tie, last_step, timers, waits};
use crate::lists::streams::{script, Script};
use crate::random::Random;
use crate::rate::{BURST_CARRIER, FRAME_CARRIER, P, REST};
use crate::signal::moved::{ends_moved, faintest, OLDEST};
use crate::signal::shaped::{self, matching, Values, Wish, FIRST};
use crate::signal::{heard, joined};
use SyncBurst::{Bert, EndOfTransmission, Lsf, Packet, Preamble, Stream};

pub fn corners() -> Vec<Script> {
    let mut corners = Vec::new();
    for (held, second) in pairs() {
        corners.push(pair(held, second, false));
        corners.push(pair(held, second, true));
    }
    corners.push(tie());
    corners.extend(pairs().map(|(held, second)| tied_pair(held, second)));
    corners.extend([chain(), ages(), sooner()]);
    for (met, name) in [(true, "met"), (false, "missed")] {
        corners.extend([least_gain(met, name), distance(met, name)]);
    }
    corners
}

/// Every kind with every other one.
fn pairs() -> impl Iterator<Item = (SyncBurst, SyncBurst)> {
    KINDS
        .into_iter()
        .flat_map(|held| KINDS.map(|second| (held, second)))
        .filter(|(held, second)| held != second)
}

/// One kind on a sample and another on the next, with a smaller or a larger diff. The second replaces the
/// first or adds to its age; the wait is set by the first's failure on the second's sample, unless an
/// earlier-listed second has replaced it by then.
fn pair(held: SyncBurst, second: SyncBurst, larger: bool) -> Script {
    let gain = 40.0;
    let (first, then) = if larger { (1.0, 5.0) } else { (5.0, 1.0) };
    let samples = shaped(&[
        matching(held, FIRST, gain, first),
        matching(second, FIRST + 1, gain, then),
    ]);

    let (kept, age, diff) = if larger {
        (held, 2, "larger")
    } else {
        (second, 1, "smaller")
    };
    let (before, after) = last_step(&samples);
    assert!(holds(before, held, 1) && holds(after, kept, age));
    let name = format!("{}-{}-{diff}", name(held), name(second));
    script(&name, "a", with_pause(samples))
}

/// A Stream burst on two samples with the very same diff: the later is taken. Small changes of the samples
/// are tried until the diffs agree.
fn tie() -> Script {
    let mut random = Random::new(10);
    let places = [(FIRST - 1, 0.06), (FIRST, 0.05), (FIRST + 1, 0.05)];
    let at_gain = |gain: f64| {
        let wishes = places.map(|(at, slack)| matching(Stream, at, gain, gain * slack));
        shaped::samples(&wishes.concat())
    };
    let plain = [2_000.0, 500.0].into_iter().find_map(at_gain);
    let plain = plain.expect("i16 has room for one of the gains");
    let samples = (0..100_000)
        .map(|_| heard(&mut random, &plain, 1, 0, 1))
        .find(|samples| is_tie(last_step(samples), |held, taken| held.gain != taken.gain))
        .expect("some change gives the tie");
    script("tie", "r", with_pause(samples))
}

/// One kind on a sample and another on the next, with the very same diff: the second is taken, earlier- or
/// later-listed. The stream ends with the wait.
fn tied_pair(held: SyncBurst, second: SyncBurst) -> Script {
    let tied = |slack: f64| {
        // Two gains, else the ends move both diffs by the same steps, which need not meet.
        let wishes = [
            matching(held, FIRST, 150.0, 7.5),
            matching(second, FIRST + 1, 160.0, slack),
        ];
        ends_moved(
            &shaped(&wishes),
            OLDEST,
            |first, last| {
                let wished = diff(held, first);
                wished < SYNC_THRESHOLD && wished == diff(second, last)
            },
            |samples| {
                is_tie(last_step(samples), |before, taken| {
                    before.burst == held && taken.burst == second
                })
            },
        )
    };
    let samples = (70..90)
        .find_map(|tenths| tied(f64::from(tenths) / 10.0))
        .expect("some slack gives the tie");
    let name = format!("{}-{}-tie", name(held), name(second));
    script(&name, "", with_rest(samples))
}

/// Packet, Stream, BERT, LSF on four samples, each with a smaller diff: three switches without a wait.
fn chain() -> Script {
    let gain = 40.0;
    let kinds = [Packet, Stream, Bert, Lsf];
    let mut at = FIRST;
    let samples = shaped(&kinds.map(|kind| {
        at += 1;
        matching(kind, at - 1, gain, gain * 0.03 * (FIRST + 5 - at) as f64)
    }));
    for (i, &kind) in kinds.iter().enumerate() {
        let (_, after) = last_step(&samples[..FIRST + i]);
        assert!(holds(after, kind, 1) && after.wait.is_none());
    }
    script("chain", "a", with_pause(samples))
}

/// As many bursts as a symbol has samples, whose candidates grow so old, from 1 on, before the wait is set. Each
/// but the first begins to match on the very sample on which the frame before it is due. Every frame is rejected.
fn ages() -> Script {
    let kinds = [Lsf, Bert, Stream, Packet];
    let bursts: Vec<Vec<i16>> = (1..=P).map(|age| aged(kinds[(age - 1) % 4], age)).collect();
    let samples = joined(&bursts, REST);
    let replies = "r".repeat(P);
    let set = |age: usize| (FIRST + (age - 1) * REST + age, (REST - age) as u16);
    assert!(waits(&samples, &replies).into_iter().eq((1..=P).map(set)));
    script("ages", &replies, with_pause(samples))
}

/// A burst that matches on so many samples, each time with a larger diff, and then no more.
fn aged(kind: SyncBurst, age: usize) -> Vec<i16> {
    let gain = 40.0;
    let slack = |i: usize| gain * (0.03 + 0.02 * i as f64);
    let mut wishes: Vec<Wish> = (0..age)
        .flat_map(|i| matching(kind, FIRST + i, gain, slack(i)))
        .collect();
    wishes.push(Wish {
        at: FIRST + age,
        value: 0.0,
    });
    shaped::samples(&wishes).expect("i16 has room for the gain")
}

/// An LSF burst, whose wait sets the timer far off; on the sample of its offer, which is rejected, a
/// preamble burst that makes the end sooner; then an end burst, and a pause in which the timer runs out.
fn sooner() -> Script {
    let gain = 40.0;
    let one = |burst: SyncBurst| shaped(&[matching(burst, FIRST, gain, 0.0)]);
    let [first, second, third] = [Lsf, Preamble, EndOfTransmission].map(one);
    let samples = [joined(&[first, second], REST), third, vec![0; 30 * P]].concat();
    let ends = timers(&samples, "r");
    let due = (FIRST + REST) as u64;
    assert!(ends.contains(&(due, Some(due + BURST_CARRIER))));
    let set = FIRST as u64 + 1;
    assert!(ends.contains(&(set, Some(set + FRAME_CARRIER))));
    assert!(ends.last().is_some_and(|&(_, end)| end.is_none()));
    script("sooner", "r", samples)
}

/// A Packet burst whose gain is 16.0, or up to ten steps of the bit pattern below it: then only the gain is
/// amiss.
fn least_gain(met: bool, name: &str) -> Script {
    let fits = |gain: f32| {
        if met {
            gain == 16.0
        } else {
            gain < 16.0 && step(gain, 10) >= 16.0
        }
    };
    let mut wishes = matching(Packet, FIRST, 15.0, 0.0);
    wishes[0].value = 16.0; // the extremes are the values that the ends move
    wishes[7].value = -16.0;
    let samples = ends_moved(
        &shaped(&[wishes]),
        faintest(),
        |first, last| {
            let values = both(first, last);
            let (_, gain, _) = sync_burst_correlation(Packet.target(), &values);
            let louder = values.map(|value| 2.0 * value);
            fits(gain) && diff(Packet, &louder) < SYNC_THRESHOLD
        },
        |samples| {
            let (before, after) = last_step(samples);
            let taken = after.candidate.is_some_and(|held| held.gain == 16.0);
            before.candidate.is_none() && taken == met
        },
    );
    let samples = samples.expect("some places of the ends give it");
    script(&format!("gain-{name}"), "", with_rest(samples))
}

/// An LSF burst with one distance of 0.3, or a step of the symbol above it: then only that one is amiss.
fn distance(met: bool, name: &str) -> Script {
    // The symbol lies below 1, where its steps are those of the limit.
    let wished = step(1.0 - 0.3, if met { 0 } else { -1 });
    let gain = 1_000.0;
    let mut wishes = matching(Lsf, FIRST, 0.95 * gain, 0.0);
    wishes[0].value = 0.7 * gain;
    wishes[1].value = gain;
    wishes[7].value = -gain;
    let samples = ends_moved(
        &shaped(&[wishes]),
        faintest(),
        |first, last| {
            let values = both(first, last);
            let (_, gain, shift) = sync_burst_correlation(Lsf.target(), &values);
            let mut others = values;
            others[0] = others[1];
            (values[0] - shift) / gain == wished && diff(Lsf, &others) < SYNC_THRESHOLD
        },
        |samples| {
            let (before, after) = last_step(samples);
            before.candidate.is_none() && after.candidate.is_some() == met
        },
    );
    let samples = samples.expect("some places of the ends give it");
    script(&format!("distance-{name}"), "", with_rest(samples))
}

/// The eight values of one search, of which each end moves one.
fn both(first: &Values, last: &Values) -> Values {
    let mut values = *first;
    values[7] = last[7];
    values
}

fn diff(burst: SyncBurst, values: &Values) -> f32 {
    sync_burst_correlation(burst.target(), values).0
}

fn shaped(wishes: &[[Wish; 8]]) -> Vec<i16> {
    shaped::samples(&wishes.concat()).expect("i16 has room for the gain")
}

/// The signal, and zeros until its frame is due.
fn with_pause(mut samples: Vec<i16>) -> Vec<i16> {
    samples.extend([0; 190 * P]);
    samples
}

/// The signal, and a few zeros, on which the burst has passed and the wait is set.
fn with_rest(mut samples: Vec<i16>) -> Vec<i16> {
    samples.extend([0; 8]);
    samples
}
