//! Samples for the proofs of `demodulator_examples`: the first kind matches at sample 71, which is as early as one
//! can, and another kind or none at 72. Each is judged by the receiver before it is listed. README.md gives the form.

use crate::bits::hex;
use crate::decode::{name, sync_burst_correlation, SyncBurst, KINDS, SYNC_THRESHOLD};
use crate::lists::judge::{holds, last_step};
use crate::modem::peek::newest;
use crate::modem::{Demodulator, SoftDemodulator};
use crate::signal::shaped::{matching, samples, Wish};
use SyncBurst::{Lsf, Packet, Stream};

const FIRST: usize = 71;

/// The kind at 71, and the one at 72, whose diff is larger or not, with what the receiver then holds.
struct Case {
    held: SyncBurst,
    second: Option<(SyncBurst, bool)>,
    kept: (SyncBurst, u8),
    wait: Option<u16>,
}

pub fn write() -> String {
    let case = |held, second, kept, wait| Case {
        held,
        second,
        kept,
        wait,
    };
    [
        case(Stream, None, (Stream, 1), Some(1839)),
        case(Stream, Some((Lsf, true)), (Stream, 2), Some(1838)),
        case(Lsf, Some((Stream, false)), (Stream, 1), Some(1839)),
        case(Packet, Some((Stream, false)), (Stream, 1), None),
    ]
    .map(|case| line(&case))
    .concat()
}

/// The smallest gain of whole numbers at which the case comes out.
fn line(case: &Case) -> String {
    let (found, values) = (17..100)
        .map(f64::from)
        .filter_map(|gain| shaped(case, gain))
        .find_map(|found| judged(case, &found).map(|values| (found, values)))
        .expect("some gain gives the case");
    let second = case.second.map_or("none", |(kind, _)| name(kind));
    let given: Vec<String> = found.iter().map(i16::to_string).collect();
    let heard: Vec<String> = values.into_iter().map(hex).collect();
    format!(
        "example {} {second} {} = {}\n",
        name(case.held),
        given.join(" "),
        heard.join(" ")
    )
}

/// 72 samples whose filtered values are near those of the case.
fn shaped(case: &Case, gain: f64) -> Option<Vec<i16>> {
    let (few, many) = (0.02 * gain, 0.1 * gain);
    let wishes: Vec<Wish> = match case.second {
        None => matching(case.held, FIRST, gain, 0.0).to_vec(),
        Some((second, larger)) => {
            let (first, then) = if larger { (few, many) } else { (many, few) };
            let two = [
                matching(case.held, FIRST, gain, first),
                matching(second, FIRST + 1, gain, then),
            ];
            two.concat()
        }
    };
    let mut found = samples(&wishes)?;
    found.resize(FIRST + 1, 0);
    Some(found)
}

/// F(0) to F(73) by the receiver, the samples being followed by a zero, if the case comes out.
fn judged(case: &Case, found: &[i16]) -> Option<Vec<f32>> {
    let mut receiver = SoftDemodulator::new();
    let mut values = vec![0.0];
    for &sample in found.iter().chain(&[0]) {
        receiver.demod(sample);
        values.push(newest(&receiver));
    }
    let second = case.second.map(|(kind, _)| kind);
    let alone = (0..values.len()).all(|at| {
        let wished = match at {
            FIRST => Some(case.held),
            72 => second,
            _ => None,
        };
        KINDS
            .iter()
            .all(|&kind| (diff(kind, &values, at) < SYNC_THRESHOLD) == (wished == Some(kind)))
    });
    let ordered = case.second.is_none_or(|(kind, larger)| {
        (diff(kind, &values, FIRST + 1) > diff(case.held, &values, FIRST)) == larger
    });
    let (before, after) = last_step(found);
    let (kept, age) = case.kept;
    let received =
        holds(before, case.held, 1) && holds(after, kept, age) && after.wait == case.wait;
    (alone && ordered && received).then_some(values)
}

/// The diff of a search at a sample, from F(0), F(1), ..
fn diff(kind: SyncBurst, values: &[f32], at: usize) -> f32 {
    let eight: Vec<f32> = (0..8)
        .map(|i| values[(at + 10 * i).saturating_sub(70)])
        .collect();
    sync_burst_correlation(kind.target(), &eight).0
}
