//! A month's figures: what each recording adds, with a fresh receiver and the receive program's replies, and what
//! all of them come to. README.md gives the lines' forms.

use crate::bits::hex;
use crate::harness::{reply_by_word, take_offer};
use crate::lists::offers::put_samples;
use crate::lists::streams::{script, streams, Script};
use crate::modem::found::Found;
use crate::modem::peek::control;
use crate::modem::{Demodulator, SoftDemodulator};
use crate::rate::{P, RATE};

/// Offers by kind, accepted, rejected, at ages 1 to 11, and the samples that leave the carrier held.
#[derive(Default)]
struct Figures {
    totals: [u64; 24],
    gains: Option<(f32, f32)>,
}

const CARRIER: usize = 23;

/// The streams of the list `offers`, the bursts of its stream `ages` each on its own, and last document 01's whole
/// case: the lines by hand go on with it.
fn recordings() -> Vec<Script> {
    let (last, mut recordings): (Vec<_>, Vec<_>) = streams()
        .into_iter()
        .partition(|stream| stream.name == "whole");
    let ages = recordings.iter().find(|stream| stream.name == "ages");
    let each = each_age(&ages.expect("a stream has every age").samples);
    recordings.extend(each.into_iter().chain(last));
    recordings
}

/// In the stream each burst begins where the frame before it is due. Accepted, that frame leaves the sample unsearched,
/// and the burst is found later and younger: so each has a fresh receiver.
fn each_age(samples: &[i16]) -> Vec<Script> {
    let frame = 184 * P;
    let piece = |k: usize| &samples[k * frame..samples.len().min((k + 1) * frame + 20 * P)];
    (0..samples.len() / frame)
        .map(|k| script(&format!("age-{}", k + 1), "", piece(k).to_vec()))
        .collect()
}

pub fn write() -> String {
    let mut list = String::new();
    let mut month = Figures::default();
    for recording in recordings() {
        list.push_str(&format!("recording {} {RATE}\n", recording.name));
        put_samples(&mut list, &recording.samples);
        let figures = heard(&recording.samples);
        list.push_str(&format!("figures = {}\n", line(&figures)));
        month = both(&month, &figures);
    }
    list + &format!("month {RATE} = {}\n", line(&month))
}

fn heard(samples: &[i16]) -> Figures {
    reply_by_word();
    let mut receiver = SoftDemodulator::new();
    let mut found = Found::default();
    let mut figures = Figures::default();
    for &sample in samples {
        let before = control(&receiver);
        receiver.demod(sample);
        let after = control(&receiver);
        let offer = take_offer();
        if let Some(offer) = &offer {
            let held = before.candidate.expect("an offer is a candidate's");
            let kind = place(offer.kind);
            let reply = if offer.accepted { 4 } else { 8 };
            figures.totals[kind] += 1;
            figures.totals[reply + kind] += 1;
            figures.totals[11 + usize::from(found.age)] += 1;
            figures.gains = wider(figures.gains, Some((held.gain, held.gain)));
        }
        found = found.next(before, after, offer.is_some_and(|offer| offer.accepted));
        // The carrier, by the private timer: after the sample, and after the reply that is within it.
        figures.totals[CARRIER] += u64::from(after.timer.is_some());
    }
    figures
}

fn place(kind: &str) -> usize {
    ["lsf", "bert", "stream", "packet"]
        .iter()
        .position(|name| *name == kind)
        .expect("an offer is of one of four kinds")
}

fn wider(a: Option<(f32, f32)>, b: Option<(f32, f32)>) -> Option<(f32, f32)> {
    match (a, b) {
        (Some((low, high)), Some((lower, higher))) => Some((low.min(lower), high.max(higher))),
        (a, b) => a.or(b),
    }
}

fn both(a: &Figures, b: &Figures) -> Figures {
    Figures {
        totals: std::array::from_fn(|i| a.totals[i] + b.totals[i]),
        gains: wider(a.gains, b.gains),
    }
}

/// The totals, the smallest gain and the largest.
fn line(figures: &Figures) -> String {
    let totals = figures.totals.map(|total| total.to_string()).join(" ");
    match figures.gains {
        Some((low, high)) => format!("{totals} {} {}", hex(low), hex(high)),
        None => format!("{totals} none none"),
    }
}
