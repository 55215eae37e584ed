//! Exercises at the seats of a desk, each with a stream of its own. A seat's answers are those of an old receiver that is
//! fed this stream alone; the seats' calls are in turns. README.md gives the lines' form.

use super::offers::{digits, offer_values};
use super::streams::{streams, Script};
use crate::harness::{lay_replies, replies_left, take_offer};
use crate::modem::found::Found;
use crate::modem::peek::control;
use crate::modem::{Demodulator, SoftDemodulator};
use crate::rate::{P, RATE};

/// The streams of the list `offers` that are heard, one at each seat.
const HEARD: [&str; 4] = ["faint", "lsf-stream-smaller", "tie", "sooner"];

/// The first seat: at 24 kHz the other four are used.
const FIRST: usize = if RATE == 48_000 { 0 } else { 4 };

/// The samples of a call.
const STRETCH: usize = 48 * P;

/// What the first offer of some samples is, and how many of them went in with it.
struct Offered {
    fed: usize,
    values: String,
    reply: &'static str,
}

pub fn write() -> String {
    let streams = streams();
    let seats: Vec<_> = HEARD
        .into_iter()
        .zip(FIRST..)
        .map(|(name, seat)| {
            let stream = streams.iter().find(|stream| stream.name == name);
            exercise(seat, stream.expect("a stream has this name"))
        })
        .collect();
    let list = in_turns(&seats);
    for answer in ["| accept ", "| reject ", "| yes\n", "| no\n"] {
        assert!(list.contains(answer), "no line has {answer}");
    }
    list
}

/// A line of each seat, then the next of each, and on until every seat is closed.
fn in_turns(seats: &[Vec<String>]) -> String {
    let most = seats.iter().map(Vec::len).max().unwrap_or(0);
    (0..most)
        .flat_map(|k| seats.iter().filter_map(move |lines| lines.get(k)))
        .map(|line| format!("each seat has its own receiver | {line}\n"))
        .collect()
}

/// A seat's calls with their answers. After an offer and its reply what did not go in is given again.
fn exercise(seat: usize, stream: &Script) -> Vec<String> {
    lay_replies(&stream.replies);
    let mut receiver = SoftDemodulator::new();
    let mut found = Found::default();
    let mut lines = vec![format!("open {seat} {RATE} | opened")];
    for stretch in stream.samples.chunks(STRETCH) {
        let mut rest = stretch;
        while let Some(offered) = hear(&mut receiver, &mut found, rest) {
            let Offered { fed, values, reply } = offered;
            lines.push(format!("{} | offered {fed} {values}", call(seat, rest)));
            lines.push(format!("{reply} {seat} | done"));
            rest = &rest[fed..];
        }
        lines.push(format!("{} | quiet {}", call(seat, rest), rest.len()));
        let carrier = control(&receiver).timer.map_or("no", |_| "yes");
        lines.push(format!("carrier {seat} | {carrier}"));
    }
    assert_eq!(replies_left(), 0);
    lines.push(format!("close {seat} | closed"));
    lines
}

/// Feeds the samples, up to the first that leads to an offer.
fn hear(receiver: &mut SoftDemodulator, found: &mut Found, samples: &[i16]) -> Option<Offered> {
    for (&sample, fed) in samples.iter().zip(1..) {
        let before = control(receiver);
        receiver.demod(sample);
        let after = control(receiver);
        let kept = *found;
        let offer = take_offer();
        let accepted = offer.as_ref().is_some_and(|offer| offer.accepted);
        *found = kept.next(before, after, accepted);
        if let Some(offer) = offer {
            let held = before.candidate.expect("a due frame has its candidate");
            return Some(Offered {
                fed,
                values: offer_values(&offer, after.count, kept, held.gain),
                reply: if accepted { "accept" } else { "reject" },
            });
        }
    }
    None
}

/// Zeros by how many they are, with the room's places; other samples by their bits.
fn call(seat: usize, samples: &[i16]) -> String {
    if samples.iter().all(|&sample| sample == 0) {
        format!("feed {seat} {} 192", samples.len())
    } else {
        format!("samples {seat} {}", digits(samples))
    }
}
