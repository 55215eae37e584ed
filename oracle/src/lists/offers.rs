//! The receiver: streams of samples with a script of replies, and a line for each change. README.md gives
//! the lines' forms and their order.

use crate::bits::{hex, row};
use crate::decode::name;
use crate::harness::{lay_replies, replies_left, take_offer, Offer};
use crate::lists::streams::{streams, Script};
use crate::modem::found::{is_taken, Found};
use crate::modem::kept::{Control, Held};
use crate::modem::peek::{control, cursors};
use crate::modem::{Demodulator, SoftDemodulator};
use crate::rate::RATE;

pub fn write() -> String {
    written(&streams())
}

pub fn written(streams: &[Script]) -> String {
    let mut list = String::new();
    for stream in streams {
        let replies = if stream.replies.is_empty() {
            "-"
        } else {
            &stream.replies
        };
        list.push_str(&format!("stream {} {RATE} {replies}\n", stream.name));
        run(&mut list, stream);
    }
    list
}

fn run(list: &mut String, stream: &Script) {
    lay_replies(&stream.replies);
    let mut receiver = SoftDemodulator::new();
    let mut found = Found::default();
    let mut rest = &stream.samples[..];
    while !rest.is_empty() {
        let (line, samples) = portion(rest);
        rest = &rest[samples.len()..];
        list.push_str(&line);
        for &sample in samples {
            found = feed(list, &mut receiver, sample, found);
        }
    }
    assert_eq!(
        replies_left(),
        0,
        "stream {} has replies left over",
        stream.name
    );
    let (filter, rx) = cursors(&receiver);
    list.push_str(&format!("end {} {filter} {rx}\n", control(&receiver).count));
}

/// The next line of samples: a stretch of zeros by its length, or up to 64 samples by their bits.
fn portion(rest: &[i16]) -> (String, &[i16]) {
    let zeros = rest.iter().take_while(|&&sample| sample == 0).count();
    if zeros >= 64 {
        return (format!("zeros {zeros}\n"), &rest[..zeros]);
    }
    let samples = &rest[..rest.len().min(64)];
    (format!("samples {}\n", digits(samples)), samples)
}

/// Four hexadecimal digits for each sample.
pub(super) fn digits(samples: &[i16]) -> String {
    samples
        .iter()
        .map(|sample| format!("{sample:04x}"))
        .collect()
}

/// The lines of a recording that is heard as a whole.
pub(super) fn put_samples(list: &mut String, samples: &[i16]) {
    let mut rest = samples;
    while !rest.is_empty() {
        let (line, samples) = portion(rest);
        rest = &rest[samples.len()..];
        list.push_str(&line);
    }
}

/// Gives what is kept besides, after the sample.
fn feed(list: &mut String, receiver: &mut SoftDemodulator, sample: i16, found: Found) -> Found {
    let before = control(receiver);
    let frame = receiver.demod(sample);
    let after = control(receiver);
    let mut say = |event: String| list.push_str(&format!("{} {event}\n", before.count + 1));

    let due = before.candidate.filter(|_| before.wait == Some(1));
    let offer = take_offer();
    match (due, &offer) {
        (Some(held), Some(offer)) => {
            say(offer_event(offer, after.count, found, held.gain));
        }
        (Some(_), None) => panic!("a due frame that was not offered"),
        (None, offer) => assert!(offer.is_none(), "an offer that was not due"),
    }
    let accepted = offer.is_some_and(|offer| offer.accepted);
    assert_eq!(frame.is_some(), accepted);
    let now = found.next(before, after, accepted);
    // The listed difference: the Rust never says yes, though it holds the timer.
    assert!(!receiver.data_carrier_detect());

    if after.timer != before.timer {
        let end = after
            .timer
            .map_or("none".to_string(), |end| end.to_string());
        say(format!("timer {end}"));
    }
    let held = if due.is_some() {
        None
    } else {
        before.candidate
    };
    let searched = before.wait.is_none_or(|left| left == 1) && !accepted;
    let taken = searched && is_taken(before, after);
    if let Some(event) = candidate_event(held, after.candidate, taken.then_some(now.taken_at)) {
        say(event);
    }
    if let Some(event) = wait_event(before, after, now) {
        say(event);
    }
    now
}

pub fn offer_event(offer: &Offer, count: u64, found: Found, gain: f32) -> String {
    let reply = if offer.accepted { "accept" } else { "reject" };
    let values = offer_values(offer, count, found, gain);
    format!("offer {values} {reply}")
}

/// What an offer reports, and its symbols.
pub(super) fn offer_values(offer: &Offer, count: u64, found: Found, gain: f32) -> String {
    let symbols = row(&offer.symbols);
    format!(
        "{} {count} {} {} {} {} {symbols}",
        offer.kind,
        found.taken_at,
        found.age,
        u8::from(found.replaced),
        hex(gain)
    )
}

fn candidate_event(
    before: Option<Held>,
    after: Option<Held>,
    taken_at: Option<u64>,
) -> Option<String> {
    if after == before && taken_at.is_none() {
        return None;
    }
    let after = after.expect("a candidate goes only with its frame");
    let aged = before.map(|held| Held {
        age: held.age + 1,
        ..held
    });
    let kind = name(after.burst);
    let Some(taken_at) = taken_at else {
        assert!(aged == Some(after), "a candidate that is not taken ages");
        return Some(format!("age {kind} {}", after.age));
    };
    let [diff, gain, shift] = [after.diff, after.gain, after.shift].map(hex);
    Some(format!(
        "take {kind} {} {diff} {gain} {shift} {taken_at}",
        after.age
    ))
}

/// A wait that was set; that it runs down is no event.
fn wait_event(before: Control, after: Control, now: Found) -> Option<String> {
    let run_down = before.wait.map(|left| left - 1).filter(|&left| left > 0);
    if after.wait == run_down {
        return None;
    }
    let left = after.wait.expect("a wait ends only by running down");
    Some(format!(
        "wait {left} {} {}",
        now.age,
        u8::from(now.replaced)
    ))
}
