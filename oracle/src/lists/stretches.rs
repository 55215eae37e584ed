//! The receiver in stretches: a line gives many samples at once, and what follows it are the offers inside it, and how
//! it leaves the receiver. README.md gives the lines' forms.

use super::offers::{digits, offer_event};
use super::streams::{script, Script};
use crate::bits::hex;
use crate::decode::{name, SyncBurst};
use crate::harness::{lay_replies, replies_left, take_offer};
use crate::modem::found::Found;
use crate::modem::kept::Control;
use crate::modem::peek::{control, lay_count};
use crate::modem::{Demodulator, SoftDemodulator};
use crate::random::Random;
use crate::rate::{FRAME, P, RATE};
use crate::signal::{frame, heard, transmission};

/// "sample given at count 2^63"
const LAST: u64 = 1 << 63;

/// The samples of a line: more than a block, and no multiple of one.
const STRETCH: usize = 61 * P;

pub fn write() -> String {
    let stream = inside();
    let given = stream.samples.len() - 12 * P;
    let mut list = format!(
        "stretches {} {RATE} {} {}\n",
        stream.name,
        LAST - given as u64,
        stream.replies
    );
    run(&mut list, &stream, given);
    list
}

/// From late in a preamble on, a frame that is accepted and one that is rejected, an end burst, and a pause in which the
/// timer ends; then the count does. None of these is where a stretch begins or ends.
fn inside() -> Script {
    let mut random = Random::new(28);
    let frames = [SyncBurst::Lsf, SyncBurst::Stream].map(|kind| frame(&mut random, kind));
    let sent = transmission(&frames);
    let mut samples = heard(
        &mut random,
        &sent[FRAME - 40 * P..3 * FRAME + 14 * P],
        1,
        300,
        40,
    );
    samples.extend([0; 40 * P]);
    script("inside", "ar", samples)
}

fn run(list: &mut String, stream: &Script, given: usize) {
    lay_replies(&stream.replies);
    let mut receiver = SoftDemodulator::new();
    lay_count(&mut receiver, LAST - given as u64);
    let mut found = Found::default();
    let mut ends = 0;
    for stretch in stream.samples.chunks(STRETCH) {
        list.push_str(&format!("feed {}\n", digits(stretch)));
        for (i, &sample) in stretch.iter().enumerate() {
            let before = control(&receiver);
            if before.count == LAST {
                assert!(i > 0, "the count ends where a stretch begins");
                list.push_str(&format!("{LAST} refused 5\n"));
                break;
            }
            found = hear(list, &mut receiver, sample, found);
            let ended = before.timer.is_some() && control(&receiver).timer.is_none();
            ends += usize::from(ended && i > 0 && i + 1 < stretch.len());
        }
        list.push_str(&left(control(&receiver), found));
    }
    assert_eq!(control(&receiver).count, LAST);
    assert_eq!((replies_left(), ends), (0, 1));
}

fn hear(list: &mut String, receiver: &mut SoftDemodulator, sample: i16, found: Found) -> Found {
    let before = control(receiver);
    receiver.demod(sample);
    let after = control(receiver);
    let offer = take_offer();
    if let Some(offer) = &offer {
        let held = before.candidate.expect("a due frame has its candidate");
        let event = offer_event(offer, after.count, found, held.gain);
        list.push_str(&format!("{} {event}\n", after.count));
    }
    found.next(before, after, offer.is_some_and(|offer| offer.accepted))
}

/// The timer's end, the candidate and the wait.
fn left(after: Control, found: Found) -> String {
    let timer = after
        .timer
        .map_or("none".to_string(), |end| end.to_string());
    let held = after.candidate.map_or("none".to_string(), |held| {
        let [diff, gain, shift] = [held.diff, held.gain, held.shift].map(hex);
        let kind = name(held.burst);
        format!(
            "{kind} {} {diff} {gain} {shift} {}",
            held.age, found.taken_at
        )
    });
    let wait = after.wait.map_or("none".to_string(), |left| {
        format!("{left} {} {}", found.age, u8::from(found.replaced))
    });
    format!("{} left {timer} {held} {wait}\n", after.count)
}
