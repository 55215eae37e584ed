//! The list of a recording's offers, document 02 g): the streams of `offers` as recordings, with replies and with rooms. The offers are the
//! old receiver's, fed sample by sample; the refusals are written from the document. README.md gives the lines' forms.

use crate::bits::row;
use crate::harness::{lay_replies, take_offer};
use crate::lists::offers::put_samples;
use crate::lists::streams::{streams, Script};
use crate::modem::found::Found;
use crate::modem::peek::control;
use crate::modem::{Demodulator, SoftDemodulator};
use crate::rate::RATE;

/// "up to 65,536 samples"
const LONGEST: usize = 65_536;

pub fn write() -> String {
    let mut list = String::new();
    for stream in streams() {
        lay_recording(&mut list, &stream.name, &stream.samples);
        ask(&mut list, &stream);
        if stream.name == "whole" {
            ask_at_the_limits(&mut list, &stream);
        }
    }
    list
}

fn lay_recording(list: &mut String, name: &str, samples: &[i16]) {
    list.push_str(&format!("recording {name}\n"));
    put_samples(list, samples);
}

/// The last offer without its reply in rooms that just fit, replies left over, no reply, and a number or a symbol too few.
fn ask(list: &mut String, stream: &Script) {
    let script = &stream.replies;
    let n = script.len();
    let offers = listed(&stream.samples, &script[..n.saturating_sub(1)]);
    assert_eq!(offers.len(), n, "recording {}", stream.name);
    let mut say = |line: String| list.push_str(&format!("{line}\n"));
    let said: String = offers.iter().map(|offer| format!(" {offer}")).collect();
    let unanswered = shown(&script[..n.saturating_sub(1)]);
    say(format!(
        "list {RATE} {unanswered} {} {} = listed {n}{said}",
        5 * n,
        192 * n
    ));
    if n == 0 {
        return;
    }
    say(format!(
        "count {RATE} {script}ra {} {} = listed {n}",
        5 * n + 4,
        192 * n + 191
    ));
    if n > 1 {
        say(format!("count {RATE} - 5 192 = listed 1"));
    }
    // "13, room for the list too small, exactly when some offer would not fit"
    say(format!(
        "count {RATE} {script} {} {} = refused 13",
        5 * n - 1,
        192 * n
    ));
    say(format!(
        "count {RATE} {script} {} {} = refused 13",
        5 * n,
        192 * n - 1
    ));
}

/// The whole case in 65,536 samples, and with one more. A list that ends at its first offer is soon made.
fn ask_at_the_limits(list: &mut String, whole: &Script) {
    let mut samples = whole.samples.clone();
    samples.resize(LONGEST, 0);
    lay_recording(list, "longest", &samples);
    let mut say = |line: &str| list.push_str(&format!("{line}\n"));
    say(&format!(
        "list {RATE} - 5 192 = listed 1 {}",
        listed(&samples, "")[0]
    ));
    say(&format!("count {RATE} - 4 192 = refused 13"));
    // "15, any rate but the two, checked first"
    say("count 44100 - 4 192 = refused 15");
    say("zeros 1");
    // "12, recording too long"
    say(&format!("count {RATE} - 5 192 = refused 12"));
    say(&format!("count {RATE} - 0 0 = refused 12"));
    say("count 0 - 0 0 = refused 15");
}

fn shown(replies: &str) -> &str {
    if replies.is_empty() {
        "-"
    } else {
        replies
    }
}

/// The offers of a fresh receiver that is fed sample by sample, with a reply for each: "ends .. at the first unanswered offer, which is listed".
fn listed(samples: &[i16], replies: &str) -> Vec<String> {
    lay_replies(&format!("{replies}r"));
    let mut receiver = SoftDemodulator::new();
    let mut found = Found::default();
    let mut offers = Vec::new();
    for &sample in samples {
        let before = control(&receiver);
        receiver.demod(sample);
        let after = control(&receiver);
        let offer = take_offer();
        if let Some(offer) = &offer {
            let symbols = row(&offer.symbols);
            offers.push(format!(
                "{} {} {} {} {} {symbols}",
                offer.kind,
                after.count,
                found.taken_at,
                found.age,
                u8::from(found.replaced)
            ));
            if offers.len() > replies.len() {
                return offers;
            }
        }
        found = found.next(before, after, offer.is_some_and(|offer| offer.accepted));
    }
    offers
}
