//! Request h, the client's complaint: exercise two breaks off in a half-found burst, and exercise three begins. With one
//! receiver kept, a fresh one for each, and one kept with a pause between them; and the fewest zeros that are a pause.
//! The lines have the forms of the list `offers`.

use crate::decode::SyncBurst;
use crate::lists::judge::{offered, timers};
use crate::lists::offers::written;
use crate::lists::streams::{script, Script};
use crate::random::Random;
use crate::rate::{FRAME, P, REST};
use crate::signal::shaped::{samples_up_to, Wish, FIRST};
use crate::signal::{frame, transmission};
use SyncBurst::{Lsf, Stream};

/// The samples that are left of exercise two.
const BROKEN_OFF: usize = if P == 10 { 113 } else { 57 };

/// The symbols of the preamble with which exercise three begins.
const PREAMBLE: usize = 22;

/// Where the LSF frame of exercise three is due, by its own samples.
const DUE: usize = (PREAMBLE + 15) * P + 1 + REST;

/// "feed it 4,000 zero samples", and the fewest that do.
const PAUSE: usize = 400 * P;
const LEAST: usize = 396 * P + 2;

/// With nothing amended the first four show the same fault; the last needs request d.
pub fn write() -> String {
    let mut random = Random::new(20);
    let second = second(&mut random);
    let third = third(&mut random);
    let kept = [&second[..], &third].concat();
    let paused = [&second[..], &[0; PAUSE], &third].concat();

    let invented = ("stream", BROKEN_OFF + REST);
    assert_eq!(offered(&kept, "a"), [invented]);
    assert_eq!(offered(&second, ""), []);
    assert_eq!(offered(&third, "a"), [("lsf", DUE)]);
    let moved = ("lsf", BROKEN_OFF + PAUSE + DUE);
    assert_eq!(offered(&paused, "aa"), [invented, moved]);

    let mut streams = vec![
        script("kept", "a", kept),
        script("second", "", second),
        script("third", "a", third),
        script("paused", "aa", paused),
    ];
    if !cfg!(feature = "unamended") {
        streams.push(least());
    }
    written(&streams)
}

/// It ends on the sample at which the burst of its Stream frame matches.
fn second(random: &mut Random) -> Vec<i16> {
    let sent = transmission(&[frame(random, Lsf), frame(random, Stream)]);
    let matched = 2 * FRAME + 15 * P + 1;
    sent[matched - BROKEN_OFF..matched].to_vec()
}

/// The end of a preamble and an LSF frame, with the samples in which it is due.
fn third(random: &mut Random) -> Vec<i16> {
    let sent = transmission(&[frame(random, Lsf)]);
    sent[FRAME - PREAMBLE * P..][..DUE + 2 * P].to_vec()
}

/// A Packet burst whose last four signs are silence matches as late as a burst can, 12 symbols after the last sample that
/// is not 0: the carrier is there until one zero more than this burst, its failure and the timer's span.
fn least() -> Script {
    let last = FIRST - 12 * P;
    let mut place = FIRST - 8 * P;
    let heard = [1.0, -1.0, 1.0, 1.0].map(|sign| {
        place += P;
        let value = 20.0 + 20.0 * sign;
        Wish { at: place, value }
    });
    let mut samples = samples_up_to(&heard, last).expect("i16 has room for it");
    assert_ne!(samples[last - 1], 0);
    samples.resize(last + LEAST, 0);
    let cleared = ((last + LEAST) as u64, None);
    assert_eq!(timers(&samples, "r").last(), Some(&cleared));
    script("least-pause", "r", samples)
}
