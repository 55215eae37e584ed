//! Replays opened in the middle: recordings with pauses, and the samples at which they are opened. The answer is the old
//! receiver's over the whole recording, whatever pauses there are: its first offer at the sample or after it. README.md gives
//! the lines' forms.

use crate::decode::SyncBurst;
use crate::harness::{reply_by_word, take_offer};
use crate::lists::corners::corners;
use crate::lists::offers::{offer_values, put_samples};
use crate::modem::found::Found;
use crate::modem::peek::control;
use crate::modem::{Demodulator, SoftDemodulator};
use crate::random::Random;
use crate::rate::{FRAME, P, RATE};
use crate::signal::{frame, transmission};
use SyncBurst::{Lsf, Packet, Stream};

/// Document 02 i) and k): "4,000 zeros", "a pause of 2,000".
const PAUSE: usize = 400 * P;

/// The room's places that an offer leaves as they were, and all of them.
const ROOM: usize = 200;

struct Listed {
    sample: usize,
    accepted: bool,
    text: String,
}

pub fn write() -> String {
    let mut list = String::new();
    for zeros in [PAUSE - 1, PAUSE, PAUSE + 1] {
        let recording = Recording::with(zeros);
        let offers = offers(&recording.samples);
        assert!(offers.iter().any(|offer| !offer.accepted));
        list.push_str(&format!("recording pause-{zeros} {RATE}\n"));
        put_samples(&mut list, &recording.samples);
        for asked in recording.asked(&offers) {
            let found = offers.iter().find(|offer| asked <= offer.sample);
            let answer = found.map_or(format!("nothing kept {ROOM}"), |offer| {
                format!("{} kept {}", offer.text, ROOM - 192)
            });
            list.push_str(&format!("open {asked} {ROOM} = {answer}\n"));
        }
    }
    list
}

/// Three parts that begin and end with sound, and zeros between them: a call; a burst whose frame is cut off, and falls due in
/// the zeros after it, where it is rejected; a call again.
struct Recording {
    samples: Vec<i16>,
    /// Where each stretch of zeros begins and ends.
    pauses: [(usize, usize); 2],
}

impl Recording {
    fn with(zeros: usize) -> Recording {
        let mut random = Random::new(31);
        let mut samples = call(&mut random, &[Lsf]);
        let first = lengthen(&mut samples, PAUSE);
        samples.extend(cut_off());
        let second = lengthen(&mut samples, zeros);
        samples.extend(call(&mut random, &[Packet, Stream]));
        Recording {
            samples,
            pauses: [first, second],
        }
    }

    /// Before, on and after each offer; in each stretch of zeros and around its ends; the first sample and the last.
    fn asked(&self, offers: &[Listed]) -> Vec<usize> {
        let mut asked = vec![1, self.samples.len()];
        for offer in offers {
            asked.extend([offer.sample - 1, offer.sample, offer.sample + 1]);
        }
        for (begin, end) in self.pauses {
            asked.extend([
                begin + 1,
                begin + PAUSE / 4 + 1,
                end - 1,
                end,
                end + 1,
                end + 2,
            ]);
        }
        asked.sort();
        asked.dedup();
        asked
    }
}

/// Adds zeros to sound, and gives the place before the first and the number of the last.
fn lengthen(samples: &mut Vec<i16>, zeros: usize) -> (usize, usize) {
    let begin = samples.len();
    samples.extend(vec![0; zeros]);
    (begin, samples.len())
}

/// A transmission from late in its preamble to where its last frame was heard.
fn call(random: &mut Random, kinds: &[SyncBurst]) -> Vec<i16> {
    let frames: Vec<_> = kinds.iter().map(|&kind| frame(random, kind)).collect();
    let sent = transmission(&frames);
    between_sounds(&sent[160 * P..(kinds.len() + 1) * FRAME + 20 * P])
}

/// The samples of a pair of bursts of which the second takes the first's place: the window is the first's, and is rejected.
fn cut_off() -> Vec<i16> {
    let pair = corners()
        .into_iter()
        .find(|script| script.name == "lsf-stream-smaller");
    between_sounds(&pair.expect("each pair is a corner").samples)
}

/// Without the zeros before the first sound and after the last.
fn between_sounds(samples: &[i16]) -> Vec<i16> {
    let sounds = |sample: &i16| *sample != 0;
    let first = samples.iter().position(sounds).expect("there is sound");
    let last = samples.iter().rposition(sounds).expect("there is sound");
    samples[first..=last].to_vec()
}

/// The offers of a whole recording, answered by the accept rule.
fn offers(samples: &[i16]) -> Vec<Listed> {
    reply_by_word();
    let mut receiver = SoftDemodulator::new();
    let mut found = Found::default();
    let mut offers = Vec::new();
    for &sample in samples {
        let before = control(&receiver);
        receiver.demod(sample);
        let after = control(&receiver);
        let offer = take_offer();
        let accepted = offer.as_ref().is_some_and(|offer| offer.accepted);
        if let Some(offer) = offer {
            let held = before.candidate.expect("a due frame has its candidate");
            offers.push(Listed {
                sample: after.count as usize,
                accepted,
                text: offer_values(&offer, after.count, found, held.gain),
            });
        }
        found = found.next(before, after, accepted);
    }
    offers
}
