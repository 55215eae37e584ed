//! The streams that the list `offers` feeds: transmissions, and the corners of the search.

use crate::decode::{signs, slice, SyncBurst};
use crate::harness::{lay_replies, take_offer};
use crate::lists::corners::corners;
use crate::lists::judge::timers;
use crate::modem::{Demodulator, SoftDemodulator};
use crate::random::Random;
use crate::rate::{END, FRAME, P};
use crate::signal::{frame, frame_with_tail, heard, house_frame, transmission};
use SyncBurst::{Bert, Lsf, Packet, Stream};

pub struct Script {
    pub name: String,
    /// The reply to each offer in turn: `a` accepts, `r` rejects.
    pub replies: String,
    pub samples: Vec<i16>,
}

pub fn streams() -> Vec<Script> {
    let mut streams = vec![voice(), kinds(), tails(), faint()];
    streams.extend(corners());
    streams.extend([whole(), zeros(), loud(), falling()]);
    streams
}

pub fn script(name: &str, replies: &str, samples: Vec<i16>) -> Script {
    Script {
        name: name.to_string(),
        replies: replies.to_string(),
        samples,
    }
}

/// A clean transmission, and the pause in which the timer runs out.
fn voice() -> Script {
    let mut random = Random::new(6);
    let frames = [Lsf, Stream, Stream].map(|kind| frame(&mut random, kind));
    let mut samples = transmission(&frames);
    samples.extend([0; 400 * P]);
    script("voice", "aaa", samples)
}

/// Every kind, with noise and an offset, some rejected.
fn kinds() -> Script {
    let mut random = Random::new(7);
    let frames = [Lsf, Bert, Packet, Stream, Bert].map(|kind| frame(&mut random, kind));
    let sent = transmission(&frames);
    let samples = heard(&mut random, joined_late(&sent), 1, 700, 900);
    script("kinds", "aarra", samples)
}

/// Frames that end with a burst. The rejected BERT and Stream frames leave the very sample to the search, which
/// finds it; the accepted LSF frame does not, and at 48 kHz it is found one later, where it still matches. The
/// frame that such a burst seems to head hides the next one.
fn tails() -> Script {
    let mut random = Random::new(8);
    let frames = [
        frame_with_tail(&mut random, Bert, Stream),
        frame(&mut random, Stream),
        frame_with_tail(&mut random, Lsf, Packet),
        frame(&mut random, Packet),
        frame_with_tail(&mut random, Stream, Lsf),
    ];
    let sent = transmission(&frames);
    let samples = heard(&mut random, joined_late(&sent), 3, -200, 100);
    script("tails", "rrarra", samples)
}

/// A signal near the smallest gain.
fn faint() -> Script {
    let mut random = Random::new(9);
    let frames = [Lsf, Packet].map(|kind| frame(&mut random, kind));
    let sent = transmission(&frames);
    let samples = heard(&mut random, joined_late(&sent), 200 * P as i32, 0, 1);
    script("faint", "ra", samples)
}

/// A transmission from late in its preamble to shortly before its last zeros: the rest says little and
/// makes a long list.
fn joined_late(sent: &[i16]) -> &[i16] {
    &sent[160 * P..sent.len() - 70 * P]
}

/// Document 01's whole case: the samples that its send program writes for one line, and the line is heard.
fn whole() -> Script {
    let samples = transmission(&[house_frame()]);
    assert_eq!(samples.len(), 2 * FRAME + END);
    assert_eq!(line(&samples), format!("55F7{}", "0".repeat(92)));
    script("whole", "a", samples)
}

/// The line of the house format that the old slicer makes of a signal's one frame.
fn line(samples: &[i16]) -> String {
    lay_replies("a");
    let mut receiver = SoftDemodulator::new();
    for &sample in samples {
        receiver.demod(sample);
    }
    let offer = take_offer().expect("the signal has a frame");
    let digit = |two: &[f32]| {
        let [first, second] =
            [two[0], two[1]].map(|symbol| 2 * slice(symbol)[0] + slice(symbol)[1]);
        format!("{:X}", 4 * first + second)
    };
    offer.symbols.chunks(2).map(digit).collect()
}

/// Document 01: five thousand zero samples give nothing.
fn zeros() -> Script {
    script("zeros", "", vec![0; 5000])
}

/// A Packet burst as loud as i16 goes.
fn loud() -> Script {
    let held = |sign: f32| [if sign > 0.0 { i16::MAX } else { i16::MIN }; P];
    let mut samples: Vec<i16> = signs(Packet).into_iter().flat_map(held).collect();
    samples.extend([0; 5 * P]);
    script("loud", "", samples)
}

/// The smallest offset whose end passes for an end burst (request d). At 24 kHz there is none, and the largest
/// offset is listed.
fn falling() -> Script {
    let from = |offset: i16| [[offset; 18 * P].to_vec(), vec![0; 40 * P]].concat();
    let samples = (1..=i16::MAX)
        .map(from)
        .find(|samples| !timers(samples, "").is_empty());
    assert_eq!(samples.is_some(), P == 10);
    script("falling", "", samples.unwrap_or_else(|| from(i16::MAX)))
}
