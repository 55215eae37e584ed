//! The port alone: a recording that is opened at its last offer, over what `feed` takes for the whole of it. One recording has no pause;
//! the other one has a pause before its last call, which is a fiftieth of it.

use super::{median, sums, FRAMES, RUNS};
use crate::decode::SyncBurst;
use crate::harness::{reply_by_word, take_offer};
use crate::modem::{Demodulator, SoftDemodulator};
use crate::port::{Job, Port};
use crate::random::Random;
use crate::rate::P;
use crate::{house, signal};
use std::time::Duration;

pub fn replays(port: &mut Port, random: &mut Random) {
    let mut paused = call(random, FRAMES - 7);
    paused.extend(vec![0; 400 * P]);
    paused.extend(call(random, 1));
    for (name, samples) in [("no pause", call(random, FRAMES - 3)), ("a pause", paused)] {
        let (end, symbols) = last_offer(&samples);
        let expected = sums::with_floats(sums::with(0, end as u64), &symbols);
        let data = house::bytes(&samples[..end]);
        let mut times: [Vec<Duration>; 2] = Default::default();
        for _ in 0..RUNS {
            let (found, time) = port.run(Job::Open, end, &data);
            assert_eq!(found, expected, "{name}: it is not the old modem's offer");
            times[0].push(time);
            times[1].push(port.run(Job::Feed, end, &data).1);
        }
        let [open, feed] = times.map(median);
        println!("{name:<9} {end:>9}         {:>9.3}", open / feed);
    }
}

fn call(random: &mut Random, frames: usize) -> Vec<i16> {
    let frames: Vec<_> = (0..frames)
        .map(|_| signal::frame(random, SyncBurst::Stream))
        .collect();
    signal::transmission(&frames)
}

/// The sample number and the symbols of the old receiver's last offer, by the accept rule.
fn last_offer(samples: &[i16]) -> (usize, [f32; 192]) {
    reply_by_word();
    let mut receiver = SoftDemodulator::new();
    let mut last = None;
    for (i, &sample) in samples.iter().enumerate() {
        receiver.demod(sample);
        if let Some(offer) = take_offer() {
            last = Some((i + 1, offer.symbols));
        }
    }
    last.expect("the recording has a frame")
}
