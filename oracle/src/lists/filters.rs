//! The receiver's filter: `run NAME RATE`, then for each sample `SAMPLE = VALUE`.

use crate::bits::hex;
use crate::harness::{lay_replies, take_offer};
use crate::modem::{peek, Demodulator, SoftDemodulator};
use crate::random::Random;
use crate::rate::{tap, P, RATE, WINDOW};

pub fn write() -> String {
    let mut random = Random::new(2);
    let noise: Vec<i16> = (0..300).map(|_| random.sample()).collect();
    let mut list = String::new();
    run(&mut list, "one", &impulse(1));
    run(&mut list, "lowest", &impulse(i16::MIN));
    run(&mut list, "largest", &signed(i16::MAX, i16::MIN));
    run(&mut list, "smallest", &signed(i16::MIN, i16::MAX));
    run(
        &mut list,
        "step",
        &[[0; P].as_slice(), &[10_000; 11 * P]].concat(),
    );
    run(&mut list, "noise", &noise);
    list
}

/// A window's samples, one value where the tap is positive and another where it is not.
fn signed(positive: i16, other: i16) -> Vec<i16> {
    let sample = |i| if tap(i) > 0.0 { positive } else { other };
    (0..WINDOW).map(sample).collect()
}

/// One sample other than 0, and zeros until it has left the window again.
fn impulse(sample: i16) -> Vec<i16> {
    let mut samples = vec![0; WINDOW + 1];
    samples[0] = sample;
    samples
}

fn run(list: &mut String, name: &str, samples: &[i16]) {
    lay_replies("");
    let mut receiver = SoftDemodulator::new();
    list.push_str(&format!("run {name} {RATE}\n"));
    for &sample in samples {
        receiver.demod(sample);
        list.push_str(&format!("{sample} = {}\n", hex(peek::newest(&receiver))));
    }
    assert!(take_offer().is_none(), "a run is too short for a frame");
}
