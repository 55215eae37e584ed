//! Times the port beside the old modem: the program that `tools/native speed` makes, and modem.rs with its amendments,
//! in one run and on the same inputs. Prints ratios, the port's time over the old modem's, each a median;
//! stops if the two do not come to the same. `tools/speed` builds and runs it.

#![allow(dead_code)]

#[path = "../decode.rs"]
mod decode;
#[path = "../encode.rs"]
mod encode;
#[path = "../harness.rs"]
mod harness;
#[path = "../house.rs"]
mod house;
#[path = "../modem/mod.rs"]
mod modem;
#[path = "../speed/port.rs"]
mod port;
#[path = "../speed/programs.rs"]
mod programs;
#[path = "../protocol.rs"]
mod protocol;
#[path = "../random.rs"]
mod random;
#[path = "../rate.rs"]
#[allow(dead_code)]
mod rate;
#[path = "../speed/replays.rs"]
mod replays;
/// shaping.rs, whole.
mod shaping {
    include!(concat!(env!("OUT_DIR"), "/shaping.rs"));
}
#[path = "../signal/mod.rs"]
mod signal;
#[path = "../speed/sums.rs"]
mod sums;

use decode::SyncBurst;
use harness::{a_stream, lay_replies, lay_symbols, take_offer};
use modem::peek::{control, newest};
use modem::{Demodulator, Modulator, ModulatorFrame, SoftDemodulator, SoftModulator};
use port::{Job, Port};
use programs::{programs, Sides};
use random::Random;
use rate::{FRAME, P, RATE};
use std::env;
use std::hint::black_box;
use std::path::PathBuf;
use std::time::{Duration, Instant};

/// How often each side runs an input; odd, for the median.
const RUNS: usize = 11;

/// An input is as long as a hundred frames.
const FRAMES: usize = 100;
const SAMPLES: usize = FRAMES * FRAME;

/// The longest recording that the slow engine takes.
const LONGEST: usize = 65_536;

fn main() {
    let path = |name| PathBuf::from(env::var_os(name).expect("tools/speed names it"));
    let sides = Sides {
        port: path("SPEED_PROGRAMS"),
        oracle: path("SPEED_ORACLE"),
    };
    let mut port = Port::start(&sides.port.join("speed"));
    println!("The port's time over the old modem's, median of {RUNS} runs each.");
    println!("{} kHz", RATE / 1000);
    println!();
    println!("receiver    samples  offers  by value  in bulk");
    let mut random = Random::new(21);
    let noise = (0..SAMPLES).map(|_| random.sample()).collect();
    let inputs = [
        ("silence", vec![0; SAMPLES]),
        ("noise", noise),
        ("preamble", preamble()),
        ("frames", frames(&mut random)),
    ];
    for (name, samples) in &inputs {
        receiver(&mut port, name, samples);
    }
    println!();
    println!("slow engine samples  offers  over the port's receiver, by value");
    for (name, samples) in &inputs {
        slow_engine(&mut port, name, &samples[..LONGEST]);
    }
    println!();
    println!("replay      samples           over feed");
    replays::replays(&mut port, &mut random);
    println!();
    println!("sender      samples            by value");
    sender(&mut port, &mut random);
    // The checker stays at 48 kHz.
    if RATE == 48_000 {
        println!();
        println!("checker     samples     over the sender");
        checker(&mut port, &mut random);
    }
    port.end();
    println!();
    // The programs stay at 48 kHz.
    if RATE == 48_000 {
        programs(&sides, &path("SPEED_ROOM"));
    }
}

/// A preamble without end.
fn preamble() -> Vec<i16> {
    let mut sender = SoftModulator::new();
    let mut samples = vec![0; SAMPLES];
    for frame in samples.chunks_mut(FRAME) {
        sender.provide_next_frame(Some(ModulatorFrame::Preamble { tx_delay: 0 }));
        assert_eq!(sender.read_output_samples(frame), FRAME);
    }
    samples
}

/// Frames one after the other: most samples are waits.
fn frames(random: &mut Random) -> Vec<i16> {
    let frames: Vec<_> = (0..FRAMES)
        .map(|_| signal::frame(random, SyncBurst::Stream))
        .collect();
    let mut samples = signal::transmission(&frames);
    samples.truncate(SAMPLES);
    samples
}

fn receiver(port: &mut Port, name: &str, samples: &[i16]) {
    let data = house::bytes(samples);
    let mut times: [Vec<Duration>; 3] = Default::default();
    let mut offers = 0;
    for _ in 0..RUNS {
        let (old, time, count) = old_receiver(samples);
        times[0].push(time);
        offers = count;
        for (job, times) in [Job::Demod, Job::Feed].into_iter().zip(&mut times[1..]) {
            let (new, time) = port.run(job, samples.len(), &data);
            assert_eq!(
                old, new,
                "{name}: the port does not come to what the old modem does"
            );
            times.push(time);
        }
    }
    let [old, by_value, in_bulk] = times.map(median);
    println!(
        "{name:<9} {:>9} {offers:>7} {:>9.2} {:>8.2}",
        samples.len(),
        by_value / old,
        in_bulk / old
    );
}

/// The slow engine beside the port's own receiver, a call a sample.
fn slow_engine(port: &mut Port, name: &str, samples: &[i16]) {
    let data = house::bytes(samples);
    let (offers, count) = old_offers(samples);
    let mut times: [Vec<Duration>; 2] = Default::default();
    for _ in 0..RUNS {
        times[0].push(port.run(Job::Demod, samples.len(), &data).1);
        let (sum, time) = port.run(Job::List, samples.len(), &data);
        assert_eq!(
            offers, sum,
            "{name}: the slow engine does not list what the old modem offers"
        );
        times[1].push(time);
    }
    let [by_value, slow] = times.map(median);
    println!(
        "{name:<9} {:>9} {count:>7} {:>9.2}",
        samples.len(),
        slow / by_value
    );
}

/// The checksum of the old modem's offers, as crates/speed takes it (its listing.rt), and how many there are.
fn old_offers(samples: &[i16]) -> (u64, usize) {
    lay_replies(&"a".repeat(samples.len() / (100 * P) + 1));
    let mut receiver = SoftDemodulator::new();
    let (mut sum, mut count) = (0, 0);
    for (i, &sample) in samples.iter().enumerate() {
        receiver.demod(sample);
        if let Some(offer) = take_offer() {
            sum = sums::with_floats(sums::with(sum, i as u64 + 1), &offer.symbols);
            count += 1;
        }
    }
    (sum, count)
}

/// The checksum, as crates/speed takes it (its receiver.rt), the time, and how many offers there were.
fn old_receiver(samples: &[i16]) -> (u64, Duration, usize) {
    lay_replies(&"a".repeat(samples.len() / (100 * P) + 1));
    let mut receiver = SoftDemodulator::new();
    let (mut sum, mut offers) = (0, 0);
    let start = Instant::now();
    for (i, &sample) in black_box(samples).iter().enumerate() {
        let heard = receiver.demod(sample);
        sum = sums::with_float(sum, newest(&receiver));
        if heard.is_some() {
            let offer = take_offer().expect("a frame was heard");
            sum = sums::with_floats(sums::with(sum, i as u64 + 1), &offer.symbols);
            offers += 1;
        }
    }
    let last = control(&receiver);
    sum = sums::with(sums::with(sum, last.count), last.timer.unwrap_or(0));
    (sum, start.elapsed(), offers)
}

fn sender(port: &mut Port, random: &mut Random) {
    let symbols = signal::frame(random, SyncBurst::Stream);
    let line = house::line(&symbols);
    let (mut old_times, mut new_times) = (vec![], vec![]);
    for _ in 0..RUNS {
        let (old, time) = old_sender(symbols);
        old_times.push(time);
        let (new, time) = port.run(Job::Send, FRAMES, line.as_bytes());
        new_times.push(time);
        assert_eq!(old, new, "the port does not send what the old modem does");
    }
    let ratio = median(new_times) / median(old_times);
    println!("frames    {SAMPLES:>9}         {ratio:>9.2}");
}

/// The port alone: what the checker takes for a sample over what the sender takes for one. The samples are the old
/// modem's, of one line many times, as many as a request has room for.
fn checker(port: &mut Port, random: &mut Random) {
    let line = house::line(&signal::frame(random, SyncBurst::Stream));
    let samples = house::sent(line.repeat(FRAMES - 3).as_bytes()).samples;
    let data = [house::bytes(&samples), line.clone().into_bytes()].concat();
    let (mut check_times, mut send_times) = (vec![], vec![]);
    for _ in 0..RUNS {
        let (yes, time) = port.run(Job::Check, samples.len(), &data);
        check_times.push(time);
        assert_eq!(yes, 1, "the checker does not say yes");
        send_times.push(port.run(Job::Send, FRAMES, line.as_bytes()).1);
    }
    let each = |times, samples: usize| median(times) / samples as f64;
    let ratio = each(check_times, samples.len()) / each(send_times, SAMPLES);
    println!("frames    {:>9}         {ratio:>9.2}", samples.len());
}

/// The checksum, as crates/speed takes it (its sender.rt), and the time.
fn old_sender(symbols: [f32; 192]) -> (u64, Duration) {
    lay_symbols(symbols);
    let mut sender = SoftModulator::new();
    let mut room = [0i16; 1920];
    let mut sum = 0;
    let start = Instant::now();
    for _ in 0..black_box(FRAMES) {
        sender.provide_next_frame(Some(ModulatorFrame::Stream(a_stream())));
        sum = sums::with(sum, sender.read_output_samples(&mut room) as u64);
    }
    sum = sums::with_samples(sum, &room);
    (sum, start.elapsed())
}

fn median(mut times: Vec<Duration>) -> f64 {
    times.sort();
    times[times.len() / 2].as_secs_f64()
}
