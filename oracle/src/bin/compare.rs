//! Holds the port against the old modem at scale: the programs that `tools/native` makes of it, and modem.rs with
//! its amendments, on the same random inputs, bit for bit. `tools/compare` builds and runs it; docs/COMPARISON.md says
//! what was compared. A difference is printed with the smallest input found that shows it, and ends the run
//! with status 1.

#![allow(dead_code)]

#[path = "../bits.rs"]
mod bits;
#[path = "../compare/mod.rs"]
mod compare;
#[path = "../decode.rs"]
mod decode;
#[path = "../encode.rs"]
mod encode;
#[path = "../harness.rs"]
mod harness;
#[path = "../house.rs"]
mod house;
#[path = "../modem/mod.rs"]
mod modem;
#[path = "../protocol.rs"]
mod protocol;
#[path = "../random.rs"]
mod random;
#[path = "../rate.rs"]
#[allow(dead_code)]
mod rate;
/// shaping.rs, whole.
mod shaping {
    include!(concat!(env!("OUT_DIR"), "/shaping.rs"));
}
#[path = "../signal/mod.rs"]
mod signal;
#[cfg(not(feature = "rate24"))]
#[path = "../unamended/mod.rs"]
mod unamended;

use compare::port::Program;
use compare::tally::Tally;
use compare::{listening, senders, sessions, steps, Difference};
use random::Random;
use std::env;
use std::path::PathBuf;
use std::process::ExitCode;

type Part = fn(&mut Program, &mut Random, u64, &mut Tally) -> Option<Difference>;

const RECEIVER: &str = "beside_receiver";
const SENDER: &str = "beside_sender";

fn main() -> ExitCode {
    let mut words = env::args().skip(1);
    let programs = PathBuf::from(words.next().unwrap_or_default());
    let numbers: Option<Vec<u64>> = words.map(|word| word.parse().ok()).collect();
    let Some([seed, samples, calls, records]) = numbers.as_deref() else {
        eprintln!("usage: compare PROGRAMS SEED SAMPLES CALLS RECORDS");
        return ExitCode::from(2);
    };
    let parts: [(&str, &str, Part, u64); 4] = [
        ("recordings", RECEIVER, listening::compare, *samples),
        ("sessions", SENDER, sessions::compare, *calls),
        ("receiver records", RECEIVER, steps::compare, *records),
        ("sender records", SENDER, senders::compare, *records),
    ];
    let mut tally = Tally::default();
    for (i, (name, program, part, amount)) in parts.into_iter().enumerate() {
        let mut program = Program::start(&programs.join(program)).expect("the port's program");
        // A seed of its own for each part, so that one can be run again without the others.
        let mut random = Random::new(seed.wrapping_mul(4).wrapping_add(i as u64));
        if let Some(difference) = part(&mut program, &mut random, amount, &mut tally) {
            println!("DIFFERENCE in {name}: {}", difference.what);
            println!("input: {}", difference.input);
            return ExitCode::FAILURE;
        }
        program.end().expect("the port's program ends");
    }
    println!("No difference at {} kHz. Compared:", rate::RATE / 1000);
    print!("{tally}");
    ExitCode::SUCCESS
}
