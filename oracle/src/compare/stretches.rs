//! Stretches by `feed` on a made-up record, beside the port's own single calls: no sample, and a sample twice.

use super::flat::*;
use super::port::{Hearing, Program};
use super::refusals::of_receiver;
use super::steps::{Case, Step};
use super::tally::Tally;

/// `port` and `room` are what the first sample left by `demod`, with its answer among the numbers.
pub fn compared(
    program: &mut Program,
    case: &Case,
    sample: i16,
    port: &Receiver,
    room: &[f32],
    tally: &mut Tally,
) -> Result<(), String> {
    let of_none = of_receiver(&case.record, &Step::Query, case.room.len());
    let told = [of_none, NO_KIND, 0];
    fed(program, case, &[], told, &case.record, &case.room)?;
    let first = told_by(port);
    let step = Step::Sample {
        sample,
        accepted: true,
    };
    let quiet = first[..2] == [0, NO_KIND];
    let stops = quiet && of_receiver(port, &step, room.len()) != 0;
    tally.record_stopped += u64::from(stops);
    if !quiet || stops {
        return fed(program, case, &[sample; 2], first, port, room);
    }
    let (mut second, mut after) = (port.clone(), room.to_vec());
    let notes = program.hear(Hearing::Listen(&[sample]), &mut second, &mut after);
    let told = [0, notes[0].numbers[ANSWER], 2];
    fed(program, case, &[sample; 2], told, &second, &after)
}

/// The refusal, the offered kind, and how many samples went in.
fn told_by(port: &Receiver) -> [u64; 3] {
    let refusal = port.numbers[REFUSAL];
    [refusal, port.numbers[ANSWER], u64::from(refusal == 0)]
}

fn fed(
    program: &mut Program,
    case: &Case,
    samples: &[i16],
    told: [u64; 3],
    left: &Receiver,
    written: &[f32],
) -> Result<(), String> {
    let (mut record, mut room) = (case.record.clone(), case.room.clone());
    program.hear(Hearing::Feed(samples), &mut record, &mut room);
    let n = &record.numbers;
    let answer = [n[REFUSAL], n[ANSWER], n[GIVEN]];
    let what = if answer != told {
        Some(format!(
            "refusal, kind and samples fed are {answer:?}, by the single calls {told:?}"
        ))
    } else {
        receivers_differ(left, &record).or_else(|| floats_differ("room, place", written, &room))
    };
    what.map_or(Ok(()), |what| {
        Err(format!("`feed` of {} samples: {what}", samples.len()))
    })
}
