//! A stretch of samples on a made-up record: by `feed`, and one by one by the port's `demod`, from the same record.

use super::flat::*;
use super::pieces::AS_OLD;
use super::port::{Hearing, Note, Program};
use super::refusals::of_receiver;
use super::smallest::{fewer, plainer, plainer_receiver, told};
use super::steps::Step;
use super::stretch_cases::StretchCase;
use super::stretch_counts::count;
use super::tally::Tally;
use super::Difference;

/// Whether the stretch shows a difference: if so, the smallest that does.
pub fn compare(program: &mut Program, case: StretchCase, tally: &mut Tally) -> Option<Difference> {
    let what = compared(program, &case, tally).err()?;
    Some(smallest(program, case, what))
}

fn smallest(program: &mut Program, mut case: StretchCase, what: String) -> Difference {
    let mut found = |case: &StretchCase| compared(program, case, &mut Tally::default());
    let mut samples = case.samples.clone();
    let mut shows = |part: &[i16]| {
        case.samples = part.to_vec();
        found(&case).is_err()
    };
    fewer(&mut samples, &mut shows);
    plainer(&mut samples, 0, &mut shows);
    case.samples = samples;
    let mut record = case.record.clone();
    plainer_receiver(&mut record, &mut |part| {
        case.record.clone_from(part);
        found(&case).is_err()
    });
    case.record = record;
    let what = found(&case).err().unwrap_or(what);
    Difference {
        what: format!("receiver, a stretch on a made-up record, {what}"),
        input: format!(
            "samples {:?}; room {}; {}",
            case.samples,
            case.room.len(),
            told(&case.record)
        ),
    }
}

fn compared(program: &mut Program, case: &StretchCase, tally: &mut Tally) -> Result<(), String> {
    let samples = &case.samples[..];
    let (mut left, mut written) = (case.record.clone(), case.room.clone());
    let notes = program.hear(Hearing::Listen(samples), &mut left, &mut written);
    let Some(last) = notes.last() else {
        return Ok(());
    };
    let refusal = last.numbers[REFUSAL];
    let went_in = notes.len() - usize::from(refusal != 0);
    if refusal != 0 {
        by_documents(case, went_in, &left, refusal)?;
    }
    let (mut record, mut room) = (case.record.clone(), case.room.clone());
    program.hear(Hearing::Feed(samples), &mut record, &mut room);
    let expected = told_by(last, went_in);
    same(&expected, (&left, &written), (&record, &room))?;
    if refusal != 0 && went_in > 0 {
        // The rest is refused, and changes nothing.
        let rest = Hearing::Feed(&samples[went_in..]);
        program.hear(rest, &mut record, &mut room);
        let expected = told_by(last, 0);
        same(&expected, (&left, &written), (&record, &room))
            .map_err(|what| format!("the rest: {what}"))?;
    }
    count(case, &notes[..went_in], refusal, tally);
    Ok(())
}

/// The record that a sample was refused on says why.
fn by_documents(
    case: &StretchCase,
    place: usize,
    record: &Receiver,
    refusal: u64,
) -> Result<(), String> {
    let step = Step::Sample {
        sample: case.samples[place],
        accepted: true,
    };
    match of_receiver(record, &step, case.room.len()) {
        expected if expected == refusal => Ok(()),
        expected => Err(say("refusal by documents 01 and 02", expected, refusal)),
    }
}

/// Refusal and offer, and how many samples went in. Once some did, a refusal is left to the next call.
fn told_by(last: &Note, went_in: usize) -> [u64; 8] {
    let mut told = [0, NO_KIND, 0, 0, 0, 0, 0, went_in as u64];
    if went_in == 0 || last.numbers[REFUSAL] == 0 {
        told[..7].copy_from_slice(&last.numbers[REFUSAL..=OFFER_GAIN]);
    }
    told
}

/// What `feed` answers and leaves, beside what the single calls do.
fn same(
    expected: &[u64; 8],
    left: (&Receiver, &[f32]),
    fed: (&Receiver, &[f32]),
) -> Result<(), String> {
    let n = &fed.0.numbers;
    let mut answer = [n[GIVEN]; 8];
    answer[..7].copy_from_slice(&n[REFUSAL..=OFFER_GAIN]);
    if answer != *expected {
        return Err(format!(
            "refusal, offer and samples fed by `feed` are {answer:?}, by the single calls {expected:?}"
        ));
    }
    let what =
        receivers_differ(left.0, fed.0).or_else(|| floats_differ("room, place", left.1, fed.1));
    what.map_or(Ok(()), |what| Err(format!("`feed`, {AS_OLD}: {what}")))
}
