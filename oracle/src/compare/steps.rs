//! One call on a made-up receiver record, to both sides; of one record in eight a stretch, to the port alone.

use super::flat::*;
use super::port::{Hearing, Program};
use super::receivers::made_up;
use super::refusals::of_receiver;
use super::smallest::{plainer_receiver, told};
use super::stretch_signals::Signals;
use super::tally::Tally;
use super::values::{not_numbers, numbered};
use super::{caught, Difference};
use super::{stretch_calls, stretch_cases, stretches};
use crate::decode::{name, KINDS};
use crate::harness::{lay_replies, take_offer, Offer};
use crate::modem::found::Found;
use crate::modem::kept::{Control, Held};
use crate::modem::peek::control;
use crate::modem::{lay, Demodulator, SoftDemodulator};
use crate::random::Random;
use crate::rate::{P, RING, WINDOW};

#[derive(Clone, Copy, Debug)]
pub enum Step {
    /// A sample, and the reply to the offer that it may bring.
    Sample {
        sample: i16,
        accepted: bool,
    },
    Reply {
        accepted: bool,
    },
    Query,
}

pub struct Case {
    pub record: Receiver,
    pub step: Step,
    pub room: Vec<f32>,
}

/// So many records, or up to the first that shows a difference.
pub fn compare(
    program: &mut Program,
    random: &mut Random,
    records: u64,
    tally: &mut Tally,
) -> Option<Difference> {
    let mut signals = Signals::default();
    while tally.receiver_records < records {
        let shown = if random.below(8) == 0 {
            let case = stretch_cases::made_up(random, &mut signals);
            stretch_calls::compare(program, case, tally)
        } else {
            let case = made_up(random);
            let what = compared(program, &case, tally).err();
            what.map(|what| smallest(program, case, what))
        };
        if shown.is_some() {
            return shown;
        }
        tally.receiver_records += 1;
    }
    None
}

fn smallest(program: &mut Program, mut case: Case, what: String) -> Difference {
    let mut found = |case: &Case| compared(program, case, &mut Tally::default());
    let mut record = case.record.clone();
    plainer_receiver(&mut record, &mut |part| {
        case.record.clone_from(part);
        found(&case).is_err()
    });
    case.record = record;
    let what = found(&case).err().unwrap_or(what);
    Difference {
        what: format!("receiver, a made-up record, {what}"),
        input: format!(
            "{:?}; room {}; {}",
            case.step,
            case.room.len(),
            told(&case.record)
        ),
    }
}

fn compared(program: &mut Program, case: &Case, tally: &mut Tally) -> Result<(), String> {
    let expected = of_receiver(&case.record, &case.step, case.room.len());
    let mut port = case.record.clone();
    let mut room = case.room.clone();
    match case.step {
        Step::Sample { sample, .. } => {
            let notes = program.hear(Hearing::Listen(&[sample]), &mut port, &mut room);
            port.numbers[REFUSAL..].copy_from_slice(&notes[0].numbers[REFUSAL..]);
            fed(program, case, sample, &port, &room)?;
            stretches::compared(program, case, sample, &port, &room, tally)?;
        }
        Step::Reply { accepted } => {
            program.hear(Hearing::Reply(accepted), &mut port, &mut room);
        }
        Step::Query => {
            program.hear(Hearing::Carrier, &mut port, &mut room);
        }
    }
    if port.numbers[REFUSAL] != expected {
        return Err(say(
            "refusal by documents 01 and 02",
            expected,
            port.numbers[REFUSAL],
        ));
    }
    if expected != 0 {
        unchanged(case, &port, &room)
            .map_err(|what| format!("after refusal {expected}, {what}"))?;
        tally.record_refusals += 1;
        tally.refused(expected);
        tally.nan_refused += not_numbers(&case.record.floats);
        return Ok(());
    }
    match case.step {
        Step::Sample { sample, accepted } => {
            sampled(program, case, sample, accepted, port, &room, tally)
        }
        Step::Reply { accepted } => {
            count_minus_zeros(&port, accepted, tally);
            replied(case, accepted, &port, tally)
        }
        Step::Query => queried(case, &port, &room, tally),
    }
}

/// The same sample by `feed`, with another room: record, answer and symbols as by `demod`.
fn fed(
    program: &mut Program,
    case: &Case,
    sample: i16,
    port: &Receiver,
    room: &[f32],
) -> Result<(), String> {
    let (mut record, mut lent) = (case.record.clone(), numbered(case.room.len()));
    program.hear(Hearing::Feed(&[sample]), &mut record, &mut lent);
    if record.numbers[REFUSAL..=OFFER_GAIN] != port.numbers[REFUSAL..=OFFER_GAIN] {
        return Err("`feed` answers otherwise than `demod`".to_string());
    }
    if record.numbers[GIVEN] != u64::from(record.numbers[REFUSAL] == 0) {
        return Err(say("samples fed by `feed`", 1, record.numbers[GIVEN]));
    }
    same(receivers_differ(port, &record))?;
    let expected = room_after(&record.numbers, numbered(case.room.len()), room);
    same(floats_differ("room after `feed`, place", &expected, &lent))
}

/// The room and the record are as they were.
fn unchanged(case: &Case, port: &Receiver, room: &[f32]) -> Result<(), String> {
    let what = receivers_differ(&case.record, port)
        .or_else(|| floats_differ("room, place", &case.room, room));
    what.map_or(Ok(()), |what| {
        Err(format!("with what was there as the old: {what}"))
    })
}

fn sampled(
    program: &mut Program,
    case: &Case,
    sample: i16,
    accepted: bool,
    mut port: Receiver,
    room: &[f32],
    tally: &mut Tally,
) -> Result<(), String> {
    let before = old_receiver(&case.record);
    let kept = case.record.found();
    let start = control(&before);
    let (old, offer) = old_demod(before, sample, accepted)?;
    let found = kept.next(start, control(&old), offer.is_some() && accepted);
    let kind = KINDS
        .get(port.numbers[ANSWER] as usize)
        .map(|&kind| name(kind));
    if kind != offer.as_ref().map(|offer| offer.kind) {
        return Err(say(
            "offered kind",
            offer.map_or("none", |offer| offer.kind),
            kind.unwrap_or("none"),
        ));
    }
    let mut expected_room = case.room.clone();
    let mut spared = case.record.numbers[WAIT_LEFT] > 1;
    if let Some(offer) = offer {
        spared = accepted;
        expected_room[..192].copy_from_slice(&offer.symbols);
        let count = control(&old).count;
        if port.numbers[OFFERED_AT] != count {
            return Err(say(
                "the offer's sample number",
                count,
                port.numbers[OFFERED_AT],
            ));
        }
        same(reports_differ(kept, start, &port.numbers))?;
        program.hear(Hearing::Reply(accepted), &mut port, &mut []);
        if port.numbers[REFUSAL] != 0 {
            return Err(say("refusal of the reply", 0, port.numbers[REFUSAL]));
        }
        tally.record_offers += 1;
    }
    let expected = receiver(&old, found).with_unused_of(&case.record);
    same(receivers_differ(&expected, &port))?;
    same(floats_differ("room, place", &expected_room, room))?;
    tally.record_samples += 1;
    tally.nan_kept += not_numbers(&expected.floats);
    count_minus_zeros(&port, spared, tally);
    let changed = port.numbers[KIND..=AGE] != case.record.numbers[KIND..=AGE];
    tally.record_searches += u64::from(changed && port.numbers[KIND] != NO_KIND);
    let tie = case.record.floats[DIFF] == port.floats[DIFF] && port.numbers[KIND] != NO_KIND;
    let three = DIFF..=SHIFT;
    let alike = case.record.floats[three.clone()] == port.floats[three];
    tally.record_ties += u64::from(tie && !alike);
    let renewed = !changed && found.taken_at == control(&old).count;
    tally.record_alike += u64::from(tie && alike && renewed);
    if port.numbers[AGE] == 255 {
        refused_at_255(program, &mut port, &expected, tally)?;
    }
    Ok(())
}

/// The one step behind document 01's age: the port refuses it, where the Rust goes on.
fn refused_at_255(
    program: &mut Program,
    port: &mut Receiver,
    expected: &Receiver,
    tally: &mut Tally,
) -> Result<(), String> {
    let notes = program.hear(Hearing::Listen(&[0]), port, &mut [0.0; 192]);
    let refusal = notes[0].numbers[REFUSAL];
    if refusal != 1 {
        return Err(say("refusal at age 255, by document 01", 1, refusal));
    }
    same(receivers_differ(expected, port))?;
    tally.aged_255 += 1;
    Ok(())
}

/// The old modem has no reply: it asks for the frame, and searches, inside the sample. So it is given the
/// record of one sample before, with an LSF frame due, and the same sample again.
fn replied(case: &Case, accepted: bool, port: &Receiver, tally: &mut Tally) -> Result<(), String> {
    let (filter, rx) = case.record.cursors();
    let cursors = ((filter + WINDOW - 1) % WINDOW, (rx + RING - 1) % RING);
    let sample = case.record.window[cursors.0];
    let now = case.record.control();
    // A timer that has run out would be cleared by the sample, which lies before the reply.
    let stale = now.timer.is_some_and(|end| end < now.count);
    let before = Control {
        count: now.count - 1,
        candidate: Some(Held {
            burst: KINDS[0],
            age: 1,
            diff: 0.0,
            gain: 16.0,
            shift: 0.0,
        }),
        wait: Some(1),
        timer: now.timer.filter(|_| !stale),
    };
    let old = lay::receiver(cursors, case.record.half(), case.record.ring(), before);
    let (old, offer) = old_demod(old, sample, accepted)?;
    if offer.is_none() {
        return Err("the old modem does not ask for the frame".to_string());
    }
    let found = Found::default().next(before, control(&old), accepted);
    let mut expected = receiver(&old, found).with_unused_of(&case.record);
    if stale && expected.numbers[TIMER_HELD] == 0 {
        expected.numbers[TIMER_HELD] = 1;
        expected.numbers[TIMER_END] = case.record.numbers[TIMER_END];
    }
    same(receivers_differ(&expected, port))?;
    tally.record_replies += 1;
    tally.stale_timers += u64::from(stale);
    tally.nan_kept += not_numbers(&expected.floats);
    let changed = port.numbers[..OWED] != case.record.numbers[..OWED];
    tally.record_searched += u64::from(changed);
    Ok(())
}

fn queried(case: &Case, port: &Receiver, room: &[f32], tally: &mut Tally) -> Result<(), String> {
    unchanged(case, port, room)?;
    let old = old_receiver(&case.record);
    let held = control(&old).timer.is_some();
    if port.numbers[ANSWER] != u64::from(held) {
        return Err(say("carrier (timer held)", held, port.numbers[ANSWER]));
    }
    // The listed difference: the Rust's own query always says no.
    if old.data_carrier_detect() {
        return Err("the old modem says yes".to_string());
    }
    tally.record_queries += 1;
    tally.record_carrier_yes += u64::from(held);
    tally.nan_kept += not_numbers(&case.record.floats);
    Ok(())
}

fn old_demod(
    mut old: SoftDemodulator,
    sample: i16,
    accepted: bool,
) -> Result<(SoftDemodulator, Option<Offer>), String> {
    lay_replies(if accepted { "a" } else { "r" });
    take_offer();
    caught(|| old.demod(sample))?;
    Ok((old, take_offer()))
}

/// Whether one of the eight values that a search read is -0.0; `spared` where none was made.
fn count_minus_zeros(port: &Receiver, spared: bool, tally: &mut Tally) {
    let rx = port.numbers[RX_CURSOR] as usize;
    let mut eight = (0..8).map(|j| port.floats[(rx + 2 * RING - 1 - P * j) % RING]);
    let minus_zero = eight.any(|value| value.to_bits() == (-0.0f32).to_bits());
    tally.minus_zeros += u64::from(minus_zero && !spared);
}

fn same(what: Option<String>) -> Result<(), String> {
    what.map_or(Ok(()), Err)
}
