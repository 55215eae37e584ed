//! A recording's stretch by `feed`, in one call or in pieces, beside the port's own single calls.

use super::flat::{floats_differ, numbers_differ, receivers_differ, room_after, Receiver};
use super::flat::{ANSWER, GIVEN, NO_KIND, OFFER_GAIN, REFUSAL};
use super::port::{Hearing, Note, Program};
use super::values::numbered;

/// Which of the port's two is told of as the old modem.
pub const AS_OLD: &str = "with `demod` as the old";

/// What the single calls were given and left: the notes are of the samples that went in.
pub struct Singly<'a> {
    pub samples: &'a [i16],
    pub notes: &'a [Note],
    /// With an offer's symbols in it.
    pub room: &'a [f32],
    /// The reply to the offer, if there was one, and the record after it.
    pub accepted: bool,
    pub left: &'a Receiver,
}

/// After each piece its answer, its count and the record's numbers are a note's; after the last the whole record is the
/// single calls'. A piece in which an offer comes goes on past it. Gives how many pieces there were.
pub fn compared(
    program: &mut Program,
    mut record: Receiver,
    singly: &Singly,
    mut length: impl FnMut() -> usize,
) -> Result<u64, String> {
    let given = singly.notes.len();
    let mut lengths = vec![];
    let mut at = 0;
    while at < given {
        lengths.push(length());
        let end = (at + lengths[lengths.len() - 1]).min(singly.samples.len());
        let due = end.min(given);
        piece(program, &mut record, singly, at..end, due)
            .map_err(|what| format!("`feed` in pieces of {lengths:?}, at the last {what}"))?;
        at = due;
    }
    if record.numbers[ANSWER] != NO_KIND {
        program.hear(Hearing::Reply(singly.accepted), &mut record, &mut []);
    }
    let what = receivers_differ(singly.left, &record);
    what.map_or(Ok(lengths.len() as u64), |what| {
        Err(format!("`feed` in pieces of {lengths:?}, {AS_OLD}: {what}"))
    })
}

/// The samples up to `due` are to go in.
fn piece(
    program: &mut Program,
    record: &mut Receiver,
    singly: &Singly,
    places: std::ops::Range<usize>,
    due: usize,
) -> Result<(), String> {
    let before = numbered(singly.room.len());
    let mut room = before.clone();
    let wanted = due - places.start;
    program.hear(Hearing::Feed(&singly.samples[places]), record, &mut room);
    let fed = record.numbers[GIVEN] as usize;
    let noted = &singly.notes[due - 1].numbers;
    let [answer, expected] = [&record.numbers, noted].map(|numbers| &numbers[REFUSAL..=OFFER_GAIN]);
    if fed != wanted || answer != expected {
        return Err(format!(
            "refusal and offer are {answer:?} and {fed} of its samples go in, by the single calls {expected:?} and {wanted}"
        ));
    }
    let symbols = room_after(&record.numbers, before, singly.room);
    let what = numbers_differ(noted, &record.numbers)
        .or_else(|| floats_differ("room, place", &symbols, &room));
    what.map_or(Ok(()), |what| Err(format!("{AS_OLD}: {what}")))
}
