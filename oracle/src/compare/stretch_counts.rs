//! What was met inside the stretches on made-up records, by the notes of their single samples.

use super::flat::*;
use super::lengths::BLOCK;
use super::port::Note;
use super::stretch_cases::StretchCase;
use super::tally::Tally;
use crate::decode::{sync_burst_correlation, SyncBurst};
use crate::rate::{BURST_CARRIER, P, RING};

/// The notes are of the samples that went in; after them one was refused, or none (0).
pub fn count(case: &StretchCase, notes: &[Note], refusal: u64, tally: &mut Tally) {
    tally.stretches += 1;
    tally.stretch_samples += notes.len() as u64;
    let numbers = &case.record.numbers;
    if refusal != 0 {
        tally.refused(refusal);
    }
    let Some(last) = notes.last() else {
        tally.stretch_refused += 1;
        return;
    };
    let inside = 1 < notes.len() && notes.len() < case.samples.len();
    let offered = last.numbers[ANSWER] != NO_KIND;
    tally.stretch_offers += u64::from(offered && inside);
    tally.stretch_held += u64::from(numbers[KIND] != NO_KIND);
    tally.stretch_waiting += u64::from(last.numbers[WAIT_HELD] == 1);
    let aged = last.numbers[AGE] == 255;
    match refusal {
        0 => {}
        1 if aged => tally.stretch_aged += 1,
        1 => tally.stretch_unfit += 1,
        5 => tally.stretch_last += 1,
        _ => unreachable!("no sample inside is refused with {refusal}"),
    }
    let mut before = numbers;
    for note in notes {
        count_taken(&note.numbers, tally);
        let set = is_set(before, &note.numbers);
        if set && note.numbers[TIMER_END] == note.numbers[COUNT] + BURST_CARRIER {
            count_carrier(case, notes, note, tally);
        }
        before = &note.numbers;
    }
    count_blocks(numbers, notes, tally);
}

/// Whether the sample cleared the timer, which may be set again by its search.
fn is_cleared(before: &[u64; NUMBERS], after: &[u64; NUMBERS]) -> bool {
    before[TIMER_HELD] == 1 && before[TIMER_END] < after[COUNT]
}

fn is_set(before: &[u64; NUMBERS], after: &[u64; NUMBERS]) -> bool {
    after[TIMER_HELD] == 1 && before[TIMER_HELD..=TIMER_END] != after[TIMER_HELD..=TIMER_END]
}

/// Blocks as they are from the stretch's first sample on.
fn count_blocks(first: &[u64; NUMBERS], notes: &[Note], tally: &mut Tally) {
    let mut before = first;
    for block in notes.chunks(BLOCK) {
        let (mut cleared, mut set) = (false, false);
        for (i, note) in block.iter().enumerate() {
            let ends = is_cleared(before, &note.numbers);
            tally.stretch_ends += u64::from(ends && i > 0);
            cleared |= ends;
            set |= is_set(before, &note.numbers);
            before = &note.numbers;
        }
        tally.stretch_both += u64::from(cleared && set);
    }
}

fn count_taken(after: &[u64; NUMBERS], tally: &mut Tally) {
    if after[KIND] == NO_KIND || after[TAKEN_AT] != after[COUNT] {
        return;
    }
    match after[KIND] {
        0 => tally.stretch_lsf += 1,
        1 => tally.stretch_bert += 1,
        2 => tally.stretch_stream += 1,
        _ => tally.stretch_packet += 1,
    }
}

/// Which of the two bursts that set the timer alone was found at the sample.
fn count_carrier(case: &StretchCase, notes: &[Note], note: &Note, tally: &mut Tally) {
    let at = (note.numbers[COUNT] - case.record.numbers[COUNT]) as usize - 1;
    let rx = case.record.cursors().1;
    let mut eight = [0.0; 8];
    for (j, value) in eight.iter_mut().enumerate() {
        let ago = P * (7 - j);
        *value = match at.checked_sub(ago) {
            Some(place) => notes[place].values[3],
            None => case.record.floats[(rx + at + RING - ago) % RING],
        };
    }
    let matches = |burst: SyncBurst| sync_burst_correlation(burst.target(), &eight).0 < 100.0;
    tally.stretch_preamble += u64::from(matches(SyncBurst::Preamble));
    tally.stretch_end += u64::from(matches(SyncBurst::EndOfTransmission));
}
