//! Made-up sender records, one call each.

use super::calls::{written, Call, Pair};
use super::flat::*;
use super::port::Program;
use super::sessions::{any_call, any_window};
use super::smallest::plainer;
use super::tally::Tally;
use super::values::{bad_rate, out_of_range};
use super::Difference;
use crate::bits::row;
use crate::random::Random;
use crate::rate::{END as END_FRAME, FRAME, LAST_END, MOST_PADDING, RATE, STEP, STORE, WINDOW};

/// So many records, or up to the first that shows a difference.
pub fn compare(
    program: &mut Program,
    random: &mut Random,
    records: u64,
    tally: &mut Tally,
) -> Option<Difference> {
    while tally.sender_records < records {
        let mut record = made_up(random);
        if random.below(8) == 0 {
            spoil(random, &mut record);
        }
        let call = loop {
            match any_call(random) {
                Call::Window(..) => {}
                call => break call,
            }
        };
        if let Some(what) = difference(program, &record, &call, tally) {
            return Some(smallest(program, record, &call, what));
        }
        tally.sender_records += 1;
    }
    None
}

fn smallest(program: &mut Program, mut record: Sender, call: &Call, what: String) -> Difference {
    let mut found = |record: &Sender| difference(program, record, call, &mut Tally::default());
    let mut store = record.store;
    plainer(&mut store, 0, &mut |part| {
        record.store.copy_from_slice(part);
        found(&record).is_some()
    });
    record.store = store;
    let mut window = record.window;
    plainer(&mut window, 0.0, &mut |part| {
        record.window.copy_from_slice(part);
        found(&record).is_some()
    });
    record.window = window;
    let what = found(&record).unwrap_or(what);
    Difference {
        what: format!("sender, a made-up record, {what}"),
        input: format!(
            "{}; numbers {:?}; window {}; store {:?}",
            written(call),
            &record.numbers[..=SENDER_RATE],
            row(&record.window),
            record.store
        ),
    }
}

fn difference(
    program: &mut Program,
    record: &Sender,
    call: &Call,
    tally: &mut Tally,
) -> Option<String> {
    // The old modem takes any record; it is asked only where the port does not refuse.
    let mut pair = Pair {
        old: old_sender(record),
        port: record.clone(),
        frames: record.numbers[PADDING] as usize,
    };
    match pair.call(program, call, tally) {
        Err(what) => return Some(what),
        Ok(false) => tally.sender_record_refusals += 1,
        Ok(true) => {
            tally.sender_record_calls += 1;
            let ends = [i16::MAX, i16::MIN];
            let cut = pair.port.store.iter().any(|sample| ends.contains(sample));
            tally.cut_high += u64::from(cut && matches!(call, Call::Provide(..)));
        }
    }
    None
}

/// A fit record. The store holds no sample at i16's ends, so that a cut one shows.
fn made_up(random: &mut Random) -> Sender {
    let mut record = Sender::empty();
    let level = *random.pick(&[1, 1000, 32_766]);
    record.store = [(); 4000].map(|()| random.around(level) as i16);
    record.window[..WINDOW].copy_from_slice(&any_window(random));
    for unused in &mut record.window[WINDOW..] {
        *unused = out_of_range(random);
    }
    let length: u64 = *random.pick(&[0, 1, FRAME, END_FRAME, STORE - 1, STORE].map(|n| n as u64));
    let read = *random.pick(&[0, length / 2, length.saturating_sub(1), length]);
    let padding = *random.pick(&[0, 0, 1, 80, STEP, MOST_PADDING].map(|n| n as u64));
    let mut count = |most: usize| random.below(most + 1) as u64;
    let (a, b) = (count(16_777_216), count(16_777_216));
    let latency = count(16_777_216);
    let end = count(LAST_END);
    let flags = count(31);
    record.numbers[..=SENDER_RATE].copy_from_slice(&[
        random.below(WINDOW) as u64,
        length,
        read,
        padding,
        flags & 1,
        flags >> 1 & 1,
        flags >> 2 & 1,
        if flags >> 2 & 1 == 1 { end } else { 0 },
        flags >> 3 & 1,
        if flags >> 4 == 1 {
            latency
        } else {
            latency % 1000
        },
        a.min(b),
        a.max(b),
        RATE as u64,
    ]);
    record
}

/// One thing, or two, that the unfit list names.
fn spoil(random: &mut Random, record: &mut Sender) {
    for _ in 0..1 + random.below(2) {
        let n = &mut record.numbers;
        match random.below(11) {
            0 => n[CURSOR] = *random.pick(&[WINDOW as u64, WINDOW as u64 + 1, u64::MAX]),
            1 => record.window[random.below(WINDOW)] = out_of_range(random),
            2 => record.window[random.below(WINDOW)] = *random.pick(&[35_461.004, -35_461.004]),
            3 => n[LENGTH] = *random.pick(&[STORE as u64 + 1, u64::MAX]),
            4 => n[READ] = n[LENGTH].wrapping_add(1),
            5 => n[PADDING] = *random.pick(&[MOST_PADDING as u64 + 1, u64::MAX]),
            6 => n[FILL + random.below(2)] = *random.pick(&[16_777_217, u64::MAX]),
            7 => n[LATENCY] = *random.pick(&[16_777_217, u64::MAX]),
            8 => (n[FILL], n[CAPACITY]) = (1 + n[CAPACITY].min(16_777_215), n[CAPACITY]),
            9 => n[SENDER_RATE] = bad_rate(random),
            _ => (n[END_HELD], n[END]) = (1, *random.pick(&[LAST_END as u64 + 1, u64::MAX])),
        }
    }
}
