//! Which refusal documents 01 and 02 give for a call: 'Refusal numbers', the two unfit lists with request a's limit of
//! a reported end, request j's of a candidate and a wait, request f's halves and request k's limits of 24 kHz, and
//! requests c, b and k, in the order that they state; 0 for none. The old modem has none of them.

use super::calls::{Call, Frame};
use super::flat::*;
use super::steps::Step;
use crate::rate::{FRAME_CARRIER, LAST_END, MOST_PADDING, P, REST, RING, STORE, WINDOW};

const LAST: u64 = 1 << 63;
const LIMIT: f32 = 1_000_000.0;
const LARGEST_COUNT: u64 = 16_777_216;

fn within(value: f32, limit: f32) -> bool {
    (-limit..=limit).contains(&value)
}

/// The ring's places that a call tests, newest first.
pub fn tested(record: &Receiver, step: &Step) -> impl Iterator<Item = usize> {
    let cursor = record.numbers[RX_CURSOR] as usize;
    let due = record.numbers[WAIT_HELD] == 1 && record.numbers[WAIT_LEFT] == 1;
    let (back, count) = match step {
        Step::Sample { .. } => (P, if due { 191 } else { 7 }),
        Step::Reply { .. } => (1, 8),
        Step::Query => (0, 0),
    };
    (0..count).map(move |j| (cursor + 2 * RING - back - P * j) % RING)
}

/// Request k: 15, "any rate but the two, checked first". Of the two, records here say this build's alone.
fn has_rate(rate: u64) -> bool {
    [48_000, 24_000].contains(&rate)
}

fn candidate_fit(record: &Receiver) -> bool {
    let f = &record.floats;
    record.numbers[KIND] == NO_KIND
        || (1..=254).contains(&record.numbers[AGE])
            && f[DIFF] >= 0.0
            && f[DIFF] < 100.0
            && (16.0..=LIMIT).contains(&f[GAIN])
            && within(f[SHIFT], LIMIT)
            && (1..=record.numbers[COUNT]).contains(&record.numbers[TAKEN_AT])
}

fn wait_fit(record: &Receiver) -> bool {
    let n = &record.numbers;
    n[WAIT_HELD] == 0
        || (1..REST as u64).contains(&n[WAIT_LEFT])
            && n[KIND] != NO_KIND
            && n[OWED] == 0
            && n[WAIT_AGE] != 0
}

fn receiver_fit(record: &Receiver, step: &Step) -> bool {
    let n = &record.numbers;
    record.window[..WINDOW] == record.window[WINDOW..USED]
        && (n[FILTER_CURSOR] as usize) < WINDOW
        && (n[RX_CURSOR] as usize) < RING
        && n[COUNT] <= LAST
        && (n[TIMER_HELD] == 0 || n[TIMER_END] <= LAST + FRAME_CARRIER)
        && candidate_fit(record)
        && wait_fit(record)
        && !(n[OWED] == 1 && n[KIND] != NO_KIND)
        && tested(record, step).all(|place| within(record.floats[place], LIMIT))
}

pub fn of_receiver(record: &Receiver, step: &Step, room: usize) -> u64 {
    let n = &record.numbers;
    if !has_rate(n[RECEIVER_RATE]) {
        return 15;
    }
    if !receiver_fit(record, step) {
        return 1;
    }
    match step {
        Step::Sample { .. } if n[OWED] == 1 => 2,
        Step::Sample { .. } if room < 192 => 4,
        Step::Sample { .. } if n[COUNT] == LAST => 5,
        Step::Reply { .. } if n[OWED] == 0 => 3,
        _ => 0,
    }
}

fn sender_fit(record: &Sender) -> bool {
    let n = &record.numbers;
    (n[CURSOR] as usize) < WINDOW
        && record.window[..WINDOW]
            .iter()
            .all(|&value| within(value, 35_461.0))
        && n[LENGTH] as usize <= STORE
        && n[READ] <= n[LENGTH]
        && n[PADDING] as usize <= MOST_PADDING
        && [n[FILL], n[CAPACITY], n[LATENCY]]
            .iter()
            .all(|&count| count <= LARGEST_COUNT)
        && n[FILL] <= n[CAPACITY]
        && (n[END_HELD] == 0 || n[END] as usize <= LAST_END)
}

/// Request c: "not a number, infinite, above 1, below -1"; "an infinity is always 72".
fn of_symbol(symbol: f32) -> Option<u64> {
    if symbol.is_nan() {
        Some(71)
    } else if symbol.is_infinite() {
        Some(72)
    } else if symbol > 1.0 {
        Some(73)
    } else if symbol < -1.0 {
        Some(74)
    } else {
        None
    }
}

/// "The earliest place decides." Places are counted from 0.
fn of_symbols(symbols: &[f32]) -> Option<(u64, u64)> {
    (0..)
        .zip(symbols)
        .find_map(|(place, &symbol)| Some((of_symbol(symbol)?, place)))
}

/// Request b: 11, "a BERT frame whose first eight symbols are not that burst's signs".
fn unheaded(symbols: &[f32]) -> u64 {
    let burst = [-1.0, 1.0, -1.0, -1.0, 1.0, 1.0, 1.0, 1.0];
    if symbols[..8] == burst {
        0
    } else {
        11
    }
}

/// The number, and the place beside it or 0.
pub fn of_sender(record: &Sender, call: &Call) -> (u64, u64) {
    if !has_rate(record.numbers[SENDER_RATE]) {
        return (15, 0);
    }
    if !sender_fit(record) {
        return (1, 0);
    }
    match call {
        Call::Provide(Frame::Symbols | Frame::Bert, symbols) if symbols.len() != 192 => (6, 0),
        Call::Provide(Frame::Symbols, symbols) => of_symbols(symbols).unwrap_or((0, 0)),
        Call::Provide(Frame::Bert, symbols) => {
            of_symbols(symbols).unwrap_or((unheaded(symbols), 0))
        }
        Call::Update(counts) if counts.iter().any(|&count| count > LARGEST_COUNT) => (8, 0),
        Call::Update([fill, capacity, _]) if capacity < fill => (9, 0),
        _ => (0, 0),
    }
}
