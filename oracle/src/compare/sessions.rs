//! Sessions: both senders from fresh, call by call.

use super::calls::{written, Call, Frame, Pair};
use super::flat::{self, senders_differ, Sender, ACTION};
use super::port::{Program, Sending};
use super::smallest::fewer;
use super::tally::Tally;
use super::values::nan;
use super::Difference;
use crate::modem::SoftModulator;
use crate::random::Random;
use crate::rate::{tap, WINDOW, WISH};
use crate::signal::DIBITS;

/// Calls until so many are compared, or one shows a difference.
pub fn compare(
    program: &mut Program,
    random: &mut Random,
    calls: u64,
    tally: &mut Tally,
) -> Option<Difference> {
    while tally.calls < calls {
        let session: Vec<Call> = (0..200).map(|_| any_call(random)).collect();
        if let Some((at, what)) = difference(program, &session, tally) {
            return Some(smallest(program, &session[..=at], what));
        }
        tally.sessions += 1;
    }
    None
}

fn smallest(program: &mut Program, calls: &[Call], what: String) -> Difference {
    let mut calls = calls.to_vec();
    let mut found = |part: &[Call]| difference(program, part, &mut Tally::default());
    fewer(&mut calls, &mut |part| found(part).is_some());
    let what = found(&calls).map_or(what, |(_, what)| what);
    let lines: Vec<String> = calls.iter().map(written).collect();
    Difference {
        what: format!("sender, a session from fresh, {what}"),
        input: lines.join("; "),
    }
}

/// The place of the first call after which the two differ, and in what.
fn difference(program: &mut Program, calls: &[Call], tally: &mut Tally) -> Option<(usize, String)> {
    let mut pair = Pair {
        old: SoftModulator::new(),
        port: Sender::empty(),
        frames: 0,
    };
    program.send(Sending::Fresh, &mut pair.port, &mut []);
    if let Some(what) = senders_differ(&flat::sender(&pair.old), &pair.port) {
        return Some((0, what));
    }
    for (i, call) in calls.iter().enumerate() {
        let unread = pair.unread();
        match pair.call(program, call, tally) {
            Err(what) => return Some((i, format!("after call {}: {what}", i + 1))),
            Ok(false) => tally.call_refusals += 1,
            Ok(true) => count(call, unread, pair.port.numbers[ACTION], tally),
        }
    }
    None
}

fn count(call: &Call, unread: bool, action: u64, tally: &mut Tally) {
    match call {
        Call::Window(..) => {
            tally.windows += 1;
            return;
        }
        Call::Provide(Frame::None, _) => tally.frames += 1,
        Call::Provide(frame, _) => {
            tally.frames += 1;
            tally.bert_preambles += u64::from(matches!(frame, Frame::BertPreamble(_)));
            tally.bert_frames += u64::from(matches!(frame, Frame::Bert));
            tally.replaced_unread += u64::from(unread);
        }
        Call::Read(_) => tally.reads += 1,
        Call::Update(_) => tally.updates += 1,
        Call::Run => {
            tally.actions += 1;
            tally.ends += u64::from(action == 1);
        }
    }
    tally.calls += 1;
}

/// Any call, one in thirty of them one that is refused.
pub fn any_call(random: &mut Random) -> Call {
    match random.below(60) {
        0 | 1 => refused_call(random),
        2 => {
            let window = any_window(random);
            Call::Window(random.below(WINDOW), Box::new(window))
        }
        3..=5 => Call::Provide(Frame::None, unread_symbols(random)),
        6..=8 => {
            let steps = *random.pick(&[0, 1, 2, 3, 50, 255]);
            let frame = *random.pick(&[Frame::Preamble(steps), Frame::BertPreamble(steps)]);
            Call::Provide(frame, unread_symbols(random))
        }
        9..=11 => Call::Provide(Frame::Symbols, symbols(random)),
        12 => Call::Provide(Frame::Bert, headed(symbols(random))),
        13..=14 => Call::Provide(Frame::End, unread_symbols(random)),
        15..=30 => {
            let sizes = [
                0, 1, 9, 10, 81, 400, 960, 1919, 1920, 1921, 2720, 4000, 5000, 130_000,
            ];
            let most = *random.pick(&sizes);
            Call::Read(if random.below(2) == 0 {
                most
            } else {
                random.below(most + 1)
            })
        }
        31..=42 => Call::Update(any_counts(random)),
        _ => Call::Run,
    }
}

fn any_counts(random: &mut Random) -> [u64; 3] {
    let largest = *random.pick(&[0, 10, 1200, 4000, 100_000, 16_777_216]);
    let mut count = || random.below(largest + 1) as u64;
    let (a, b, latency) = (count(), count(), count());
    let (fill, capacity) = (a.min(b), a.max(b));
    let wish = WISH as u64;
    let room = *random.pick(&[wish - 1, wish, wish + 1, 0, 16_777_216]);
    match random.below(3) {
        0 => [fill, (fill + room).min(16_777_216), latency],
        1 => [0, capacity, latency],
        _ => [fill, capacity, latency],
    }
}

fn refused_call(random: &mut Random) -> Call {
    let above = 16_777_217 + random.below(3) as u64;
    match random.below(6) {
        0 => {
            let count = *random.pick(&[0, 1, 191, 193, 400]);
            let frame = *random.pick(&[Frame::Symbols, Frame::Bert]);
            Call::Provide(frame, vec![0.5; count])
        }
        1 => {
            let mut symbols = symbols(random);
            for _ in 0..1 + random.below(3) {
                symbols[random.below(192)] = wrong_symbol(random);
            }
            let frame = *random.pick(&[Frame::Symbols, Frame::Bert]);
            Call::Provide(frame, symbols)
        }
        2 => {
            let mut counts = any_counts(random);
            counts[random.below(3)] = above;
            Call::Update(counts)
        }
        3 => Call::Update([u64::MAX, 0, 0]),
        4 => {
            let mut symbols = headed(symbols(random));
            symbols[random.below(8)] *= *random.pick(&[-1.0, 0.5, 0.999_999_9]);
            Call::Provide(Frame::Bert, symbols)
        }
        _ => {
            let fill = 1 + random.below(5000) as u64;
            Call::Update([fill, fill - 1, 0])
        }
    }
}

fn wrong_symbol(random: &mut Random) -> f32 {
    match random.below(8) {
        0 => f32::INFINITY,
        1 => f32::NEG_INFINITY,
        2 => 1.000_000_1,
        3 => -1.000_000_1,
        4 => f32::MAX,
        5 => f32::MIN,
        _ => nan(random),
    }
}

/// The same, headed by DF55.
fn headed(mut symbols: Vec<f32>) -> Vec<f32> {
    symbols[..8].copy_from_slice(&[-1.0, 1.0, -1.0, -1.0, 1.0, 1.0, 1.0, 1.0]);
    symbols
}

/// Symbols of every sort that is let through.
fn symbols(random: &mut Random) -> Vec<f32> {
    let corners = [0.0, -0.0, 1.0, -1.0, 1e-45, -1e-45, f32::MIN_POSITIVE];
    let sort = random.below(4);
    (0..192)
        .map(|_| match sort {
            0 => random.unit(),
            1 => random.unit() / (1u32 << random.below(31)) as f32,
            2 => *random.pick(&corners),
            _ => *random.pick(&DIBITS),
        })
        .collect()
}

/// What stands beside a frame that takes nothing from it: not-a-numbers too, and any number of them.
fn unread_symbols(random: &mut Random) -> Vec<f32> {
    let count = *random.pick(&[0, 1, 192, 193]);
    (0..count).map(|_| nan(random)).collect()
}

/// A window as no frame leaves it: its sums can pass i16.
pub fn any_window(random: &mut Random) -> [f32; WINDOW] {
    let sort = random.below(4);
    let side = if random.below(2) == 0 {
        35_461.0
    } else {
        -35_461.0
    };
    let turn = random.below(WINDOW);
    let mut window = [0.0; WINDOW];
    for (i, value) in window.iter_mut().enumerate() {
        *value = match sort {
            0 => random.unit() * 35_461.0,
            1 => side * tap((i + turn) % WINDOW).signum(),
            2 => *random.pick(&[0.0, -0.0, 35_461.0, -35_461.0, 1e-45, 1.0]),
            _ => side,
        };
    }
    window
}
