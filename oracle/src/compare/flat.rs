//! Both sides' records in one flat form, with the bytes by which the port's programs are handed one, and what
//! differs between two of them. Floats are compared by their bits; of a not-a-number only that it is one comes
//! back from the port.

use super::wire;
use crate::decode::KINDS;
use crate::modem::found::Found;
use crate::modem::kept::{Control, Held, Sending};
use crate::modem::{lay, peek, SoftDemodulator, SoftModulator};
use crate::rate::{RATE, RING, STORE, WINDOW};

/// The places of the receiver's numbers. Up to `RECEIVER_RATE` they are the record, after it an answer.
pub const FILTER_CURSOR: usize = 0;
pub const RX_CURSOR: usize = 1;
pub const COUNT: usize = 2;
pub const KIND: usize = 3;
pub const AGE: usize = 4;
pub const TAKEN_AT: usize = 5;
pub const WAIT_HELD: usize = 6;
pub const WAIT_LEFT: usize = 7;
pub const WAIT_AGE: usize = 8;
pub const WAIT_MARK: usize = 9;
pub const TIMER_HELD: usize = 10;
pub const TIMER_END: usize = 11;
pub const OWED: usize = 12;
pub const RECEIVER_RATE: usize = 13;
pub const REFUSAL: usize = 14;
pub const ANSWER: usize = 15;
pub const OFFERED_AT: usize = 16;
pub const OFFER_TAKEN: usize = 17;
pub const OFFER_AGE: usize = 18;
pub const OFFER_MARK: usize = 19;
pub const OFFER_GAIN: usize = 20;
pub const CARRIER: usize = 21;
pub const GIVEN: usize = 22;
pub const NUMBERS: usize = 23;

/// What stands for no kind.
pub const NO_KIND: u64 = 4;

/// Where the candidate's floats are, after the ring.
pub const DIFF: usize = VALUES;
pub const GAIN: usize = VALUES + 1;
pub const SHIFT: usize = VALUES + 2;
pub const FLOATS: usize = VALUES + 3;

/// Where the candidate's floats, the ring and the window begin among a receiver's bytes, and where they end.
const THREE_AT: usize = 8 * NUMBERS;
const RING_AT: usize = THREE_AT + 16;
const WINDOW_AT: usize = RING_AT + 4 * VALUES;
const RECEIVER_BYTES: usize = WINDOW_AT + 2 * PLACES;

/// The places of the port's window, and those that the rate uses: each sample is kept twice.
pub const PLACES: usize = 162;
pub const USED: usize = 2 * WINDOW;

/// The places of the port's ring, of which the rate uses the first `RING`.
pub const VALUES: usize = 1920;

const RECEIVER_NAMES: [&str; RECEIVER_RATE + 1] = [
    "window cursor",
    "ring cursor",
    "count",
    "kind",
    "age",
    "taken at",
    "a wait held",
    "wait left",
    "the wait's age",
    "the wait's mark",
    "a timer held",
    "timer end",
    "a reply owed",
    "rate",
];

#[derive(Clone)]
pub struct Receiver {
    pub window: [i16; PLACES],
    pub floats: [f32; FLOATS],
    pub numbers: [u64; NUMBERS],
}

impl Receiver {
    pub fn empty() -> Self {
        Receiver {
            window: [0; PLACES],
            floats: [0.0; FLOATS],
            numbers: [0; NUMBERS],
        }
    }

    /// As crates/beside_receiver/src/layout.rt has it, but that the newest value, which the port only tells, is 0.
    pub fn bytes(&self) -> [u8; RECEIVER_BYTES] {
        let mut bytes = [0; RECEIVER_BYTES];
        wire::put_numbers(&mut bytes[..THREE_AT], &self.numbers);
        wire::put_floats(&mut bytes[THREE_AT..RING_AT], &self.floats[DIFF..]);
        wire::put_floats(&mut bytes[RING_AT..WINDOW_AT], &self.floats[..VALUES]);
        wire::put_samples(&mut bytes[WINDOW_AT..], &self.window);
        bytes
    }

    pub fn lay(&mut self, bytes: &[u8; RECEIVER_BYTES]) {
        wire::numbers(bytes, &mut self.numbers);
        wire::floats(&bytes[THREE_AT..], &mut self.floats[DIFF..]);
        wire::floats(&bytes[RING_AT..], &mut self.floats[..VALUES]);
        wire::samples(&bytes[WINDOW_AT..], &mut self.window);
    }

    /// The old modem's window: the first half of the places in use.
    pub fn half(&self) -> &[i16; WINDOW] {
        self.window[..WINDOW].try_into().expect("the rate's places")
    }

    /// Each sample twice, a window apart.
    pub fn lay_twice(&mut self, window: &[i16; WINDOW]) {
        for half in self.window[..USED].chunks_mut(WINDOW) {
            half.copy_from_slice(window);
        }
    }

    /// The old modem's ring: the places in use.
    pub fn ring(&self) -> &[f32; RING] {
        self.floats[..RING].try_into().expect("the rate's places")
    }

    /// This record with what another one has in the places that the rate does not use.
    pub fn with_unused_of(mut self, other: &Receiver) -> Self {
        self.window[USED..].copy_from_slice(&other.window[USED..]);
        self.floats[RING..VALUES].copy_from_slice(&other.floats[RING..VALUES]);
        self
    }

    pub fn cursors(&self) -> (usize, usize) {
        (
            self.numbers[FILTER_CURSOR] as usize,
            self.numbers[RX_CURSOR] as usize,
        )
    }

    /// A fit record's control, as the old modem has it: it owes no replies.
    pub fn control(&self) -> Control {
        let n = &self.numbers;
        Control {
            count: n[COUNT],
            candidate: (n[KIND] < NO_KIND).then(|| Held {
                burst: KINDS[n[KIND] as usize],
                age: n[AGE] as u8,
                diff: self.floats[DIFF],
                gain: self.floats[GAIN],
                shift: self.floats[SHIFT],
            }),
            wait: (n[WAIT_HELD] == 1).then_some(n[WAIT_LEFT] as u16),
            timer: (n[TIMER_HELD] == 1).then_some(n[TIMER_END]),
        }
    }

    /// What is kept besides, of a fit record.
    pub fn found(&self) -> Found {
        Found {
            taken_at: self.numbers[TAKEN_AT],
            age: self.numbers[WAIT_AGE] as u8,
            replaced: self.numbers[WAIT_MARK] == 1,
        }
    }

    pub fn set_control(&mut self, control: Control, found: Found, owed: bool) {
        let laid = numbers(self.cursors(), control, found, owed);
        self.numbers[..=RECEIVER_RATE].copy_from_slice(&laid);
        self.floats[DIFF..].copy_from_slice(&three(control));
    }
}

fn numbers(
    cursors: (usize, usize),
    control: Control,
    found: Found,
    owed: bool,
) -> [u64; RECEIVER_RATE + 1] {
    let kind = |held: Held| KINDS.iter().position(|&kind| kind == held.burst);
    [
        cursors.0 as u64,
        cursors.1 as u64,
        control.count,
        control
            .candidate
            .and_then(kind)
            .map_or(NO_KIND, |place| place as u64),
        control.candidate.map_or(0, |held| u64::from(held.age)),
        found.taken_at,
        u64::from(control.wait.is_some()),
        control.wait.map_or(0, u64::from),
        u64::from(found.age),
        u64::from(found.replaced),
        u64::from(control.timer.is_some()),
        control.timer.unwrap_or(0),
        u64::from(owed),
        RATE as u64,
    ]
}

fn three(control: Control) -> [f32; 3] {
    control
        .candidate
        .map_or([0.0; 3], |held| [held.diff, held.gain, held.shift])
}

/// The room after a sample's answer, by what it held before: an offer writes its 192 symbols, and nothing else
/// writes any.
pub fn room_after(numbers: &[u64], mut before: Vec<f32>, symbols: &[f32]) -> Vec<f32> {
    if numbers[ANSWER] != NO_KIND && before.len() >= 192 {
        before[..192].copy_from_slice(&symbols[..192]);
    }
    before
}

/// The record of the old modem, with what it does not keep itself. What it has no places for is 0.
pub fn receiver(old: &SoftDemodulator, found: Found) -> Receiver {
    let (window, ring) = lay::rings(old);
    let mut flat = Receiver::empty();
    flat.lay_twice(window);
    flat.floats[..RING].copy_from_slice(ring);
    let (filter, rx) = peek::cursors(old);
    flat.numbers[FILTER_CURSOR] = filter as u64;
    flat.numbers[RX_CURSOR] = rx as u64;
    flat.set_control(peek::control(old), found, false);
    flat
}

/// The old modem with a fit record's values in its private fields.
pub fn old_receiver(flat: &Receiver) -> SoftDemodulator {
    lay::receiver(flat.cursors(), flat.half(), flat.ring(), flat.control())
}

/// What differs after a sample, but for the rings: the record's numbers, the new filtered value, the
/// candidate's floats.
pub fn scalars_differ(
    old: &SoftDemodulator,
    found: Found,
    port: &[u64],
    values: &[f32],
) -> Option<String> {
    let control = peek::control(old);
    let ours = numbers(peek::cursors(old), control, found, false);
    if let Some(what) = numbers_differ(&ours, port) {
        return Some(what);
    }
    let [diff, gain, shift] = three(control);
    let ours = [diff, gain, shift, peek::newest(old)];
    let names = ["diff", "gain", "shift", "filtered value"];
    (0..4)
        .find(|&i| !same(ours[i], values[i]))
        .map(|i| say(names[i], pattern(ours[i]), pattern(values[i])))
}

/// What differs between an offer's own report and what was kept for it, its gain being that of the candidate before the sample.
pub fn reports_differ(found: Found, before: Control, port: &[u64]) -> Option<String> {
    let names = [
        "the offer's taken-at",
        "the offer's age",
        "the offer's mark",
        "the offer's gain, by its pattern",
    ];
    let gain = before.candidate.expect("an offer has a candidate").gain;
    let ours = [
        found.taken_at,
        u64::from(found.age),
        u64::from(found.replaced),
        u64::from(gain.to_bits()),
    ];
    (0..4)
        .find(|&i| ours[i] != port[OFFER_TAKEN + i])
        .map(|i| say(names[i], ours[i], port[OFFER_TAKEN + i]))
}

/// Of the record's numbers, not of an answer's.
pub fn numbers_differ(old: &[u64], port: &[u64]) -> Option<String> {
    (0..=RECEIVER_RATE)
        .find(|&i| old[i] != port[i])
        .map(|i| say(RECEIVER_NAMES[i], old[i], port[i]))
}

pub fn receivers_differ(old: &Receiver, port: &Receiver) -> Option<String> {
    if let Some(what) = numbers_differ(&old.numbers, &port.numbers) {
        return Some(what);
    }
    if let Some(i) = (0..PLACES).find(|&i| old.window[i] != port.window[i]) {
        return Some(say(
            &format!("sample in place {i}"),
            old.window[i],
            port.window[i],
        ));
    }
    floats_differ("ring, diff, gain, shift: place", &old.floats, &port.floats)
}

/// By their bits. The logic has one not-a-number, so the port's programs read and write no other.
fn same(old: f32, port: f32) -> bool {
    old.to_bits() == port.to_bits() || old.is_nan() && port.is_nan()
}

/// The first place at which two lists of floats differ.
pub fn floats_differ(name: &str, old: &[f32], port: &[f32]) -> Option<String> {
    if old.len() != port.len() {
        return Some(say(&format!("{name}: how many"), old.len(), port.len()));
    }
    (0..old.len())
        .find(|&i| !same(old[i], port[i]))
        .map(|i| say(&format!("{name} {i}"), pattern(old[i]), pattern(port[i])))
}

pub fn say(name: &str, old: impl ToString, port: impl ToString) -> String {
    format!(
        "{name}: the old modem has {}, the port {}",
        old.to_string(),
        port.to_string()
    )
}

/// Not-a-numbers have patterns too.
pub fn pattern(value: f32) -> String {
    format!("{:08x}", value.to_bits())
}

/// The places of the sender's numbers. Up to `CAPACITY` they are the record, after it an answer.
pub const CURSOR: usize = 0;
pub const LENGTH: usize = 1;
pub const READ: usize = 2;
pub const PADDING: usize = 3;
pub const IDLE_DUE: usize = 4;
pub const END_OWED: usize = 5;
pub const END_HELD: usize = 6;
pub const END: usize = 7;
pub const WISH: usize = 8;
pub const LATENCY: usize = 9;
pub const FILL: usize = 10;
pub const CAPACITY: usize = 11;
pub const SENDER_RATE: usize = 12;
pub const SENDER_REFUSAL: usize = 13;
pub const ACTION: usize = 14;
pub const AMOUNT: usize = 15;
pub const SENDER_NUMBERS: usize = 16;

/// Where the values and the store begin among a sender's bytes, and where they end.
const VALUES_AT: usize = 8 * SENDER_NUMBERS;
const STORE_AT: usize = VALUES_AT + 4 * 81;
const SENDER_BYTES: usize = STORE_AT + 2 * 4000;

const SENDER_NAMES: [&str; SENDER_RATE + 1] = [
    "window cursor",
    "length",
    "read place",
    "padding",
    "idle to be told",
    "an end owed",
    "an end to report",
    "reported end",
    "wish for a frame",
    "latency",
    "fill",
    "capacity",
    "rate",
];

#[derive(Clone)]
pub struct Sender {
    pub store: [i16; 4000],
    pub window: [f32; 81],
    pub numbers: [u64; SENDER_NUMBERS],
}

impl Sender {
    pub fn empty() -> Self {
        Sender {
            store: [0; 4000],
            window: [0.0; 81],
            numbers: [0; SENDER_NUMBERS],
        }
    }

    /// As crates/beside_sender/src/layout.rt has it.
    pub fn bytes(&self) -> [u8; SENDER_BYTES] {
        let mut bytes = [0; SENDER_BYTES];
        wire::put_numbers(&mut bytes[..VALUES_AT], &self.numbers);
        wire::put_floats(&mut bytes[VALUES_AT..STORE_AT], &self.window);
        wire::put_samples(&mut bytes[STORE_AT..], &self.store);
        bytes
    }

    pub fn lay(&mut self, bytes: &[u8; SENDER_BYTES]) {
        wire::numbers(bytes, &mut self.numbers);
        wire::floats(&bytes[VALUES_AT..], &mut self.window);
        wire::samples(&bytes[STORE_AT..], &mut self.store);
    }

    /// A record of the old modem by its parts: the window and its cursor, the store, and what it keeps besides.
    pub fn of(
        (cursor, window): (usize, [f32; WINDOW]),
        store: &[i16; STORE],
        kept: Sending,
    ) -> Self {
        let mut flat = Sender::empty();
        flat.store[..STORE].copy_from_slice(store);
        flat.window[..WINDOW].copy_from_slice(&window);
        flat.numbers[..=SENDER_RATE].copy_from_slice(&[
            cursor as u64,
            kept.length as u64,
            kept.read as u64,
            kept.padding as u64,
            u64::from(kept.idle_due),
            u64::from(kept.end_owed),
            u64::from(kept.end.is_some()),
            kept.end.unwrap_or(0) as u64,
            u64::from(kept.wish),
            kept.latency as u64,
            kept.fill as u64,
            kept.capacity as u64,
            RATE as u64,
        ]);
        flat
    }

    pub fn cursor(&self) -> usize {
        self.numbers[CURSOR] as usize
    }

    pub fn owes_end(&self) -> bool {
        self.numbers[END_OWED] == 1
    }

    /// Whether padding or samples of a frame are left to be read.
    pub fn is_unread(&self) -> bool {
        self.numbers[PADDING] > 0 || self.numbers[READ] < self.numbers[LENGTH]
    }

    /// What a fit record keeps besides, as the old modem has it.
    pub fn kept(&self) -> Sending {
        let n = self.numbers.map(|number| number as usize);
        Sending {
            length: n[LENGTH],
            read: n[READ],
            padding: n[PADDING],
            idle_due: n[IDLE_DUE] == 1,
            wish: n[WISH] == 1,
            end_owed: n[END_OWED] == 1,
            end: (n[END_HELD] == 1).then_some(n[END]),
            fill: n[FILL],
            capacity: n[CAPACITY],
            latency: n[LATENCY],
        }
    }
}

pub fn sender(old: &SoftModulator) -> Sender {
    Sender::of(peek::window(old), lay::store(old), peek::sending(old))
}

/// The old modem with a fit record's values in its private fields.
pub fn old_sender(flat: &Sender) -> SoftModulator {
    let store = flat.store[..STORE].try_into().expect("the rate's places");
    let window = flat.window[..WINDOW].try_into().expect("the rate's places");
    lay::sender(store, flat.cursor(), window, flat.kept())
}

pub fn senders_differ(old: &Sender, port: &Sender) -> Option<String> {
    if let Some(i) = (0..=SENDER_RATE).find(|&i| old.numbers[i] != port.numbers[i]) {
        return Some(say(SENDER_NAMES[i], old.numbers[i], port.numbers[i]));
    }
    samples_differ("store, place", &old.store[..STORE], &port.store).or_else(|| {
        let [old, port] = [old, port].map(|side| &side.window[..WINDOW]);
        floats_differ("window, place", old, port)
    })
}

/// The places that the rate does not use: no call changes them.
pub fn unused_differ(before: &Sender, port: &Sender) -> Option<String> {
    samples_differ(
        "unused store, place",
        &before.store[STORE..],
        &port.store[STORE..],
    )
    .or_else(|| {
        floats_differ(
            "unused window, place",
            &before.window[WINDOW..],
            &port.window[WINDOW..],
        )
    })
}

pub fn samples_differ(name: &str, old: &[i16], port: &[i16]) -> Option<String> {
    (0..old.len())
        .find(|&i| old[i] != port[i])
        .map(|i| say(&format!("{name} {i}"), old[i], port[i]))
}
