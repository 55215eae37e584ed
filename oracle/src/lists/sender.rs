//! The sender: sessions of calls, each from a fresh sender, and a line for each call with what it answers
//! and what the sender keeps. README.md gives the lines' forms.

use crate::bits::row;
use crate::harness::{a_packet, a_stream, an_lsf, lay_symbols};
use crate::modem::peek::{lay_window, sending, window};
use crate::modem::{Modulator, ModulatorAction, ModulatorFrame, SoftModulator};
use crate::random::Random;
use crate::rate::{tap, END, FRAME, P, RATE, STEP, WINDOW, WISH};
use crate::signal::{house_frame, DIBITS};

pub fn write() -> String {
    let mut list = String::new();
    flags(&mut Session::new(&mut list, "flags"));
    delays(&mut Session::new(&mut list, "delays"));
    whole(&mut Session::new(&mut list, "whole"));
    values(&mut Session::new(&mut list, "values"));
    made_up(&mut Session::new(&mut list, "made-up"));
    for seed in 13..16 {
        at_random(
            &mut Session::new(&mut list, "random"),
            &mut Random::new(seed),
        );
    }
    case(&mut Session::new(&mut list, "case"));
    no_lines(&mut Session::new(&mut list, "no-lines"));
    extremes(&mut Session::new(&mut list, "extremes"));
    replaced(&mut Session::new(&mut list, "replaced"));
    shrinking(&mut Session::new(&mut list, "shrinking"));
    ends(&mut Session::new(&mut list, "ends"));
    #[cfg(not(feature = "unamended"))]
    bert(&mut Session::new(&mut list, "bert"));
    list
}

/// The wish, the idle report and the reported end, in the orders that tell them apart.
fn flags(session: &mut Session) {
    session.run();
    session.run();
    session.update(0, WISH - 1, 0);
    session.run();
    session.update(0, WISH, 0);
    session.run();
    session.run();
    session.update(1, WISH, 0); // less room does not lower the wish
    session.run();
    session.none();
    session.run();
    session.update(3000, 3000 + WISH, 7);
    session.end(); // the wish stays, unread samples go first
    session.run();
    session.update(100, WISH, 20);
    session.run();
    session.run();
    session.update(200, WISH, 20); // the end was owed once
    session.run();
    session.end();
    session.update(5, 10, 6);
    session.end();
    session.update(50, 100, 60); // reported anew before it was taken
    session.run();
    session.run();
    session.read(10);
}

/// TxDelay against latency, and padding that outlives its frame.
fn delays(session: &mut Session) {
    for (latency, steps) in [
        (STEP + 20, 1),
        (STEP, 1),
        (STEP - 1, 1),
        (STEP - 80, 1),
        (0, 0),
        (0, 255),
        (16_777_216, 255),
    ] {
        session.update(0, 16_777_216, latency);
        session.preamble(steps);
    }
    session.update(0, 4000, STEP - 40);
    session.preamble(1);
    session.read(0);
    session.read(15);
    session.end(); // keeps the padding
    session.run();
    session.read(30);
    session.read(1);
}

/// A link test: the turned preamble with its padding, a frame headed by DF55, and the end.
#[cfg(not(feature = "unamended"))]
fn bert(session: &mut Session) {
    let mut random = Random::new(17);
    session.bert_preamble(0);
    session.read(40);
    for (latency, steps) in [(STEP + 20, 1), (STEP, 1), (STEP - 80, 1), (0, 255)] {
        session.update(0, 16_777_216, latency);
        session.bert_preamble(steps);
    }
    session.update(0, 4000, STEP - 40);
    session.bert_preamble(1);
    session.read(60);
    session.read(FRAME - 20);
    let mut symbols = [(); 192].map(|()| *random.pick(&DIBITS));
    symbols[..8].copy_from_slice(&[-1.0, 1.0, -1.0, -1.0, 1.0, 1.0, 1.0, 1.0]);
    session.bert(symbols);
    session.read(FRAME);
    session.end();
    session.read(END);
}

/// A transmission from start to end, as a card reads it.
fn whole(session: &mut Session) {
    let mut random = Random::new(11);
    session.update(0, 4000, 30 * P);
    session.preamble(1);
    session.read(96 * P);
    session.read(4000);
    session.symbols([(); 192].map(|()| *random.pick(&DIBITS)));
    session.read(FRAME);
    session.end();
    session.look();
    session.read(END);
    session.read(1);
    session.update(0, 4000, 30 * P);
    session.run();
    session.preamble(0); // the window is empty again
    session.read(40);
}

/// Symbols of all sizes that are let through; of a frame that is replaced, the window keeps its trace.
fn values(session: &mut Session) {
    let mut random = Random::new(12);
    session.symbols([(); 192].map(|()| random.unit()));
    session.read(400);
    session.symbols([(); 192].map(|()| random.unit() / (1u32 << random.below(31)) as f32));
    session.read(400);
    let corners = [
        0.0,
        -0.0,
        1.0,
        -1.0,
        f32::from_bits(1),
        -f32::from_bits(1),
        f32::MIN_POSITIVE,
    ];
    session.symbols([(); 192].map(|()| *random.pick(&corners)));
    session.look();
    session.read(400);
}

/// Windows that no frame leaves.
fn made_up(session: &mut Session) {
    past_i16(session);
    by_place(session);
}

/// Sums that go past i16 on both sides.
fn past_i16(session: &mut Session) {
    for (cursor, side) in [(0, 1.0), (WINDOW - 1, -1.0)] {
        let mut values = [0.0; WINDOW];
        for i in 0..WINDOW {
            // One place further, since the first sample of the frame takes the oldest one's place.
            values[(cursor + 1 + i) % WINDOW] = side * 35_461.0 * tap(i).signum();
        }
        session.window(cursor, values);
        session.symbols([side; 192]);
        session.read(90);
    }
}

/// Numbers in every place, in the places between the pulses only, in the newest place only, and at the pulses'
/// places with -0.0 between them; and a window of -0.0. A frame and an end go through each.
fn by_place(session: &mut Session) {
    let mut random = Random::new(17);
    for cursor in [0, 33] {
        for kind in 0..5 {
            let mut values = [0.0; WINDOW];
            for i in 0..WINDOW {
                // A pulse lies in the second oldest place, and then in every P-th.
                let pulse = i % P == 1;
                let number = 35_461.0 * random.unit();
                values[(cursor + i) % WINDOW] = match kind {
                    0 => number,
                    1 if !pulse => number,
                    2 if i == WINDOW - 1 => number,
                    3 if pulse => number,
                    3 | 4 => -0.0,
                    _ => 0.0,
                };
            }
            session.window(cursor, values);
            session.symbols([(); 192].map(|()| *random.pick(&DIBITS)));
            session.look();
            session.read(120);
            session.window(cursor, values);
            session.end();
            session.read(90);
        }
    }
}

/// Document 01's whole case, as its send program reads it: 6,560 samples, of which the last 729 are zero; at
/// 24 kHz 3,280 and 364.
fn case(session: &mut Session) {
    session.preamble(0);
    let mut sent = session.read(4000);
    session.symbols(house_frame());
    sent.extend(session.read(4000));
    session.end();
    session.look();
    sent.extend(session.read(4000));
    if P == 10 {
        assert_eq!(sent[..5], [-113, -103, -68, -12, 54]);
    }
    assert_eq!(sent.len(), 2 * FRAME + END);
    assert_eq!(zeros_at_end(&sent), 73 * P - 1);
}

/// The same without a line: 4,640 samples, or 2,320.
fn no_lines(session: &mut Session) {
    session.preamble(0);
    let mut sent = session.read(4000);
    session.end();
    let end = session.read(4000);
    assert_eq!((end.len(), zeros_at_end(&end)), (END, 73 * P - 1));
    sent.extend(end);
    assert_eq!(sent.len(), FRAME + END);
}

fn zeros_at_end(samples: &[i16]) -> usize {
    samples
        .iter()
        .rev()
        .take_while(|&&sample| sample == 0)
        .count()
}

/// For each of a symbol's samples the nine symbols that make it as large as can be, and as small. The
/// first of them is the largest of all: document 01 has all within 16,383.
fn extremes(session: &mut Session) {
    let sign = |place: usize, back: usize| {
        let at = (WINDOW - 1).checked_sub(place + P * back);
        at.map_or(0.0, |i| tap(i).signum())
    };
    let mut symbols = Vec::new();
    for place in 0..P {
        for side in [1.0, -1.0] {
            symbols.extend((0..9).rev().map(|back| side * sign(place, back)));
        }
    }
    symbols.resize(192, 0.0);
    session.symbols(symbols.try_into().expect("a frame has 192 symbols"));
    let sent = session.read(FRAME);
    let ends = (sent.iter().min(), sent.iter().max());
    assert_eq!(ends, (Some(&-16_371), Some(&16_371)));
}

/// Frames of every sort that are replaced before any of them was read, and half read.
fn replaced(session: &mut Session) {
    let mut random = Random::new(16);
    session.preamble(0);
    session.symbols([(); 192].map(|()| *random.pick(&DIBITS)));
    session.end();
    session.preamble(1);
    session.read(STEP + 50);
    session.symbols([(); 192].map(|()| *random.pick(&DIBITS)));
    session.read(100);
    session.end();
    session.run();
    session.read(100);
    session.none(); // replaces nothing
    session.read(100);
}

/// Less and less room: capacity shrinks while the wish is up, and while it is not; the largest numbers.
fn shrinking(session: &mut Session) {
    session.run();
    session.update(0, 4000, 0);
    session.run();
    session.update(0, WISH - 1, 0);
    session.run();
    session.update(10, 10, 0);
    session.run();
    session.update(0, 0, 0);
    session.run();
    session.none();
    session.run();
    session.update(3000, 3000 + WISH - 1, 0);
    session.run();
    session.update(3000, 3500, 0);
    session.run();
    session.update(WISH, 2 * WISH, 0);
    session.update(WISH, WISH, 0);
    session.run();
    session.end();
    session.update(16_777_216, 16_777_216, 16_777_216);
    session.run();
    session.run();
}

/// Ends that an update finds unread, half read, with padding before them, and replaced by another frame; and the
/// largest number that a session comes to. One that is read out is in `whole`.
fn ends(session: &mut Session) {
    session.end();
    session.update(0, 0, 0);
    session.run();
    session.end();
    session.read(100);
    session.update(30, 50, 7);
    session.run();
    session.preamble(1);
    session.read(30);
    session.end(); // STEP - 37 of the padding are left
    session.update(100, 3000, 50);
    session.run();
    session.read(STEP - 30);
    session.end();
    session.symbols(house_frame()); // in the place of the end
    session.read(20);
    session.update(100, 3000, 50);
    session.run();
    session.update(0, 0, 0);
    session.preamble(255);
    session.end();
    session.update(16_777_216, 16_777_216, 16_777_216);
    session.run();
}

/// Calls drawn at random, with small rooms so that frames are replaced half read.
fn at_random(session: &mut Session, random: &mut Random) {
    for _ in 0..120 {
        match random.below(16) {
            0 => session.none(),
            1 => session.preamble(random.below(4) as u8),
            2 => session.symbols([(); 192].map(|()| *random.pick(&DIBITS))),
            3 => session.end(),
            4..=7 => {
                let room = *random.pick(&[0, 1, 10, 50, 100, 400]);
                session.read(room);
            }
            8..=10 => {
                let fill = random.below(3000);
                session.update(fill, fill + random.below(4000), random.below(1200));
            }
            _ => session.run(),
        }
    }
}

struct Session<'a> {
    list: &'a mut String,
    sender: SoftModulator,
    frames: usize,
}

impl<'a> Session<'a> {
    fn new(list: &'a mut String, name: &str) -> Self {
        list.push_str(&format!("session {name} {RATE}\n"));
        Session {
            list,
            sender: SoftModulator::new(),
            frames: 0,
        }
    }

    fn none(&mut self) {
        self.sender.provide_next_frame(None);
        self.say("none", "");
    }

    fn preamble(&mut self, steps: u8) {
        self.sender
            .provide_next_frame(Some(ModulatorFrame::Preamble { tx_delay: steps }));
        self.say(&format!("preamble {steps}"), "");
    }

    #[cfg(not(feature = "unamended"))]
    fn bert_preamble(&mut self, steps: u8) {
        self.sender
            .provide_next_frame(Some(ModulatorFrame::BertPreamble { tx_delay: steps }));
        self.say(&format!("bert-preamble {steps}"), "");
    }

    /// The Rust has three frames of symbols, which it sends alike: each in turn.
    fn symbols(&mut self, symbols: [f32; 192]) {
        self.symbols_as("symbols", symbols);
    }

    /// A BERT frame's symbols are given too.
    #[cfg(not(feature = "unamended"))]
    fn bert(&mut self, symbols: [f32; 192]) {
        self.symbols_as("bert", symbols);
    }

    fn symbols_as(&mut self, name: &str, symbols: [f32; 192]) {
        lay_symbols(symbols);
        self.frames += 1;
        self.sender.provide_next_frame(Some(match self.frames % 3 {
            0 => ModulatorFrame::Packet(a_packet()),
            1 => ModulatorFrame::Lsf(an_lsf()),
            _ => ModulatorFrame::Stream(a_stream()),
        }));
        self.say(&format!("{name} {}", row(&symbols)), "");
    }

    fn end(&mut self) {
        self.sender
            .provide_next_frame(Some(ModulatorFrame::EndOfTransmission));
        self.say("end", "");
    }

    fn read(&mut self, room: usize) -> Vec<i16> {
        const UNTOUCHED: i16 = 21_845;
        let mut out = vec![UNTOUCHED; room];
        let written = self.sender.read_output_samples(&mut out);
        assert!(out[written..].iter().all(|&sample| sample == UNTOUCHED));
        let samples: String = out[..written]
            .iter()
            .map(|sample| format!(" {sample}"))
            .collect();
        self.say(&format!("read {room}"), &format!(" {written}{samples}"));
        out.truncate(written);
        out
    }

    fn update(&mut self, fill: usize, capacity: usize, latency: usize) {
        self.sender.update_output_buffer(fill, capacity, latency);
        self.say(&format!("update {fill} {capacity} {latency}"), "");
    }

    fn run(&mut self) {
        let action = match self.sender.run() {
            Some(ModulatorAction::TransmissionWillEnd(after)) => format!(" end {after}"),
            Some(ModulatorAction::ReadOutput) => " read".to_string(),
            Some(ModulatorAction::SetIdle(idle)) => {
                format!(" idle {}", if idle { "yes" } else { "no" })
            }
            Some(ModulatorAction::GetNextFrame) => " frame".to_string(),
            None => " nothing".to_string(),
        };
        self.say("run", &action);
    }

    /// Reads the window; no call of the modem's own.
    fn look(&mut self) {
        let (cursor, values) = window(&self.sender);
        self.say("look", &format!(" {cursor} {}", row(&values)));
    }

    /// Lays a made-up window; no call of the modem's own.
    fn window(&mut self, cursor: usize, values: [f32; WINDOW]) {
        lay_window(&mut self.sender, cursor, values);
        self.say(&format!("window {cursor} {}", row(&values)), "");
    }

    fn say(&mut self, call: &str, answer: &str) {
        let s = sending(&self.sender);
        let flags = [s.idle_due, s.wish, s.end_owed]
            .map(|flag| u8::from(flag).to_string())
            .concat();
        let end = s.end.map_or("none".to_string(), |end| end.to_string());
        self.list.push_str(&format!(
            "{call} ={answer} : {} {} {} {flags} {end} {} {} {}\n",
            s.length, s.read, s.padding, s.fill, s.capacity, s.latency
        ));
    }
}
