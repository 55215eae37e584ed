//! One call of the sender, to both sides.

use super::flat::{self, samples_differ, say, senders_differ, unused_differ, Sender};
use super::flat::{ACTION, AMOUNT, SENDER_REFUSAL};
use super::port::{Program, Sending};
use super::refusals;
#[cfg(not(feature = "rate24"))]
use super::unamended;
use super::values::not_numbers;
use super::{caught, tally::Tally};
use crate::bits::row;
use crate::harness::{a_packet, a_stream, an_lsf, lay_symbols};
use crate::modem::peek::{lay_window, sending};
use crate::modem::{Modulator, ModulatorAction, ModulatorFrame, SoftModulator};
use crate::rate::WINDOW;

#[derive(Clone)]
pub enum Call {
    /// The symbols beside a frame that needs none are anything.
    Provide(Frame, Vec<f32>),
    Read(usize),
    /// Fill, capacity, latency.
    Update([u64; 3]),
    Run,
    /// A made-up window and its cursor; no call of the modem's own.
    Window(usize, Box<[f32; WINDOW]>),
}

#[derive(Clone, Copy, Debug)]
pub enum Frame {
    None,
    Preamble(u8),
    BertPreamble(u8),
    Symbols,
    Bert,
    End,
}

/// The same sender twice.
pub struct Pair {
    pub old: SoftModulator,
    pub port: Sender,
    /// How many frames were provided: the Rust's three frames of symbols, which it sends alike, take turns.
    pub frames: usize,
}

/// What every place of a room holds before a read: crates/beside_sender/src/calls.rt lends such a one.
const UNTOUCHED: i16 = 21_845;

impl Pair {
    /// The call to both. What differs after it, if anything does; the answer is whether it was accepted.
    pub fn call(
        &mut self,
        program: &mut Program,
        call: &Call,
        tally: &mut Tally,
    ) -> Result<bool, String> {
        let before = self.port.clone();
        let mut room = vec![
            UNTOUCHED;
            if let Call::Read(size) = call {
                *size
            } else {
                0
            }
        ];
        self.ask_port(program, call, &mut room);
        let expected = refusals::of_sender(&before, call);
        if let Call::Window(..) = call {
        } else if self.refusal() != expected {
            let told = format!("{:?}", self.refusal());
            return Err(say(
                "refusal by the documents",
                format!("{expected:?}"),
                told,
            ));
        } else if expected.0 != 0 {
            return self.refused(&before, &room, expected.0, tally);
        }
        caught(|| self.ask_old(call, &room))??;
        let what = senders_differ(&flat::sender(&self.old), &self.port)
            .or_else(|| unused_differ(&before, &self.port));
        let ends = matches!(call, Call::Update(_)) && before.owes_end();
        tally.ends_unread += u64::from(ends && before.is_unread());
        #[cfg(not(feature = "rate24"))]
        let what = what.or_else(|| match call {
            Call::Update(counts) => unamended::difference(&before, *counts, &self.port, tally),
            _ => None,
        });
        what.map_or(Ok(true), Err)
    }

    /// The port's refusal: its number, and the place beside it or 0.
    fn refusal(&self) -> (u64, u64) {
        match self.port.numbers[SENDER_REFUSAL] {
            0 => (0, 0),
            number => (number, self.port.numbers[AMOUNT]),
        }
    }

    fn ask_port(&mut self, program: &mut Program, call: &Call, room: &mut [i16]) {
        let port = &mut self.port;
        let sending = match call {
            Call::Provide(frame, symbols) => {
                let (number, steps) = match *frame {
                    Frame::None => (0, 0),
                    Frame::Preamble(steps) => (1, steps),
                    Frame::Symbols => (2, 0),
                    Frame::End => (3, 0),
                    Frame::BertPreamble(steps) => (4, steps),
                    Frame::Bert => (5, 0),
                };
                Sending::Provide(number, steps, symbols)
            }
            Call::Read(_) => Sending::Read,
            Call::Update(counts) => Sending::Update(*counts),
            Call::Run => Sending::Run,
            Call::Window(cursor, values) => {
                port.numbers[flat::CURSOR] = *cursor as u64;
                port.window[..WINDOW].copy_from_slice(&values[..]);
                return;
            }
        };
        program.send(sending, port, room);
    }

    /// Nothing may have changed, and the old modem, which knows no refusals, is not asked.
    fn refused(
        &self,
        before: &Sender,
        room: &[i16],
        number: u64,
        tally: &mut Tally,
    ) -> Result<bool, String> {
        if let Some(what) =
            senders_differ(before, &self.port).or_else(|| unused_differ(before, &self.port))
        {
            return Err(format!(
                "after refusal {number}, with what was there as the old: {what}"
            ));
        }
        if room.iter().any(|&sample| sample != UNTOUCHED) {
            return Err(format!("refusal {number} wrote to the room"));
        }
        tally.refused(number);
        tally.nan_refused += not_numbers(&before.window);
        Ok(false)
    }

    fn ask_old(&mut self, call: &Call, room: &[i16]) -> Result<(), String> {
        match call {
            Call::Provide(frame, symbols) => self.provide_old(*frame, symbols),
            Call::Read(size) => {
                let mut out = vec![UNTOUCHED; *size];
                let written = self.old.read_output_samples(&mut out) as u64;
                if written != self.port.numbers[AMOUNT] {
                    return Err(say("samples written", written, self.port.numbers[AMOUNT]));
                }
                if let Some(what) = samples_differ("room, place", &out, room) {
                    return Err(what);
                }
            }
            Call::Update(counts) => {
                let [fill, capacity, latency] = counts.map(|count| count as usize);
                self.old.update_output_buffer(fill, capacity, latency);
            }
            Call::Run => {
                let answer = action(self.old.run());
                let port = (self.port.numbers[ACTION], self.port.numbers[AMOUNT]);
                if answer != port {
                    return Err(format!(
                        "action: the old modem has {answer:?}, the port {port:?}"
                    ));
                }
            }
            Call::Window(cursor, values) => lay_window(&mut self.old, *cursor, **values),
        }
        Ok(())
    }

    fn provide_old(&mut self, frame: Frame, symbols: &[f32]) {
        self.frames += 1;
        let frame = match frame {
            Frame::None => None,
            Frame::Preamble(tx_delay) => Some(ModulatorFrame::Preamble { tx_delay }),
            Frame::BertPreamble(tx_delay) => Some(ModulatorFrame::BertPreamble { tx_delay }),
            Frame::End => Some(ModulatorFrame::EndOfTransmission),
            Frame::Symbols | Frame::Bert => {
                lay_symbols(symbols.try_into().expect("192 symbols are accepted"));
                Some(match self.frames % 3 {
                    0 => ModulatorFrame::Packet(a_packet()),
                    1 => ModulatorFrame::Lsf(an_lsf()),
                    _ => ModulatorFrame::Stream(a_stream()),
                })
            }
        };
        self.old.provide_next_frame(frame);
    }

    /// Whether samples of the last frame are unread.
    pub fn unread(&self) -> bool {
        let kept = sending(&self.old);
        kept.read < kept.length
    }
}

/// An action by its number and the count that goes with it, as the port's program has them.
fn action(action: Option<ModulatorAction>) -> (u64, u64) {
    match action {
        None => (0, 0),
        Some(ModulatorAction::TransmissionWillEnd(after)) => (1, after as u64),
        Some(ModulatorAction::ReadOutput) => (2, 0),
        Some(ModulatorAction::SetIdle(true)) => (3, 0),
        Some(ModulatorAction::SetIdle(false)) => (4, 0),
        Some(ModulatorAction::GetNextFrame) => (5, 0),
    }
}

/// The call as a line, symbols and window by their bits.
pub fn written(call: &Call) -> String {
    match call {
        Call::Provide(Frame::Symbols, symbols) => format!("symbols {}", row(symbols)),
        Call::Provide(frame, _) => format!("{frame:?}").to_lowercase(),
        Call::Read(size) => format!("read {size}"),
        Call::Update([fill, capacity, latency]) => format!("update {fill} {capacity} {latency}"),
        Call::Run => "run".to_string(),
        Call::Window(cursor, values) => format!("window {cursor} {}", row(&values[..])),
    }
}
