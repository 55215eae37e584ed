//! The port: its programs `beside_receiver` and `beside_sender`, as `tools/native` builds them. Each is a child
//! process that reads requests and writes answers; the programs' own src/main.rt say how these are laid.

use super::flat::{Receiver, Sender, ANSWER, NO_KIND, NUMBERS, REFUSAL};
use super::wire;
use crate::rate::RATE;
use std::io::{BufReader, BufWriter, Error, Read, Result, Write};
use std::path::Path;
use std::process::{Child, ChildStdin, ChildStdout, Command, Stdio};

/// The places of a receiver's room as they go over; fewer may be lent.
const ROOM: usize = 200;

/// The offers that the rooms of a listing are for, and the most replies.
pub const LISTED: usize = 32;

pub struct Program {
    child: Child,
    requests: BufWriter<ChildStdin>,
    answers: BufReader<ChildStdout>,
}

/// A call of the receiver.
#[derive(Clone, Copy)]
pub enum Hearing<'a> {
    Fresh,
    /// A call for each sample, up to the first that is refused or brings an offer.
    Listen(&'a [i16]),
    /// The stretch in one call.
    Feed(&'a [i16]),
    /// Whether it accepts.
    Reply(bool),
    Carrier,
}

/// A call of the sender.
#[derive(Clone, Copy)]
pub enum Sending<'a> {
    Fresh,
    /// The frame's number, its steps, and the symbols beside it.
    Provide(u64, u8, &'a [f32]),
    Read,
    /// Fill, capacity, latency.
    Update([u64; 3]),
    Run,
}

/// The offers of a recording as the slow engine lists them: its refusal or 0, how many, and both rooms, which are for 32.
pub struct Listing {
    pub refusal: u64,
    pub count: u64,
    pub numbers: [u64; 5 * LISTED],
    pub symbols: [f32; 192 * LISTED],
}

/// What the port holds after a sample: the record's numbers, the candidate's three floats, and the new
/// filtered value.
pub struct Note {
    pub numbers: [u64; NUMBERS],
    pub values: [f32; 4],
}

impl Program {
    pub fn start(program: &Path) -> Result<Self> {
        let mut child = Command::new(program)
            .stdin(Stdio::piped())
            .stdout(Stdio::piped())
            .spawn()?;
        let requests = child.stdin.take().expect("a pipe to the program");
        let answers = child.stdout.take().expect("a pipe from the program");
        Ok(Program {
            child,
            requests: BufWriter::with_capacity(1 << 16, requests),
            answers: BufReader::with_capacity(1 << 16, answers),
        })
    }

    /// A program ends where its input does, and well.
    pub fn end(self) -> Result<()> {
        let Program {
            mut child,
            requests,
            ..
        } = self;
        drop(requests);
        let status = child.wait()?;
        if status.success() {
            Ok(())
        } else {
            Err(Error::other(format!("it ended with {status}")))
        }
    }

    fn ask(&mut self, head: [u64; 4], parts: &[&[u8]]) {
        let mut numbers = [0; 32];
        wire::put_numbers(&mut numbers, &head);
        let mut send = || {
            self.requests.write_all(&numbers)?;
            for part in parts {
                self.requests.write_all(part)?;
            }
            self.requests.flush()
        };
        send().expect("the port reads its requests");
    }

    fn answer(&mut self, bytes: &mut [u8]) {
        let read = self.answers.read_exact(bytes);
        read.expect("the port answers its requests");
    }

    /// The record and the room are as the call left them; gives the notes of samples heard one by one.
    pub fn hear(&mut self, call: Hearing, record: &mut Receiver, room: &mut [f32]) -> Vec<Note> {
        let (number, samples, accepted) = match call {
            Hearing::Fresh => (0, &[][..], false),
            Hearing::Listen(samples) => (1, samples, false),
            Hearing::Feed(samples) => (2, samples, false),
            Hearing::Reply(accepted) => (3, &[][..], accepted),
            Hearing::Carrier => (4, &[][..], false),
        };
        let mut flat = record.bytes();
        let mut lent = [0; 4 * ROOM];
        wire::put_floats(&mut lent, room);
        let mut given = vec![0; 2 * samples.len()];
        wire::put_samples(&mut given, samples);
        self.ask(
            [
                number,
                samples.len() as u64,
                room.len() as u64,
                u64::from(accepted),
            ],
            &[&flat, &lent, &given],
        );
        let notes = match call {
            Hearing::Listen(samples) => self.notes(samples.len()),
            _ => vec![],
        };
        self.answer(&mut flat);
        record.lay(&flat);
        self.answer(&mut lent);
        wire::floats(&lent, room);
        notes
    }

    /// The last one is of the last sample, or of one that was refused or brought an offer.
    fn notes(&mut self, samples: usize) -> Vec<Note> {
        let mut notes = Vec::with_capacity(samples);
        while notes.len() < samples {
            let mut bytes = [0; 8 * NUMBERS + 16];
            self.answer(&mut bytes);
            let mut note = Note {
                numbers: [0; NUMBERS],
                values: [0.0; 4],
            };
            wire::numbers(&bytes, &mut note.numbers);
            wire::floats(&bytes[8 * NUMBERS..], &mut note.values);
            let quiet = note.numbers[REFUSAL] == 0 && note.numbers[ANSWER] == NO_KIND;
            notes.push(note);
            if !quiet {
                break;
            }
        }
        notes
    }

    /// Lists a recording, with a letter for each reply and room for so many offers.
    pub fn list(&mut self, rate: u64, samples: &[i16], replies: &str, room: usize) -> Listing {
        let mut head = [0; 8 + LISTED];
        wire::put_numbers(&mut head, &[rate]);
        for (byte, letter) in head[8..].iter_mut().zip(replies.bytes()) {
            *byte = u8::from(letter == b'a');
        }
        let mut given = vec![0; 2 * samples.len()];
        wire::put_samples(&mut given, samples);
        let [samples, replies, room] = [samples.len(), replies.len(), room].map(|n| n as u64);
        self.ask([5, samples, replies, room], &[&head, &given]);
        let mut bytes = vec![0; 16 + 8 * 5 * LISTED + 4 * 192 * LISTED];
        self.answer(&mut bytes);
        let mut told = [0; 2];
        wire::numbers(&bytes, &mut told);
        let mut listing = Listing {
            refusal: told[0],
            count: told[1],
            numbers: [0; 5 * LISTED],
            symbols: [0.0; 192 * LISTED],
        };
        wire::numbers(&bytes[16..], &mut listing.numbers);
        wire::floats(&bytes[16 + 8 * 5 * LISTED..], &mut listing.symbols);
        listing
    }

    /// The record is as the call left it, and so is the room, which is read into.
    pub fn send(&mut self, call: Sending, record: &mut Sender, room: &mut [i16]) {
        let (head, symbols) = match call {
            Sending::Fresh => ([0, RATE as u64, 0, 0], &[][..]),
            Sending::Provide(frame, steps, symbols) => {
                ([1, frame, u64::from(steps), symbols.len() as u64], symbols)
            }
            Sending::Read => ([2, room.len() as u64, 0, 0], &[][..]),
            Sending::Update([fill, capacity, latency]) => ([3, fill, capacity, latency], &[][..]),
            Sending::Run => ([4, 0, 0, 0], &[][..]),
        };
        let mut flat = record.bytes();
        let mut given = vec![0; 4 * symbols.len()];
        wire::put_floats(&mut given, symbols);
        self.ask(head, &[&flat, &given]);
        self.answer(&mut flat);
        record.lay(&flat);
        let mut read = vec![0; 2 * room.len()];
        self.answer(&mut read);
        wire::samples(&read, room);
    }
}
