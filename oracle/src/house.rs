//! The two programs, done with the old modem: what `send` and `receive` are held to. The Rust has no such
//! programs; the line, the accept rule and the order of the frames are the client's document 01's.

use crate::decode::{slice, SyncBurst};
use crate::harness::{a_stream, lay_symbols, reply_by_word, take_offer};
use crate::modem::{Demodulator, Modulator, ModulatorFrame, SoftDemodulator, SoftModulator};
use std::io::{self, Read, Write};

/// The bytes of a good line: 96 digits and a line feed.
const LINE: usize = 97;

/// The words of the M17 specification.
fn word(burst: SyncBurst) -> Option<u16> {
    match burst {
        SyncBurst::Lsf => Some(0x55f7),
        SyncBurst::Bert => Some(0xdf55),
        SyncBurst::Stream => Some(0xff5d),
        SyncBurst::Packet => Some(0x75ff),
        SyncBurst::Preamble | SyncBurst::EndOfTransmission => None,
    }
}

/// The two bits that the old slicer gives.
fn bits(symbol: f32) -> u16 {
    let [first, second] = slice(symbol);
    u16::from(2 * first + second)
}

/// "accepts an offer exactly if its first two sliced bytes are the burst's word"
pub(crate) fn accepts(burst: SyncBurst, window: &[f32; 192]) -> bool {
    let sliced = window[..8].iter().fold(0, |word, &s| 4 * word + bits(s));
    word(burst) == Some(sliced)
}

pub fn line(window: &[f32; 192]) -> String {
    let digits: String = window
        .chunks(2)
        .map(|pair| format!("{:X}", 4 * bits(pair[0]) + bits(pair[1])))
        .collect();
    digits + "\n"
}

/// A good line's symbols: "01, 00, 10, 11 are 1, 1/3, -1/3, -1 as f32".
fn symbols(line: &[u8]) -> Option<[f32; 192]> {
    let digits = line.strip_suffix(b"\n").filter(|d| d.len() == LINE - 1)?;
    let mut symbols = [0.0; 192];
    for (pair, digit) in symbols.chunks_mut(2).zip(digits) {
        let four = b"0123456789ABCDEF".iter().position(|d| d == digit)?;
        for (symbol, two) in pair.iter_mut().zip([four / 4, four % 4]) {
            *symbol = [1.0 / 3.0, 1.0, -1.0 / 3.0, -1.0][two];
        }
    }
    Some(symbols)
}

/// What send gives for a text: the samples, and the number of the first bad line.
pub struct Sent {
    pub samples: Vec<i16>,
    pub bad: Option<usize>,
}

pub fn sent(text: &[u8]) -> Sent {
    let mut sender = SoftModulator::new();
    let mut samples = Vec::new();
    let mut provide = |frame| {
        let mut room = [0; 4000];
        sender.provide_next_frame(Some(frame));
        let written = sender.read_output_samples(&mut room);
        samples.extend_from_slice(&room[..written]);
    };
    provide(ModulatorFrame::Preamble { tx_delay: 0 });
    let mut bad = None;
    for (i, line) in text.split_inclusive(|&byte| byte == b'\n').enumerate() {
        match symbols(line) {
            Some(symbols) => {
                lay_symbols(symbols);
                provide(ModulatorFrame::Stream(a_stream()));
            }
            None => {
                bad = Some(i + 1);
                break;
            }
        }
    }
    provide(ModulatorFrame::EndOfTransmission);
    Sent { samples, bad }
}

/// Low byte first.
pub fn bytes(samples: &[i16]) -> Vec<u8> {
    samples.iter().flat_map(|s| s.to_le_bytes()).collect()
}

/// The old receiver, each offer answered by the accept rule.
pub struct Receiving(SoftDemodulator);

impl Receiving {
    pub fn new() -> Self {
        reply_by_word();
        Receiving(SoftDemodulator::new())
    }

    /// The line that a sample leads to, if it does.
    pub fn hear(&mut self, sample: i16) -> Option<String> {
        self.0.demod(sample)?;
        take_offer().map(|offer| line(&offer.symbols))
    }
}

/// A last odd byte is dropped.
pub fn received(recording: &[u8]) -> Vec<String> {
    let mut receiving = Receiving::new();
    recording
        .chunks_exact(2)
        .filter_map(|pair| receiving.hear(i16::from_le_bytes([pair[0], pair[1]])))
        .collect()
}

/// The program send, from standard input to standard output.
pub fn send() -> io::Result<()> {
    let mut text = Vec::new();
    io::stdin().read_to_end(&mut text)?;
    let sent = sent(&text);
    io::stdout().write_all(&bytes(&sent.samples))?;
    if let Some(number) = sent.bad {
        eprintln!("bad line {number}");
    }
    Ok(())
}

/// The program receive, in pieces, so that a recording may be of any length.
pub fn receive() -> io::Result<()> {
    let mut receiving = Receiving::new();
    let mut input = io::stdin().lock();
    let mut output = io::stdout().lock();
    let mut piece = Vec::new();
    loop {
        piece.clear();
        input.by_ref().take(1 << 16).read_to_end(&mut piece)?;
        for pair in piece.chunks_exact(2) {
            if let Some(line) = receiving.hear(i16::from_le_bytes([pair[0], pair[1]])) {
                output.write_all(line.as_bytes())?;
            }
        }
        if piece.len() < 1 << 16 {
            return Ok(());
        }
    }
}
