//! The proved M17 soft modem for Rust, under m17core's names: no dependency, no allocation, no global state, no `std`.
//!
//! A call here is one of the archive libm17modem.a, whose contract is proved: its answer, and all that is in the memory that it is lent
//! afterwards, is a definition of the calls since a fresh start. Each value owns its memory and lends it whole.
//!
//! A fresh receiver for each exercise, whose samples it is fed; each frame that is due is offered, and the caller replies. In the examples
//! `sent` and `a_line` are those of examples/sent: a transmission of lines, and a line of a payload of its own.
//!
//! ```
//! # mod sent { include!(concat!(env!("CARGO_MANIFEST_DIR"), "/examples/sent/mod.rs")); }
//! # use sent::{a_line, sent};
//! use m17_modem::{accepts, line, Rate, SoftDemodulator};
//! let exercise = sent(Rate::Khz48, &[a_line("55F7", 1)])?;
//! let mut lines = vec![];
//! SoftDemodulator::new().feed_all(&exercise, |offer, symbols| {
//!     let accepted = accepts(offer.kind, symbols);
//!     if accepted {
//!         lines.extend(line(symbols));
//!     }
//!     accepted
//! })?;
//! assert_eq!(lines, format!("{}\n", a_line("55F7", 1)).into_bytes());
//! # Ok::<(), m17_modem::Refusal>(())
//! ```
#![no_std]
#![deny(unsafe_code)]
#![warn(missing_docs)]

mod archive;
mod check;
mod desk;
mod ffi;
mod figures;
mod house;
mod listing;
mod offer;
mod receiver;
mod refusal;
mod replay;
mod report;
mod sender;

pub use check::{check, Verdict};
pub use desk::{Desk, Seat, SeatState};
pub use figures::Figures;
pub use house::{accepts, bit_errors, line, line_symbols};
pub use listing::{list, Listed, Listing, Offers};
pub use offer::{Fed, Heard, Offer};
pub use receiver::SoftDemodulator;
pub use refusal::{Place, Refusal};
pub use replay::replay;
pub use report::Report;
pub use sender::{ModulatorAction, ModulatorFrame, SoftModulator, Traffic};

/// The 192 symbols of a frame, its burst first.
///
/// ```
/// let silence: m17_modem::Symbols = [0.0; 192];
/// assert_eq!(m17_modem::line(&silence)[96], b'\n');
/// ```
pub type Symbols = [f32; 192];

/// A line of the house format: 96 capital hexadecimal digits, two bits a symbol, and a line feed.
///
/// ```
/// let line: m17_modem::Line = m17_modem::line(&[1.0; 192]);
/// assert!(line.starts_with(b"5555"));
/// ```
pub type Line = [u8; 97];

/// The kinds of frame, in the order in which the search tries them.
///
/// ```
/// use m17_modem::Kind;
/// assert_eq!(Kind::ALL.map(|kind| kind.to_string()), ["LSF", "BERT", "Stream", "Packet"]);
/// ```
#[derive(Clone, Copy, Debug, PartialEq, Eq, PartialOrd, Ord, Hash)]
pub enum Kind {
    /// Link setup.
    Lsf,
    /// Bit error rate test.
    Bert,
    /// A part of a stream.
    Stream,
    /// A part of a packet.
    Packet,
}

impl Kind {
    /// All four, in their order.
    ///
    /// ```
    /// use m17_modem::Kind;
    /// assert_eq!(Kind::ALL[2], Kind::Stream);
    /// ```
    pub const ALL: [Self; 4] = [Self::Lsf, Self::Bert, Self::Stream, Self::Packet];

    /// The number that the archive has for it, from 1.
    pub(crate) fn number(self) -> u32 {
        self as u32 + 1
    }

    /// The kind of a number from 1 to 4.
    pub(crate) fn of(number: u32) -> Option<Self> {
        Self::ALL.get((number as usize).wrapping_sub(1)).copied()
    }
}

impl core::fmt::Display for Kind {
    fn fmt(&self, f: &mut core::fmt::Formatter<'_>) -> core::fmt::Result {
        f.pad(match self {
            Self::Lsf => "LSF",
            Self::Bert => "BERT",
            Self::Stream => "Stream",
            Self::Packet => "Packet",
        })
    }
}

/// The two rates: another cannot be asked for.
///
/// ```
/// use m17_modem::{Rate, SoftDemodulator};
/// let receiver = SoftDemodulator::at(Rate::Khz24);
/// assert_eq!(receiver.count(), 0);
/// ```
#[derive(Clone, Copy, Debug, PartialEq, Eq, Hash)]
pub enum Rate {
    /// 48,000 samples a second, ten a symbol.
    Khz48,
    /// 24,000 samples a second, five a symbol.
    Khz24,
}

impl Rate {
    /// The rate of so many samples a second; [`Refusal::WrongRate`] for another number.
    ///
    /// ```
    /// use m17_modem::{Rate, Refusal};
    /// assert_eq!(Rate::of(24_000), Ok(Rate::Khz24));
    /// assert_eq!(Rate::of(44_100), Err(Refusal::WrongRate));
    /// ```
    pub fn of(hertz: u32) -> Result<Self, Refusal> {
        match hertz {
            48_000 => Ok(Self::Khz48),
            24_000 => Ok(Self::Khz24),
            _ => Err(Refusal::WrongRate),
        }
    }

    /// Samples a second.
    ///
    /// ```
    /// assert_eq!(m17_modem::Rate::Khz48.hertz(), 48_000);
    /// ```
    pub fn hertz(self) -> u32 {
        match self {
            Self::Khz48 => 48_000,
            Self::Khz24 => 24_000,
        }
    }
}

/// What a call without an answer of its own is answered with.
pub(crate) fn done(code: u32) -> Result<(), Refusal> {
    match code {
        0 => Ok(()),
        _ => Err(Refusal::of(code, 0)),
    }
}
