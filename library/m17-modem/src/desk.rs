//! The exercise desk of a classroom.
use crate::offer::fed;
use crate::{done, ffi, Fed, Rate, Refusal};

/// A seat of the desk, 0 to 7.
///
/// ```
/// use m17_modem::Seat;
/// assert_eq!(Seat::of(5)?.number(), 5);
/// # Ok::<(), m17_modem::Refusal>(())
/// ```
#[derive(Clone, Copy, Debug, PartialEq, Eq, PartialOrd, Ord, Hash)]
pub struct Seat(u8);

/// What the desk's list says of a seat.
///
/// ```
/// use m17_modem::{Desk, Rate, Seat, SeatState};
/// let mut desk = Desk::new();
/// desk.open(Seat::of(3)?, Rate::Khz48)?;
/// assert_eq!(desk.list()[3], SeatState::Open { count: 0, owed: false });
/// # Ok::<(), m17_modem::Refusal>(())
/// ```
#[derive(Clone, Copy, Debug, PartialEq, Eq, Hash)]
pub enum SeatState {
    /// No exercise is open.
    Closed,
    /// An exercise is open.
    Open {
        /// How many samples went in.
        count: u64,
        /// Whether a reply is owed.
        owed: bool,
    },
}

/// Eight seats, each with a receiver of its own: some 66 KB. What a seat is answered depends on its own calls since it was opened alone.
///
/// ```
/// use m17_modem::{Desk, Heard, Rate, Seat};
/// let mut desk = Desk::new();
/// let (first, second) = (Seat::of(0)?, Seat::of(1)?);
/// desk.open(first, Rate::Khz48)?;
/// desk.open(second, Rate::Khz24)?;
/// let mut room = [0.0; 192];
/// desk.feed(first, &[1000; 480], &mut room)?;
/// assert_eq!(desk.feed(second, &[0; 240], &mut room)?.heard, Heard::Quiet);
/// # Ok::<(), m17_modem::Refusal>(())
/// ```
#[derive(Clone)]
pub struct Desk {
    memory: ffi::Seats,
}

impl Seat {
    /// All eight.
    ///
    /// ```
    /// use m17_modem::Seat;
    /// assert_eq!(Seat::ALL.map(Seat::number), [0, 1, 2, 3, 4, 5, 6, 7]);
    /// ```
    pub const ALL: [Self; 8] = [Self(0), Self(1), Self(2), Self(3), Self(4), Self(5), Self(6), Self(7)];

    /// The seat of a number from 0 to 7; [`Refusal::NoSuchSeat`] for another.
    ///
    /// ```
    /// use m17_modem::{Refusal, Seat};
    /// assert_eq!(Seat::of(8), Err(Refusal::NoSuchSeat));
    /// ```
    pub fn of(number: usize) -> Result<Self, Refusal> {
        Self::ALL.get(number).copied().ok_or(Refusal::NoSuchSeat)
    }

    /// Its number, from 0.
    ///
    /// ```
    /// assert_eq!(m17_modem::Seat::ALL[7].number(), 7);
    /// ```
    pub fn number(self) -> usize {
        self.0.into()
    }
}

impl Default for Desk {
    fn default() -> Self {
        Self::new()
    }
}

impl Desk {
    /// A desk with every seat closed.
    ///
    /// ```
    /// use m17_modem::{Desk, SeatState};
    /// assert_eq!(Desk::new().list(), [SeatState::Closed; 8]);
    /// ```
    pub fn new() -> Self {
        let mut made = Self { memory: ffi::Seats::zeroed() };
        made.memory.start();
        made
    }

    /// Opens an exercise on a closed seat, with a fresh receiver.
    ///
    /// ```
    /// use m17_modem::{Desk, Rate, Refusal, Seat};
    /// let mut desk = Desk::new();
    /// desk.open(Seat::of(2)?, Rate::Khz48)?;
    /// assert_eq!(desk.open(Seat::of(2)?, Rate::Khz48), Err(Refusal::SeatOpen));
    /// # Ok::<(), m17_modem::Refusal>(())
    /// ```
    pub fn open(&mut self, seat: Seat, rate: Rate) -> Result<(), Refusal> {
        done(self.memory.open(seat.0.into(), rate.hertz()))
    }

    /// Samples for an open seat, up to the first that brings an offer; its symbols are the first 192 of `room`.
    ///
    /// ```
    /// use m17_modem::{Desk, Refusal, Seat};
    /// let refused = Desk::new().feed(Seat::of(4)?, &[0; 480], &mut [0.0; 192]);
    /// assert_eq!(refused, Err(Refusal::SeatClosed));
    /// # Ok::<(), m17_modem::Refusal>(())
    /// ```
    pub fn feed(&mut self, seat: Seat, samples: &[i16], room: &mut [f32]) -> Result<Fed, Refusal> {
        let mut told = ffi::Told::default();
        let code = self.memory.feed(seat.0.into(), samples, room, &mut told);
        fed(code, &told)
    }

    /// The reply to a seat's offer.
    ///
    /// ```
    /// # mod sent { include!(concat!(env!("CARGO_MANIFEST_DIR"), "/examples/sent/mod.rs")); }
    /// # use sent::{a_line, sent};
    /// use m17_modem::{Desk, Rate, Seat};
    /// let (mut desk, seat) = (Desk::new(), Seat::of(6)?);
    /// desk.open(seat, Rate::Khz48)?;
    /// desk.feed(seat, &sent(Rate::Khz48, &[a_line("55F7", 1)])?, &mut [0.0; 192])?;
    /// desk.reply(seat, true)?;
    /// # Ok::<(), m17_modem::Refusal>(())
    /// ```
    pub fn reply(&mut self, seat: Seat, accepted: bool) -> Result<(), Refusal> {
        done(self.memory.reply(seat.0.into(), accepted))
    }

    /// Ends the exercise of an open seat.
    ///
    /// ```
    /// use m17_modem::{Desk, Rate, Refusal, Seat};
    /// let (mut desk, seat) = (Desk::new(), Seat::of(0)?);
    /// desk.open(seat, Rate::Khz24)?;
    /// desk.close(seat)?;
    /// assert_eq!(desk.close(seat), Err(Refusal::SeatClosed));
    /// # Ok::<(), m17_modem::Refusal>(())
    /// ```
    pub fn close(&mut self, seat: Seat) -> Result<(), Refusal> {
        done(self.memory.close(seat.0.into()))
    }

    /// Whether an open seat hears a carrier.
    ///
    /// ```
    /// use m17_modem::{Desk, Rate, Seat};
    /// let (mut desk, seat) = (Desk::new(), Seat::of(1)?);
    /// desk.open(seat, Rate::Khz48)?;
    /// assert_eq!(desk.data_carrier_detect(seat), Ok(false));
    /// # Ok::<(), m17_modem::Refusal>(())
    /// ```
    pub fn data_carrier_detect(&self, seat: Seat) -> Result<bool, Refusal> {
        match self.memory.carrier(seat.0.into()) {
            0 => Ok(false),
            1 => Ok(true),
            code => Err(Refusal::of(code, 0)),
        }
    }

    /// What each seat is doing.
    ///
    /// ```
    /// use m17_modem::{Desk, Rate, Seat, SeatState};
    /// let mut desk = Desk::new();
    /// desk.open(Seat::of(7)?, Rate::Khz48)?;
    /// desk.feed(Seat::of(7)?, &[0; 480], &mut [0.0; 192])?;
    /// assert_eq!(desk.list()[6..], [SeatState::Closed, SeatState::Open { count: 480, owed: false }]);
    /// # Ok::<(), m17_modem::Refusal>(())
    /// ```
    pub fn list(&self) -> [SeatState; 8] {
        let mut lines = [0; 24];
        // A desk of this crate is never unfit, so that this is not refused.
        self.memory.list(&mut lines);
        core::array::from_fn(|seat| match lines[3 * seat] {
            0 => SeatState::Closed,
            _ => SeatState::Open { count: lines[3 * seat + 1], owed: lines[3 * seat + 2] != 0 },
        })
    }
}
