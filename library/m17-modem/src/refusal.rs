//! Why a call is refused.
use core::fmt;

/// Why a call was refused: the documents' twenty refusals. A refused call changed nothing, neither record nor buffer.
///
/// ```
/// use m17_modem::SoftDemodulator;
/// let refused = SoftDemodulator::new().reply(true).unwrap_err();
/// assert_eq!(refused.to_string(), "refusal 3: a reply while none is owed");
/// ```
#[derive(Clone, Copy, Debug, PartialEq, Eq, Hash)]
pub enum Refusal {
    /// 1: the record is unfit. No value of this crate ever is.
    RecordUnfit,
    /// 2: a sample while a reply is owed.
    ReplyOwed,
    /// 3: a reply while none is owed.
    NoReplyOwed,
    /// 4: room for fewer than 192 symbols.
    RoomTooSmall,
    /// 5: the count of samples is at its end.
    CountAtItsEnd,
    /// 6: not exactly 192 symbols of a frame, or 184 of a payload.
    WrongCount,
    /// 71: a symbol that is not a number, at this place, from 0.
    SymbolNotANumber(usize),
    /// 72: an infinite symbol, at this place.
    SymbolInfinite(usize),
    /// 73: a symbol above 1, at this place.
    SymbolAboveOne(usize),
    /// 74: a symbol below -1, at this place.
    SymbolBelowMinusOne(usize),
    /// 8: fill, capacity or latency above 16,777,216, or a padding count above 122,400.
    CountTooLarge,
    /// 9: the capacity is below the fill.
    CapacityBelowFill,
    /// 10: a correlator value that is not a number or beyond 1,000,000.
    ValueOutside,
    /// 11: a BERT frame whose first eight symbols are not its burst's signs.
    WrongBurst,
    /// 12: a recording that is too long for the slow engine.
    RecordingTooLong,
    /// 13: room for the list of offers that is too small.
    ListRoomTooSmall,
    /// 14: a sample number 0, or beyond the recording's end.
    NoSuchSample,
    /// 15: a rate that is neither 48,000 nor 24,000.
    WrongRate,
    /// 16: a total that would pass 2^63.
    TotalTooLarge,
    /// 17: a bad line of a text to be checked, with its number, from 1.
    BadLine(usize),
    /// 18: a seat above 7.
    NoSuchSeat,
    /// 19: the seat is closed.
    SeatClosed,
    /// 20: the seat is open.
    SeatOpen,
}

/// What a refusal tells beside its number.
///
/// ```
/// use m17_modem::{check, Place};
/// let refused = check(0, b"bad\n", &[]).unwrap_err();
/// assert_eq!(refused.place(), Some(Place::Line(1)));
/// ```
#[derive(Clone, Copy, Debug, PartialEq, Eq, Hash)]
pub enum Place {
    /// The place of the first wrong symbol, counted from 0.
    Symbol(usize),
    /// The number of the bad line, counted from 1.
    Line(usize),
}

impl Refusal {
    /// Of the archive's code, 100 and the number, with a wrong symbol's place in its upper half; `told` has a bad line's number.
    pub(crate) fn of(code: u32, told: u64) -> Self {
        let place = (code >> 16) as usize;
        match (code & 0xFFFF).wrapping_sub(100) {
            2 => Self::ReplyOwed,
            3 => Self::NoReplyOwed,
            4 => Self::RoomTooSmall,
            5 => Self::CountAtItsEnd,
            6 => Self::WrongCount,
            71 => Self::SymbolNotANumber(place),
            72 => Self::SymbolInfinite(place),
            73 => Self::SymbolAboveOne(place),
            74 => Self::SymbolBelowMinusOne(place),
            8 => Self::CountTooLarge,
            9 => Self::CapacityBelowFill,
            10 => Self::ValueOutside,
            11 => Self::WrongBurst,
            12 => Self::RecordingTooLong,
            13 => Self::ListRoomTooSmall,
            14 => Self::NoSuchSample,
            15 => Self::WrongRate,
            16 => Self::TotalTooLarge,
            17 => Self::BadLine(told as usize),
            18 => Self::NoSuchSeat,
            19 => Self::SeatClosed,
            20 => Self::SeatOpen,
            _ => Self::RecordUnfit,
        }
    }

    /// The number in documents 01 and 02: 1 to 20, and 71 to 74 for the four ways in which a symbol is wrong.
    ///
    /// ```
    /// use m17_modem::{Rate, Refusal};
    /// assert_eq!(Rate::of(44_100).map_err(Refusal::number), Err(15));
    /// ```
    pub fn number(self) -> u32 {
        match self {
            Self::RecordUnfit => 1,
            Self::ReplyOwed => 2,
            Self::NoReplyOwed => 3,
            Self::RoomTooSmall => 4,
            Self::CountAtItsEnd => 5,
            Self::WrongCount => 6,
            Self::SymbolNotANumber(_) => 71,
            Self::SymbolInfinite(_) => 72,
            Self::SymbolAboveOne(_) => 73,
            Self::SymbolBelowMinusOne(_) => 74,
            Self::CountTooLarge => 8,
            Self::CapacityBelowFill => 9,
            Self::ValueOutside => 10,
            Self::WrongBurst => 11,
            Self::RecordingTooLong => 12,
            Self::ListRoomTooSmall => 13,
            Self::NoSuchSample => 14,
            Self::WrongRate => 15,
            Self::TotalTooLarge => 16,
            Self::BadLine(_) => 17,
            Self::NoSuchSeat => 18,
            Self::SeatClosed => 19,
            Self::SeatOpen => 20,
        }
    }

    /// Where the wrong symbol or the bad line is, if it is one of these.
    ///
    /// ```
    /// use m17_modem::{Place, Refusal};
    /// assert_eq!(Refusal::SymbolInfinite(3).place(), Some(Place::Symbol(3)));
    /// assert_eq!(Refusal::WrongRate.place(), None);
    /// ```
    pub fn place(self) -> Option<Place> {
        match self {
            Self::SymbolNotANumber(n) | Self::SymbolInfinite(n) | Self::SymbolAboveOne(n) | Self::SymbolBelowMinusOne(n) => {
                Some(Place::Symbol(n))
            }
            Self::BadLine(n) => Some(Place::Line(n)),
            _ => None,
        }
    }

    fn sentence(self) -> &'static str {
        match self {
            Self::RecordUnfit => "the record is unfit",
            Self::ReplyOwed => "a sample while a reply is owed",
            Self::NoReplyOwed => "a reply while none is owed",
            Self::RoomTooSmall => "there is room for fewer than 192 symbols",
            Self::CountAtItsEnd => "the count of samples is at its end",
            Self::WrongCount => "a wrong count of symbols: a frame has 192, a payload 184",
            Self::SymbolNotANumber(_) => "a symbol that is not a number",
            Self::SymbolInfinite(_) => "an infinite symbol",
            Self::SymbolAboveOne(_) => "a symbol above 1",
            Self::SymbolBelowMinusOne(_) => "a symbol below -1",
            Self::CountTooLarge => "fill, capacity or latency above 16,777,216, or a padding above 122,400",
            Self::CapacityBelowFill => "the capacity is below the fill",
            Self::ValueOutside => "a correlator value that is not a number or beyond 1,000,000",
            Self::WrongBurst => "a BERT frame that does not begin with its burst",
            Self::RecordingTooLong => "a recording of more than 65,536 samples for the slow engine",
            Self::ListRoomTooSmall => "the room for the list of offers is too small",
            Self::NoSuchSample => "there is no such sample in the recording",
            Self::WrongRate => "a rate that is neither 48,000 nor 24,000",
            Self::TotalTooLarge => "a total would pass 2^63",
            Self::BadLine(_) => "a bad line of frames",
            Self::NoSuchSeat => "a seat above 7",
            Self::SeatClosed => "the seat is closed",
            Self::SeatOpen => "the seat is open already",
        }
    }
}

impl fmt::Display for Refusal {
    fn fmt(&self, f: &mut fmt::Formatter<'_>) -> fmt::Result {
        write!(f, "refusal {}: {}", self.number(), self.sentence())?;
        match self.place() {
            Some(Place::Symbol(n)) => write!(f, " (symbol {n}, from 0)"),
            Some(Place::Line(n)) => write!(f, " (line {n})"),
            None => Ok(()),
        }
    }
}

impl core::error::Error for Refusal {}
