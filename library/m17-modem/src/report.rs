//! A month's figures.
use crate::{done, ffi, Figures, Kind, Rate, Refusal};
use core::fmt;

/// The figures of recordings: what was offered at each rate, and how. A value, which compares and goes through its numbers unchanged.
///
/// ```
/// # mod sent { include!(concat!(env!("CARGO_MANIFEST_DIR"), "/examples/sent/mod.rs")); }
/// # use sent::{a_line, sent};
/// use m17_modem::{Kind, Rate, Report};
/// let mut month = Report::new();
/// month.add(Rate::Khz48, &sent(Rate::Khz48, &[a_line("55F7", 1), a_line("FF5D", 2)])?)?;
/// month.add(Rate::Khz24, &sent(Rate::Khz24, &[a_line("75FF", 3)])?)?;
/// assert_eq!(month.at(Rate::Khz48).accepted(Kind::Stream), 1);
/// assert!(month.to_string().contains("Packet accepted"));
/// # Ok::<(), m17_modem::Refusal>(())
/// ```
#[derive(Clone, Debug, PartialEq)]
pub struct Report {
    totals: ffi::Totals,
}

impl Default for Report {
    fn default() -> Self {
        Self::new()
    }
}

impl Report {
    /// The report of no recording: zeros, and no gains.
    ///
    /// ```
    /// use m17_modem::{Rate, Report};
    /// assert_eq!(Report::new().at(Rate::Khz24).smallest_gain(), None);
    /// ```
    pub fn new() -> Self {
        let mut totals = ffi::Totals::zeroed();
        totals.start();
        Self { totals }
    }

    /// A recording more, heard by a fresh receiver with the rule of [`accepts`](crate::accepts).
    ///
    /// ```
    /// use m17_modem::{Rate, Report};
    /// let mut report = Report::new();
    /// report.add(Rate::Khz48, &[0; 4800])?;
    /// assert_eq!(report, Report::new(), "silence adds nothing");
    /// # Ok::<(), m17_modem::Refusal>(())
    /// ```
    pub fn add(&mut self, rate: Rate, recording: &[i16]) -> Result<(), Refusal> {
        done(self.totals.add(rate.hertz(), recording))
    }

    /// The recordings of another report besides.
    ///
    /// ```
    /// # mod sent { include!(concat!(env!("CARGO_MANIFEST_DIR"), "/examples/sent/mod.rs")); }
    /// # use sent::{a_line, sent};
    /// use m17_modem::{Rate, Report};
    /// let recordings = [sent(Rate::Khz48, &[a_line("55F7", 1)])?, sent(Rate::Khz48, &[a_line("FF5D", 2)])?];
    /// let (mut both, mut one, mut other) = (Report::new(), Report::new(), Report::new());
    /// both.add(Rate::Khz48, &recordings[0])?;
    /// both.add(Rate::Khz48, &recordings[1])?;
    /// one.add(Rate::Khz48, &recordings[0])?;
    /// other.add(Rate::Khz48, &recordings[1])?;
    /// other.merge(&one)?;
    /// assert_eq!(other, both);
    /// # Ok::<(), m17_modem::Refusal>(())
    /// ```
    pub fn merge(&mut self, other: &Report) -> Result<(), Refusal> {
        done(self.totals.merge(&other.totals))
    }

    /// The figures of one rate.
    ///
    /// ```
    /// # mod sent { include!(concat!(env!("CARGO_MANIFEST_DIR"), "/examples/sent/mod.rs")); }
    /// # use sent::{a_line, sent};
    /// use m17_modem::{Kind, Rate, Report};
    /// let mut report = Report::new();
    /// report.add(Rate::Khz24, &sent(Rate::Khz24, &[a_line("55F7", 1)])?)?;
    /// assert_eq!((report.at(Rate::Khz24).offers(Kind::Lsf), report.at(Rate::Khz48).offers(Kind::Lsf)), (1, 0));
    /// # Ok::<(), m17_modem::Refusal>(())
    /// ```
    pub fn at(&self, rate: Rate) -> Figures<'_> {
        let place = match rate {
            Rate::Khz48 => 0,
            Rate::Khz24 => 1,
        };
        let (numbers, gains) = (&self.totals.numbers, &self.totals.gains);
        let held = numbers[48 + 2 * place] == 1 && numbers[49 + 2 * place] == 1;
        Figures { totals: &numbers[24 * place..][..24], gains: held.then_some((gains[2 * place], gains[2 * place + 1])) }
    }

    /// The report as numbers, to be kept: [`from_numbers`](Self::from_numbers) makes it again.
    ///
    /// ```
    /// # mod sent { include!(concat!(env!("CARGO_MANIFEST_DIR"), "/examples/sent/mod.rs")); }
    /// # use sent::{a_line, sent};
    /// use m17_modem::{Rate, Report};
    /// let mut report = Report::new();
    /// report.add(Rate::Khz48, &sent(Rate::Khz48, &[a_line("55F7", 1)])?)?;
    /// let (numbers, gains) = report.numbers();
    /// assert_eq!(Report::from_numbers(numbers, gains)?, report);
    /// # Ok::<(), m17_modem::Refusal>(())
    /// ```
    pub fn numbers(&self) -> (&[u64; 52], &[f32; 4]) {
        (&self.totals.numbers, &self.totals.gains)
    }

    /// The report that the numbers are; [`Refusal::RecordUnfit`] where they are none.
    ///
    /// ```
    /// use m17_modem::{Refusal, Report};
    /// assert_eq!(Report::from_numbers(&[0; 52], &[0.0; 4])?, Report::new());
    /// assert_eq!(Report::from_numbers(&[u64::MAX; 52], &[0.0; 4]), Err(Refusal::RecordUnfit));
    /// # Ok::<(), m17_modem::Refusal>(())
    /// ```
    pub fn from_numbers(numbers: &[u64; 52], gains: &[f32; 4]) -> Result<Self, Refusal> {
        let mut made = Self::new();
        done(made.totals.merge(&ffi::Totals { numbers: *numbers, gains: *gains }))?;
        Ok(made)
    }
}

impl fmt::Display for Report {
    /// A table for people: a row for each figure, a column for each rate.
    fn fmt(&self, f: &mut fmt::Formatter<'_>) -> fmt::Result {
        let (first, second) = (self.at(Rate::Khz48), self.at(Rate::Khz24));
        writeln!(f, "{:<24}{:>20}{:>20}", "", "48 kHz", "24 kHz")?;
        for kind in Kind::ALL {
            writeln!(f, "{kind:<7}{:<17}{:>20}{:>20}", "offered", first.offers(kind), second.offers(kind))?;
            writeln!(f, "{kind:<7}{:<17}{:>20}{:>20}", "accepted", first.accepted(kind), second.accepted(kind))?;
            writeln!(f, "{kind:<7}{:<17}{:>20}{:>20}", "rejected", first.rejected(kind), second.rejected(kind))?;
        }
        for age in 1..=11 {
            writeln!(f, "offered at age {age:<9}{:>20}{:>20}", first.offers_at_age(age), second.offers_at_age(age))?;
        }
        writeln!(f, "{:<24}{:>20}{:>20}", "samples with carrier", first.carrier_samples(), second.carrier_samples())?;
        write_gains(f, "smallest gain", [first.smallest_gain(), second.smallest_gain()])?;
        write_gains(f, "largest gain", [first.largest_gain(), second.largest_gain()])
    }
}

fn write_gains(f: &mut fmt::Formatter<'_>, name: &str, gains: [Option<f32>; 2]) -> fmt::Result {
    write!(f, "{name:<24}")?;
    for gain in gains {
        match gain {
            Some(gain) => write!(f, "{gain:>20}")?,
            None => write!(f, "{:>20}", "none")?,
        }
    }
    writeln!(f)
}
