//! The figures of one rate.
use crate::Kind;

/// The figures of one rate.
///
/// ```
/// use m17_modem::{Kind, Rate, Report};
/// let empty = Report::new();
/// let figures = empty.at(Rate::Khz48);
/// assert!(Kind::ALL.iter().all(|&kind| figures.offers(kind) == 0));
/// ```
#[derive(Clone, Copy, Debug, PartialEq)]
pub struct Figures<'a> {
    pub(crate) totals: &'a [u64],
    pub(crate) gains: Option<(f32, f32)>,
}

impl Figures<'_> {
    /// The offers of a kind.
    ///
    /// ```
    /// # mod sent { include!(concat!(env!("CARGO_MANIFEST_DIR"), "/examples/sent/mod.rs")); }
    /// # use sent::{a_line, sent};
    /// use m17_modem::{Kind, Rate, Report};
    /// let mut report = Report::new();
    /// report.add(Rate::Khz48, &sent(Rate::Khz48, &[a_line("55F7", 1)])?)?;
    /// let figures = report.at(Rate::Khz48);
    /// assert_eq!(figures.offers(Kind::Lsf), 1);
    /// # Ok::<(), m17_modem::Refusal>(())
    /// ```
    pub fn offers(&self, kind: Kind) -> u64 {
        self.totals[kind as usize]
    }

    /// The offers of a kind that were accepted.
    ///
    /// ```
    /// # mod sent { include!(concat!(env!("CARGO_MANIFEST_DIR"), "/examples/sent/mod.rs")); }
    /// # use sent::{a_line, sent};
    /// use m17_modem::{Kind, Rate, Report};
    /// let mut report = Report::new();
    /// report.add(Rate::Khz48, &sent(Rate::Khz48, &[a_line("55F7", 1)])?)?;
    /// let figures = report.at(Rate::Khz48);
    /// assert_eq!(figures.accepted(Kind::Lsf), 1);
    /// # Ok::<(), m17_modem::Refusal>(())
    /// ```
    pub fn accepted(&self, kind: Kind) -> u64 {
        self.totals[4 + kind as usize]
    }

    /// The offers of a kind that were rejected.
    ///
    /// ```
    /// # mod sent { include!(concat!(env!("CARGO_MANIFEST_DIR"), "/examples/sent/mod.rs")); }
    /// # use sent::{a_line, sent};
    /// use m17_modem::{Kind, Rate, Report};
    /// let mut report = Report::new();
    /// report.add(Rate::Khz48, &sent(Rate::Khz48, &[a_line("55F7", 1)])?)?;
    /// let figures = report.at(Rate::Khz48);
    /// assert_eq!(figures.rejected(Kind::Lsf), 0);
    /// # Ok::<(), m17_modem::Refusal>(())
    /// ```
    pub fn rejected(&self, kind: Kind) -> u64 {
        self.totals[8 + kind as usize]
    }

    /// The offers whose wait was set at an age, 1 to 11; of another age there is none.
    ///
    /// ```
    /// # mod sent { include!(concat!(env!("CARGO_MANIFEST_DIR"), "/examples/sent/mod.rs")); }
    /// # use sent::{a_line, sent};
    /// use m17_modem::{Kind, Rate, Report};
    /// let mut report = Report::new();
    /// report.add(Rate::Khz48, &sent(Rate::Khz48, &[a_line("55F7", 1)])?)?;
    /// let figures = report.at(Rate::Khz48);
    /// assert_eq!((1..=11).map(|age| figures.offers_at_age(age)).sum::<u64>(), figures.offers(Kind::Lsf));
    /// # Ok::<(), m17_modem::Refusal>(())
    /// ```
    pub fn offers_at_age(&self, age: u8) -> u64 {
        match age {
            1..=11 => self.totals[11 + usize::from(age)],
            _ => 0,
        }
    }

    /// The samples after which the carrier is held.
    ///
    /// ```
    /// # mod sent { include!(concat!(env!("CARGO_MANIFEST_DIR"), "/examples/sent/mod.rs")); }
    /// # use sent::{a_line, sent};
    /// use m17_modem::{Rate, Report};
    /// let mut report = Report::new();
    /// report.add(Rate::Khz48, &sent(Rate::Khz48, &[a_line("55F7", 1)])?)?;
    /// let figures = report.at(Rate::Khz48);
    /// assert!(figures.carrier_samples() > 1920);
    /// # Ok::<(), m17_modem::Refusal>(())
    /// ```
    pub fn carrier_samples(&self) -> u64 {
        self.totals[23]
    }

    /// The smallest gain of an offer, if there is one.
    ///
    /// ```
    /// # mod sent { include!(concat!(env!("CARGO_MANIFEST_DIR"), "/examples/sent/mod.rs")); }
    /// # use sent::{a_line, sent};
    /// use m17_modem::{Rate, Report};
    /// let mut report = Report::new();
    /// report.add(Rate::Khz48, &sent(Rate::Khz48, &[a_line("55F7", 1)])?)?;
    /// let figures = report.at(Rate::Khz48);
    /// assert!(figures.smallest_gain() >= Some(16.0));
    /// # Ok::<(), m17_modem::Refusal>(())
    /// ```
    pub fn smallest_gain(&self) -> Option<f32> {
        self.gains.map(|(smallest, _)| smallest)
    }

    /// The largest gain of an offer, if there is one.
    ///
    /// ```
    /// # mod sent { include!(concat!(env!("CARGO_MANIFEST_DIR"), "/examples/sent/mod.rs")); }
    /// # use sent::{a_line, sent};
    /// use m17_modem::{Rate, Report};
    /// let mut report = Report::new();
    /// report.add(Rate::Khz48, &sent(Rate::Khz48, &[a_line("55F7", 1)])?)?;
    /// let figures = report.at(Rate::Khz48);
    /// assert!(figures.largest_gain() >= figures.smallest_gain());
    /// # Ok::<(), m17_modem::Refusal>(())
    /// ```
    pub fn largest_gain(&self) -> Option<f32> {
        self.gains.map(|(_, largest)| largest)
    }
}
