//! The slow engine's list of a recording's offers.
use crate::{ffi, Kind, Rate, Refusal, Symbols};

/// An offer of the list. The slow engine tells no gain.
///
/// ```
/// # mod sent { include!(concat!(env!("CARGO_MANIFEST_DIR"), "/examples/sent/mod.rs")); }
/// # use sent::{a_line, sent};
/// use m17_modem::{list, Rate, SoftDemodulator};
/// let recording = sent(Rate::Khz48, &[a_line("55F7", 1)])?;
/// let (mut numbers, mut symbols) = ([0; 5], [0.0; 192]);
/// let first = list(Rate::Khz48, &recording, &[], &mut numbers, &mut symbols)?.get(0).expect("an offer");
/// let mut receiver = SoftDemodulator::new();
/// receiver.feed(&recording)?;
/// assert_eq!((first.sample, first.symbols), (receiver.count(), receiver.symbols()));
/// # Ok::<(), m17_modem::Refusal>(())
/// ```
#[derive(Clone, Copy, Debug, PartialEq)]
pub struct Listed<'a> {
    /// The frame's kind.
    pub kind: Kind,
    /// The number of the sample at which the frame is due, from 1.
    pub sample: u64,
    /// The number of the sample at which its burst was taken.
    pub taken_at: u64,
    /// The age at which its wait was set, 1 to 11.
    pub age: u8,
    /// A later-listed kind replaced the candidate on the sample that set the wait, and the frame is that kind's.
    pub replaced: bool,
    /// The frame's symbols.
    pub symbols: &'a Symbols,
}

/// The offers of a recording, in their order, in the room that was lent for them.
///
/// ```
/// # mod sent { include!(concat!(env!("CARGO_MANIFEST_DIR"), "/examples/sent/mod.rs")); }
/// # use sent::{a_line, sent};
/// use m17_modem::{list, Kind, Rate};
/// let recording = sent(Rate::Khz48, &[a_line("55F7", 1), a_line("FF5D", 2)])?;
/// let (mut numbers, mut symbols) = ([0; 5 * 8], [0.0; 192 * 8]);
/// let listing = list(Rate::Khz48, &recording, &[true; 8], &mut numbers, &mut symbols)?;
/// assert_eq!(listing.len(), 2);
/// # Ok::<(), m17_modem::Refusal>(())
/// ```
#[derive(Clone, Copy, Debug, PartialEq)]
pub struct Listing<'a> {
    numbers: &'a [u64],
    symbols: &'a [f32],
}

/// The offers of a [`Listing`], one after the other.
///
/// ```
/// # mod sent { include!(concat!(env!("CARGO_MANIFEST_DIR"), "/examples/sent/mod.rs")); }
/// # use sent::{a_line, sent};
/// use m17_modem::{list, Kind, Rate};
/// let recording = sent(Rate::Khz48, &[a_line("55F7", 1), a_line("FF5D", 2)])?;
/// let (mut numbers, mut symbols) = ([0; 5 * 8], [0.0; 192 * 8]);
/// let listing = list(Rate::Khz48, &recording, &[true; 8], &mut numbers, &mut symbols)?;
/// let mut offers = listing.offers();
/// assert_eq!(offers.next().map(|offer| offer.kind), Some(Kind::Lsf));
/// # Ok::<(), m17_modem::Refusal>(())
/// ```
#[derive(Clone, Debug)]
pub struct Offers<'a> {
    listing: Listing<'a>,
    next: usize,
}

/// The offers of a recording of at most 65,536 samples, by the rules alone, from a fresh start: five places of `numbers` and 192 of `symbols`
/// for each. `replies` are the replies to them in turn, `true` for accepted; the offer after the last of them ends the list.
///
/// ```
/// # mod sent { include!(concat!(env!("CARGO_MANIFEST_DIR"), "/examples/sent/mod.rs")); }
/// # use sent::{a_line, sent};
/// use m17_modem::{list, Kind, Rate};
/// let recording = sent(Rate::Khz48, &[a_line("55F7", 1), a_line("FF5D", 2)])?;
/// let (mut numbers, mut symbols) = ([0; 5 * 8], [0.0; 192 * 8]);
/// let listing = list(Rate::Khz48, &recording, &[true; 8], &mut numbers, &mut symbols)?;
/// let kinds: Vec<_> = listing.into_iter().map(|offer| offer.kind).collect();
/// assert_eq!(kinds, [Kind::Lsf, Kind::Stream]);
/// # Ok::<(), m17_modem::Refusal>(())
/// ```
pub fn list<'a>(
    rate: Rate,
    recording: &[i16],
    replies: &[bool],
    numbers: &'a mut [u64],
    symbols: &'a mut [f32],
) -> Result<Listing<'a>, Refusal> {
    let mut told = 0;
    crate::done(ffi::list(rate.hertz(), recording, replies, numbers, symbols, &mut told))?;
    let many = told as usize;
    Ok(Listing { numbers: &numbers[..5 * many], symbols: &symbols[..192 * many] })
}

impl<'a> Listing<'a> {
    /// How many offers there are.
    ///
    /// ```
    /// # mod sent { include!(concat!(env!("CARGO_MANIFEST_DIR"), "/examples/sent/mod.rs")); }
    /// # use sent::{a_line, sent};
    /// use m17_modem::{list, Kind, Rate};
    /// let recording = sent(Rate::Khz48, &[a_line("55F7", 1), a_line("FF5D", 2)])?;
    /// let (mut numbers, mut symbols) = ([0; 5 * 8], [0.0; 192 * 8]);
    /// let listing = list(Rate::Khz48, &recording, &[], &mut numbers, &mut symbols)?;
    /// assert_eq!(listing.len(), 1, "the first offer has no reply, and ends the list");
    /// # Ok::<(), m17_modem::Refusal>(())
    /// ```
    pub fn len(&self) -> usize {
        self.numbers.len() / 5
    }

    /// Whether there is none.
    ///
    /// ```
    /// use m17_modem::{list, Rate};
    /// assert!(list(Rate::Khz24, &[0; 4000], &[], &mut [], &mut [])?.is_empty());
    /// # Ok::<(), m17_modem::Refusal>(())
    /// ```
    pub fn is_empty(&self) -> bool {
        self.numbers.is_empty()
    }

    /// An offer by its place, from 0.
    ///
    /// ```
    /// # mod sent { include!(concat!(env!("CARGO_MANIFEST_DIR"), "/examples/sent/mod.rs")); }
    /// # use sent::{a_line, sent};
    /// use m17_modem::{list, Kind, Rate};
    /// let recording = sent(Rate::Khz48, &[a_line("55F7", 1), a_line("FF5D", 2)])?;
    /// let (mut numbers, mut symbols) = ([0; 5 * 8], [0.0; 192 * 8]);
    /// let listing = list(Rate::Khz48, &recording, &[true; 8], &mut numbers, &mut symbols)?;
    /// assert_eq!(listing.get(1).map(|offer| offer.kind), Some(Kind::Stream));
    /// assert_eq!(listing.get(2), None);
    /// # Ok::<(), m17_modem::Refusal>(())
    /// ```
    pub fn get(&self, place: usize) -> Option<Listed<'a>> {
        let numbers = self.numbers.chunks_exact(5).nth(place)?;
        let symbols = self.symbols.chunks_exact(192).nth(place)?.try_into().ok()?;
        let kind = *Kind::ALL.get(numbers[0] as usize)?;
        Some(Listed { kind, sample: numbers[1], taken_at: numbers[2], age: numbers[3] as u8, replaced: numbers[4] != 0, symbols })
    }

    /// The offers in their order.
    ///
    /// ```
    /// # mod sent { include!(concat!(env!("CARGO_MANIFEST_DIR"), "/examples/sent/mod.rs")); }
    /// # use sent::{a_line, sent};
    /// use m17_modem::{list, Kind, Rate};
    /// let recording = sent(Rate::Khz48, &[a_line("55F7", 1), a_line("FF5D", 2)])?;
    /// let (mut numbers, mut symbols) = ([0; 5 * 8], [0.0; 192 * 8]);
    /// let listing = list(Rate::Khz48, &recording, &[true; 8], &mut numbers, &mut symbols)?;
    /// assert!(listing.offers().all(|offer| offer.sample - offer.taken_at == 1840));
    /// # Ok::<(), m17_modem::Refusal>(())
    /// ```
    pub fn offers(&self) -> Offers<'a> {
        Offers { listing: *self, next: 0 }
    }
}

impl<'a> IntoIterator for Listing<'a> {
    type Item = Listed<'a>;
    type IntoIter = Offers<'a>;

    fn into_iter(self) -> Offers<'a> {
        self.offers()
    }
}

impl<'a> Iterator for Offers<'a> {
    type Item = Listed<'a>;

    fn next(&mut self) -> Option<Listed<'a>> {
        let offer = self.listing.get(self.next)?;
        self.next += 1;
        Some(offer)
    }
}
