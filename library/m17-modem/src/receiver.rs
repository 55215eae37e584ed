//! The receiver.
use crate::offer::fed;
use crate::{done, ffi, Fed, Heard, Offer, Rate, Refusal, Symbols};

/// The receiver: some 9 KB, which own all that it remembers. An exercise has one of its own, so that nothing is carried over.
///
/// ```
/// # mod sent { include!(concat!(env!("CARGO_MANIFEST_DIR"), "/examples/sent/mod.rs")); }
/// # use sent::{a_line, sent};
/// use m17_modem::{accepts, line, Rate, SoftDemodulator};
/// let frames = [a_line("55F7", 1), a_line("FF5D", 2)];
/// let recording = sent(Rate::Khz48, &frames)?;
/// let mut lines = vec![];
/// SoftDemodulator::new().feed_all(&recording, |offer, symbols| {
///     lines.push(String::from_utf8_lossy(&line(symbols)).trim_end().to_string());
///     accepts(offer.kind, symbols)
/// })?;
/// assert_eq!(lines, frames);
/// # Ok::<(), m17_modem::Refusal>(())
/// ```
#[derive(Clone)]
pub struct SoftDemodulator {
    memory: ffi::Receiver,
    room: Symbols,
}

impl Default for SoftDemodulator {
    fn default() -> Self {
        Self::new()
    }
}

impl SoftDemodulator {
    /// A fresh receiver at 48 kHz, as m17core's.
    ///
    /// ```
    /// let receiver = m17_modem::SoftDemodulator::new();
    /// assert_eq!(receiver.count(), 0);
    /// ```
    pub fn new() -> Self {
        Self::at(Rate::Khz48)
    }

    /// A fresh receiver at a rate.
    ///
    /// ```
    /// use m17_modem::{Rate, SoftDemodulator};
    /// let mut receiver = SoftDemodulator::at(Rate::Khz24);
    /// receiver.feed(&[0; 240])?;
    /// assert_eq!(receiver.count(), 240);
    /// # Ok::<(), m17_modem::Refusal>(())
    /// ```
    pub fn at(rate: Rate) -> Self {
        let mut made = Self { memory: ffi::Receiver::zeroed(), room: [0.0; 192] };
        // Both rates are admitted, so that this is never refused.
        made.memory.start(rate.hertz());
        made
    }

    /// Samples up to the first that brings an offer: [`Fed::count`] says how many went in, [`symbols`](Self::symbols) has the frame.
    ///
    /// ```
    /// # mod sent { include!(concat!(env!("CARGO_MANIFEST_DIR"), "/examples/sent/mod.rs")); }
    /// # use sent::{a_line, sent};
    /// use m17_modem::{Heard, Rate, Refusal, SoftDemodulator};
    /// let recording = sent(Rate::Khz48, &[a_line("55F7", 1)])?;
    /// let mut receiver = SoftDemodulator::new();
    /// let fed = receiver.feed(&recording)?;
    /// assert!(matches!(fed.heard, Heard::Offered(_)));
    /// assert_eq!(receiver.feed(&recording[fed.count..]), Err(Refusal::ReplyOwed));
    /// receiver.reply(true)?;
    /// assert_eq!(receiver.feed(&recording[fed.count..])?.heard, Heard::Quiet);
    /// # Ok::<(), m17_modem::Refusal>(())
    /// ```
    pub fn feed(&mut self, samples: &[i16]) -> Result<Fed, Refusal> {
        let mut told = ffi::Told::default();
        let code = self.memory.feed(samples, &mut self.room, &mut told);
        fed(code, &told)
    }

    /// One sample.
    ///
    /// ```
    /// use m17_modem::{Heard, SoftDemodulator};
    /// let mut receiver = SoftDemodulator::new();
    /// assert_eq!(receiver.hear(-5)?, Heard::Quiet);
    /// assert_eq!(receiver.count(), 1);
    /// # Ok::<(), m17_modem::Refusal>(())
    /// ```
    pub fn hear(&mut self, sample: i16) -> Result<Heard, Refusal> {
        Ok(self.feed(&[sample])?.heard)
    }

    /// The reply to an offer: accepted, its sample is finished; rejected, it is searched.
    ///
    /// ```
    /// use m17_modem::{Refusal, SoftDemodulator};
    /// assert_eq!(SoftDemodulator::new().reply(true), Err(Refusal::NoReplyOwed));
    /// ```
    pub fn reply(&mut self, accepted: bool) -> Result<(), Refusal> {
        done(self.memory.reply(accepted))
    }

    /// m17core's `demod`: one sample, and where a frame is due `parse` says what it is, as parse_lsf and its like do; `None` rejects it.
    ///
    /// ```
    /// # mod sent { include!(concat!(env!("CARGO_MANIFEST_DIR"), "/examples/sent/mod.rs")); }
    /// # use sent::{a_line, sent};
    /// use m17_modem::{accepts, line, Rate, SoftDemodulator};
    /// let mut receiver = SoftDemodulator::new();
    /// let mut frames = vec![];
    /// for sample in sent(Rate::Khz48, &[a_line("55F7", 1)])? {
    ///     let parse = |offer: m17_modem::Offer, symbols: &_| accepts(offer.kind, symbols).then(|| line(symbols));
    ///     frames.extend(receiver.demod(sample, parse)?);
    /// }
    /// assert_eq!(frames[0][..96], *a_line("55F7", 1).as_bytes());
    /// # Ok::<(), m17_modem::Refusal>(())
    /// ```
    pub fn demod<F>(&mut self, sample: i16, parse: impl FnOnce(Offer, &Symbols) -> Option<F>) -> Result<Option<F>, Refusal> {
        match self.hear(sample)? {
            Heard::Quiet => Ok(None),
            Heard::Offered(offer) => {
                let frame = parse(offer, &self.room);
                self.reply(frame.is_some())?;
                Ok(frame)
            }
        }
    }

    /// All the samples; `judge` replies to each offer.
    ///
    /// ```
    /// # mod sent { include!(concat!(env!("CARGO_MANIFEST_DIR"), "/examples/sent/mod.rs")); }
    /// # use sent::{a_line, sent};
    /// use m17_modem::{Kind, Rate, SoftDemodulator};
    /// let mut kinds = vec![];
    /// SoftDemodulator::at(Rate::Khz24).feed_all(&sent(Rate::Khz24, &[a_line("75FF", 1)])?, |offer, _| {
    ///     kinds.push(offer.kind);
    ///     true
    /// })?;
    /// assert_eq!(kinds, [Kind::Packet]);
    /// # Ok::<(), m17_modem::Refusal>(())
    /// ```
    pub fn feed_all(&mut self, samples: &[i16], mut judge: impl FnMut(Offer, &Symbols) -> bool) -> Result<(), Refusal> {
        let mut rest = samples;
        while !rest.is_empty() {
            let fed = self.feed(rest)?;
            rest = &rest[fed.count..];
            if let Heard::Offered(offer) = fed.heard {
                let accepted = judge(offer, &self.room);
                self.reply(accepted)?;
            }
        }
        Ok(())
    }

    /// Whether a carrier is heard. m17core's always says no.
    ///
    /// ```
    /// # mod sent { include!(concat!(env!("CARGO_MANIFEST_DIR"), "/examples/sent/mod.rs")); }
    /// # use sent::{a_line, sent};
    /// use m17_modem::{Rate, SoftDemodulator};
    /// let mut receiver = SoftDemodulator::new();
    /// assert!(!receiver.data_carrier_detect());
    /// receiver.feed(&sent(Rate::Khz48, &[a_line("55F7", 1)])?[..1000])?;
    /// assert!(receiver.data_carrier_detect());
    /// # Ok::<(), m17_modem::Refusal>(())
    /// ```
    pub fn data_carrier_detect(&self) -> bool {
        self.memory.carrier() == 1
    }

    /// The symbols of the last offer; zeros before the first.
    ///
    /// ```
    /// # mod sent { include!(concat!(env!("CARGO_MANIFEST_DIR"), "/examples/sent/mod.rs")); }
    /// # use sent::{a_line, sent};
    /// use m17_modem::{line, Rate, SoftDemodulator};
    /// let mut receiver = SoftDemodulator::new();
    /// receiver.feed(&sent(Rate::Khz48, &[a_line("55F7", 1)])?)?;
    /// assert_eq!(line(receiver.symbols())[..96], *a_line("55F7", 1).as_bytes());
    /// # Ok::<(), m17_modem::Refusal>(())
    /// ```
    pub fn symbols(&self) -> &Symbols {
        &self.room
    }

    /// How many samples went in.
    ///
    /// ```
    /// use m17_modem::SoftDemodulator;
    /// let mut receiver = SoftDemodulator::new();
    /// receiver.feed(&[0; 480])?;
    /// assert_eq!(receiver.count(), 480);
    /// # Ok::<(), m17_modem::Refusal>(())
    /// ```
    pub fn count(&self) -> u64 {
        self.memory.numbers()[3]
    }

    /// Whether a reply is owed.
    ///
    /// ```
    /// # mod sent { include!(concat!(env!("CARGO_MANIFEST_DIR"), "/examples/sent/mod.rs")); }
    /// # use sent::{a_line, sent};
    /// use m17_modem::{Rate, SoftDemodulator};
    /// let mut receiver = SoftDemodulator::new();
    /// receiver.feed(&sent(Rate::Khz48, &[a_line("55F7", 1)])?)?;
    /// assert!(receiver.is_reply_owed());
    /// # Ok::<(), m17_modem::Refusal>(())
    /// ```
    pub fn is_reply_owed(&self) -> bool {
        self.memory.numbers()[13] == 1
    }
}
