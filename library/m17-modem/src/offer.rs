//! What samples are answered with.
use crate::{ffi, Kind, Refusal};

/// A frame that is due.
///
/// ```
/// # mod sent { include!(concat!(env!("CARGO_MANIFEST_DIR"), "/examples/sent/mod.rs")); }
/// # use sent::{a_line, sent};
/// use m17_modem::{Kind, Rate, SoftDemodulator};
/// let mut found = vec![];
/// SoftDemodulator::new().feed_all(&sent(Rate::Khz48, &[a_line("55F7", 1)])?, |offer, _| {
///     found.push(offer);
///     true
/// })?;
/// assert_eq!((found[0].kind, found[0].sample - found[0].taken_at), (Kind::Lsf, 1840));
/// assert!(found[0].age == 1 && !found[0].replaced && found[0].gain > 16.0);
/// # Ok::<(), m17_modem::Refusal>(())
/// ```
#[derive(Clone, Copy, Debug, PartialEq)]
pub struct Offer {
    /// The frame's kind.
    pub kind: Kind,
    /// The number of the sample at which the frame is due, from 1.
    pub sample: u64,
    /// The number of the sample at which its burst was taken.
    pub taken_at: u64,
    /// The age at which its wait was set, 1 to 11.
    pub age: u8,
    /// A later-listed kind replaced the candidate on the sample that set the wait, and the frame is that kind's.
    pub replaced: bool,
    /// What its symbols were divided by: how loud the burst was.
    pub gain: f32,
}

/// What samples are answered with.
///
/// ```
/// use m17_modem::{Heard, SoftDemodulator};
/// assert_eq!(SoftDemodulator::new().hear(100)?, Heard::Quiet);
/// # Ok::<(), m17_modem::Refusal>(())
/// ```
#[derive(Clone, Copy, Debug, PartialEq)]
pub enum Heard {
    /// No frame is due.
    Quiet,
    /// A frame is due, and a reply is owed.
    Offered(Offer),
}

/// What came of a stretch of samples.
///
/// ```
/// use m17_modem::{Fed, Heard, SoftDemodulator};
/// let fed = SoftDemodulator::new().feed(&[0; 480])?;
/// assert_eq!(fed, Fed { count: 480, heard: Heard::Quiet });
/// # Ok::<(), m17_modem::Refusal>(())
/// ```
#[derive(Clone, Copy, Debug, PartialEq)]
pub struct Fed {
    /// How many samples went in, the one that brought an offer among them. The rest is to be fed after the reply.
    pub count: usize,
    /// What they are answered with.
    pub heard: Heard,
}

/// What a feed is answered with, of its code and what it told.
pub(crate) fn fed(code: u32, told: &ffi::Told) -> Result<Fed, Refusal> {
    let [count, sample, taken_at, age, replaced] = told.numbers;
    let heard = match (code, Kind::of(code)) {
        (0, _) => Heard::Quiet,
        (_, Some(kind)) => Heard::Offered(Offer { kind, sample, taken_at, age: age as u8, replaced: replaced != 0, gain: told.gain[0] }),
        _ => return Err(Refusal::of(code, 0)),
    };
    Ok(Fed { count: count as usize, heard })
}
