//! The checker of a transmitter box.
use crate::{ffi, Refusal};

/// Whether samples are what the sender sends.
///
/// ```
/// use m17_modem::{check, Verdict};
/// assert_eq!(check(0, b"", &[])?, Verdict::Short);
/// # Ok::<(), m17_modem::Refusal>(())
/// ```
#[derive(Clone, Copy, Debug, PartialEq, Eq, Hash)]
pub enum Verdict {
    /// They are.
    Yes,
    /// The first sample that is another, counted from 1 with the padding.
    Differs(usize),
    /// All that is there agrees, and more should follow.
    Short,
    /// All that should be there is, and more follows.
    Long,
}

/// Whether `samples`, at 48 kHz, are `padding` zeros and then what a fresh sender sends of a text of frames.
///
/// A text with a bad line is refused before any sample is looked at: [`Refusal::BadLine`] has its number.
///
/// ```
/// # mod sent { include!(concat!(env!("CARGO_MANIFEST_DIR"), "/examples/sent/mod.rs")); }
/// # use sent::{a_line, sent};
/// use m17_modem::{check, Rate, Refusal, Verdict};
/// let lines = a_line("55F7", 1) + "\n";
/// let mut samples = sent(Rate::Khz48, &[a_line("55F7", 1)])?;
/// assert_eq!(check(0, lines.as_bytes(), &samples)?, Verdict::Yes);
/// samples[99] += 1;
/// assert_eq!(check(0, lines.as_bytes(), &samples)?, Verdict::Differs(100));
/// assert_eq!(check(0, b"bad\n", &samples), Err(Refusal::BadLine(1)));
/// # Ok::<(), m17_modem::Refusal>(())
/// ```
pub fn check(padding: usize, lines: &[u8], samples: &[i16]) -> Result<Verdict, Refusal> {
    let mut told = 0;
    match ffi::check(padding as u64, lines, samples, &mut told) {
        0 => Ok(Verdict::Yes),
        1 => Ok(Verdict::Differs(told as usize)),
        2 => Ok(Verdict::Short),
        3 => Ok(Verdict::Long),
        code => Err(Refusal::of(code, told)),
    }
}
