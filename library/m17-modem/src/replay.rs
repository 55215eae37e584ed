//! A replay opened in the middle of a recording.
use crate::{ffi, Kind, Offer, Rate, Refusal};

/// The first offer due at sample `sample` of the recording or after it, numbered in the recording from 1; its symbols are the first 192
/// of `room`.
///
/// It is what a run over the whole recording with the rule of [`accepts`](crate::accepts) offers, heard from the last pause before the sample.
///
/// ```
/// # mod sent { include!(concat!(env!("CARGO_MANIFEST_DIR"), "/examples/sent/mod.rs")); }
/// # use sent::{a_line, sent};
/// use m17_modem::{replay, Kind, Rate, Refusal};
/// let recording = sent(Rate::Khz48, &[a_line("55F7", 1), a_line("FF5D", 2)])?;
/// let mut room = [0.0; 192];
/// let found = replay(Rate::Khz48, &recording, 5000, &mut room)?.expect("the second frame");
/// assert_eq!(found.kind, Kind::Stream);
/// assert_eq!(replay(Rate::Khz48, &recording, 0, &mut room), Err(Refusal::NoSuchSample));
/// # Ok::<(), m17_modem::Refusal>(())
/// ```
pub fn replay(rate: Rate, recording: &[i16], sample: u64, room: &mut [f32]) -> Result<Option<Offer>, Refusal> {
    let (mut told, mut gain) = ([0; 4], [0.0]);
    let code = ffi::replay(rate.hertz(), recording, sample, room, &mut told, &mut gain);
    let [sample, taken_at, age, replaced] = told;
    match (code, Kind::of(code)) {
        (0, _) => Ok(None),
        (_, Some(kind)) => Ok(Some(Offer { kind, sample, taken_at, age: age as u8, replaced: replaced != 0, gain: gain[0] })),
        _ => Err(Refusal::of(code, 0)),
    }
}
