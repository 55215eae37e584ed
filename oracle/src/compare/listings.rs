//! A recording by the slow engine, beside the offers that the old modem made of it.

use super::flat::{floats_differ, say};
use super::port::{Program, LISTED};
use super::tally::Tally;
use crate::random::Random;
use crate::rate::RATE;

/// What the rooms hold before a call: crates/beside_receiver/src/listing.rt lays it.
const UNUSED: u64 = 7_777_777;
const BLANK: f32 = 0.125;

/// An offer of the old modem: kind, sample, taken-at, age and mark, and its symbols.
pub struct Offered {
    pub numbers: [u64; 5],
    pub symbols: [f32; 192],
}

/// With some of the replies, all or more, in room for some offers: often for as many as there are, or for one fewer.
pub fn compared(
    program: &mut Program,
    samples: &[i16],
    replies: &str,
    offers: &[Offered],
    random: &mut Random,
    tally: &mut Tally,
) -> Result<(), String> {
    let replied = random.below(offers.len() + 2).min(replies.len());
    // "ends both at the first unanswered offer, which is listed; replies left over are unread"
    let offers = &offers[..offers.len().min(replied + 1)];
    let room = match random.below(3) {
        0 => offers.len().saturating_sub(1),
        1 => offers.len(),
        _ => (offers.len() + random.below(3)).min(LISTED),
    };
    let listing = program.list(RATE as u64, samples, &replies[..replied], room);
    // "13, room for the list too small, exactly when some offer would not fit"
    let (refusal, listed) = if room < offers.len() {
        (13, &[][..])
    } else {
        (0, offers)
    };
    if (listing.refusal, listing.count) != (refusal, listed.len() as u64) {
        return Err(format!(
            "listed with {replied} replies in room for {room} offers: refusal and offers are {:?}, not {:?}",
            (listing.refusal, listing.count),
            (refusal, listed.len())
        ));
    }
    tally.listings += 1;
    tally.listed += listed.len() as u64;
    tally.listed_unanswered += u64::from(listed.len() > replied);
    if refusal > 0 {
        tally.refused(refusal);
    }
    let mut numbers = [UNUSED; 5 * LISTED];
    let mut symbols = [BLANK; 192 * LISTED];
    for (i, offer) in listed.iter().enumerate() {
        numbers[5 * i..5 * i + 5].copy_from_slice(&offer.numbers);
        symbols[192 * i..192 * i + 192].copy_from_slice(&offer.symbols);
    }
    if listing.numbers != numbers {
        return Err(say(
            "the listed numbers",
            format!("{numbers:?}"),
            format!("{:?}", listing.numbers),
        ));
    }
    floats_differ("listed symbol", &symbols, &listing.symbols).map_or(Ok(()), Err)
}
