//! Recordings: both receivers from fresh, sample by sample.

use super::flat::{self, floats_differ, receivers_differ, say, Receiver};
use super::flat::{ANSWER, CARRIER, GIVEN, NO_KIND, OFFERED_AT, REFUSAL};
use super::lengths::length;
use super::listings::{self, Offered};
use super::pieces::{self, Singly};
use super::port::{Hearing, Note, Program};
use super::recordings::{recording, Recording};
use super::smallest::{from_the_front, plainer};
use super::tally::Tally;
use super::values::numbered;
use super::{caught, Difference};
use crate::decode::{name, KINDS};
use crate::harness::{lay_replies, take_offer, Offer};
use crate::modem::found::{is_taken, Found};
use crate::modem::kept::Control;
use crate::modem::peek::control;
use crate::modem::{Demodulator, SoftDemodulator};
use crate::random::Random;
use crate::rate::RATE;

/// The longest stretch between two comparisons of the whole rings.
const STRETCH: usize = 4096;

/// The room that is lent: the 192 symbols, and places that must stay as they are.
const ROOM: usize = 200;

/// Recordings until so many samples are compared, or one shows a difference.
pub fn compare(
    program: &mut Program,
    random: &mut Random,
    samples: u64,
    tally: &mut Tally,
) -> Option<Difference> {
    let mut number = 0;
    while tally.samples < samples {
        let recording = recording(random, number);
        number += 1;
        let found = difference(program, &recording.samples, &recording, tally);
        if let Some((at, what)) = found {
            return Some(smallest(program, recording, at, what));
        }
        tally.recordings += 1;
    }
    None
}

/// The shortest beginning, without what can be spared in front, and with zeros where they do.
fn smallest(program: &mut Program, recording: Recording, at: usize, what: String) -> Difference {
    let mut samples = recording.samples.clone();
    samples.truncate(at + 1);
    let mut found = |part: &[i16]| difference(program, part, &recording, &mut Tally::default());
    let mut shows = |part: &[i16]| found(part).is_some();
    from_the_front(&mut samples, &mut shows);
    plainer(&mut samples, 0, &mut shows);
    from_the_front(&mut samples, &mut shows);
    let shown = found(&samples);
    let what = shown.map_or(what, |(at, what)| {
        format!("after sample {}: {what}", at + 1)
    });
    Difference {
        what: format!(
            "receiver, a recording of the kind '{}', {what}",
            recording.name
        ),
        input: format!("replies {}, samples {samples:?}", recording.replies),
    }
}

/// The place of the first sample after which the two differ, and in what. The samples are the recording's or some of them.
fn difference(
    program: &mut Program,
    samples: &[i16],
    recording: &Recording,
    tally: &mut Tally,
) -> Option<(usize, String)> {
    lay_replies(&recording.replies);
    take_offer();
    let mut sides = Sides::new(program, recording.pieces);
    if let Some(what) = receivers_differ(&flat::receiver(&sides.old, sides.found), &sides.port) {
        return Some((0, what));
    }
    let mut at = 0;
    while at < samples.len() {
        let end = (at + STRETCH).min(samples.len());
        match sides.stretch(&samples[at..end], tally) {
            Ok(given) => at += given,
            Err((i, what)) => return Some((at + i, what)),
        }
    }
    let Sides {
        program,
        offers,
        mut lengths,
        ..
    } = sides;
    let replies = &recording.replies;
    listings::compared(program, samples, replies, &offers, &mut lengths, tally)
        .err()
        .map(|what| (samples.len().saturating_sub(1), what))
}

struct Sides<'a> {
    program: &'a mut Program,
    old: SoftDemodulator,
    /// What it does not keep itself.
    found: Found,
    port: Receiver,
    room: [f32; ROOM],
    notes: Vec<Note>,
    /// The last reply.
    accepted: bool,
    /// Where the pieces' lengths come from.
    lengths: Random,
    /// All that the old modem offered.
    offers: Vec<Offered>,
}

impl<'a> Sides<'a> {
    fn new(program: &'a mut Program, pieces: u64) -> Self {
        let mut port = Receiver::empty();
        port.numbers[flat::RECEIVER_RATE] = RATE as u64;
        program.hear(Hearing::Fresh, &mut port, &mut []);
        Sides {
            program,
            old: SoftDemodulator::new(),
            found: Found::default(),
            port,
            room: numbered(ROOM).try_into().expect("as many places"),
            notes: vec![],
            accepted: false,
            lengths: Random::new(pieces),
            offers: vec![],
        }
    }

    /// Samples up to an offer and its reply, or all of them; gives how many.
    fn stretch(&mut self, samples: &[i16], tally: &mut Tally) -> Result<usize, (usize, String)> {
        let before = self.port.clone();
        let room = self.room;
        let listen = Hearing::Listen(samples);
        self.notes = self.program.hear(listen, &mut self.port, &mut self.room);
        let given = self.port.numbers[GIVEN] as usize;
        for (i, &sample) in samples[..given].iter().enumerate() {
            self.sample(i, sample, tally).map_err(|what| (i, what))?;
        }
        let last = given - 1;
        self.bulk(before, samples, tally)
            .map_err(|what| (last, what))?;
        let written = if self.notes[last].numbers[ANSWER] == NO_KIND {
            0
        } else {
            192
        };
        let kept = floats_differ("room, place", &room[written..], &self.room[written..]);
        unequal(kept).map_err(|what| (last, what))?;
        self.room = room;
        match receivers_differ(&flat::receiver(&self.old, self.found), &self.port) {
            Some(what) => Err((last, what)),
            None => {
                tally.whole += 1;
                Ok(given)
            }
        }
    }

    /// One sample to the old modem, held against what the port noted.
    fn sample(&mut self, i: usize, sample: i16, tally: &mut Tally) -> Result<(), String> {
        let before = control(&self.old);
        let frame = caught(|| self.old.demod(sample))?;
        let after = control(&self.old);
        let offer = take_offer();
        let numbers = &self.notes[i].numbers;
        if numbers[REFUSAL] != 0 {
            return Err(format!("the port refuses with {}", numbers[REFUSAL]));
        }
        if frame.is_some() != offer.as_ref().is_some_and(|offer| offer.accepted) {
            return Err("the old modem's frame is not the reply's".to_string());
        }
        tally.samples += 1;
        let kept = self.found;
        let accepted = offer.as_ref().is_some_and(|offer| offer.accepted);
        self.found = kept.next(before, after, accepted);
        count(before, after, offer.as_ref(), tally);
        if let Some(offer) = offer {
            self.offer(i, &offer, kept, before)?;
            self.note_offer(&offer, kept, after);
            tally.marked += u64::from(kept.replaced);
            return self.reply(i, offer.accepted, tally);
        }
        if numbers[ANSWER] != NO_KIND {
            return Err(say("offered kind", "none", numbers[ANSWER]));
        }
        carrier(&self.old, numbers[CARRIER], tally)?;
        unequal(flat::scalars_differ(
            &self.old,
            self.found,
            numbers,
            &self.notes[i].values,
        ))
    }

    /// The sample is finished by the reply; the old modem has finished it already.
    fn reply(&mut self, i: usize, accepted: bool, tally: &mut Tally) -> Result<(), String> {
        self.accepted = accepted;
        let program = &mut self.program;
        program.hear(Hearing::Reply(accepted), &mut self.port, &mut []);
        if self.port.numbers[REFUSAL] != 0 {
            return Err(say("refusal of the reply", 0, self.port.numbers[REFUSAL]));
        }
        program.hear(Hearing::Carrier, &mut self.port, &mut []);
        carrier(&self.old, self.port.numbers[ANSWER], tally)?;
        let floats = &self.port.floats[flat::DIFF..];
        let values = [floats[0], floats[1], floats[2], self.notes[i].values[3]];
        unequal(flat::scalars_differ(
            &self.old,
            self.found,
            &self.port.numbers,
            &values,
        ))
    }

    fn offer(&self, i: usize, offer: &Offer, kept: Found, before: Control) -> Result<(), String> {
        let numbers = &self.notes[i].numbers;
        let kind = KINDS
            .get(numbers[ANSWER] as usize)
            .map_or("none", |&kind| name(kind));
        if kind != offer.kind {
            return Err(say("offered kind", offer.kind, kind));
        }
        let count = control(&self.old).count;
        if numbers[OFFERED_AT] != count {
            return Err(say("the offer's sample number", count, numbers[OFFERED_AT]));
        }
        unequal(flat::reports_differ(kept, before, numbers))?;
        unequal(floats_differ("symbol", &offer.symbols, &self.room[..192]))
    }

    fn note_offer(&mut self, offer: &Offer, kept: Found, after: Control) {
        let kind = KINDS.iter().position(|&kind| name(kind) == offer.kind);
        self.offers.push(Offered {
            numbers: [
                kind.expect("one of the four") as u64,
                after.count,
                kept.taken_at,
                u64::from(kept.age),
                u64::from(kept.replaced),
            ],
            symbols: offer.symbols,
        });
    }

    /// The same stretch by `feed`, in one call and in pieces, with the reply: the port with itself.
    fn bulk(&mut self, before: Receiver, samples: &[i16], tally: &mut Tally) -> Result<(), String> {
        let singly = Singly {
            samples,
            notes: &self.notes,
            room: &self.room,
            accepted: self.accepted,
            left: &self.port,
        };
        pieces::compared(self.program, before.clone(), &singly, || STRETCH)?;
        let lengths = &mut self.lengths;
        tally.pieces += pieces::compared(self.program, before, &singly, || length(lengths))?;
        tally.bulk += self.notes.len() as u64;
        Ok(())
    }
}

/// The Rust's own query always says no (listed); its timer is what is compared.
fn carrier(old: &SoftDemodulator, answer: u64, tally: &mut Tally) -> Result<(), String> {
    let held = control(old).timer.is_some();
    if answer != u64::from(held) {
        return Err(say("carrier (timer held)", held, answer));
    }
    if old.data_carrier_detect() {
        return Err("the old modem's own query says yes".to_string());
    }
    tally.carrier_yes += answer;
    Ok(())
}

fn unequal(what: Option<String>) -> Result<(), String> {
    what.map_or(Ok(()), Err)
}

/// What a sample did, by the old modem's fields before and after it.
fn count(before: Control, after: Control, offer: Option<&Offer>, tally: &mut Tally) {
    let due = before.candidate.filter(|_| before.wait == Some(1));
    let held = if due.is_some() {
        None
    } else {
        before.candidate
    };
    count_timer(before, after, tally);
    let older = held.zip(after.candidate);
    let aged = older.is_some_and(|(held, now)| held.burst == now.burst && now.age == held.age + 1);
    let changed = held != after.candidate;
    let searched = match before.wait {
        None => true,
        Some(left) => left == 1 && !offer.is_some_and(|offer| offer.accepted),
    };
    let took = searched && is_taken(before, after);
    tally.ages += u64::from(changed && aged);
    tally.takes += u64::from(took);
    tally.replaced += u64::from(took && older.is_some_and(|(held, now)| held.burst != now.burst));
    tally.ties += u64::from(took && older.is_some_and(|(held, now)| held.diff == now.diff));
    if after.wait.is_some() && before.wait.is_none_or(|left| left == 1) {
        tally.waits += 1;
        tally.waits_kept += u64::from(changed || took);
    }
    if let Some(offer) = offer {
        count_offer(offer, took, tally);
    }
}

fn count_timer(before: Control, after: Control, tally: &mut Tally) {
    match (before.timer, after.timer) {
        (Some(_), None) => tally.timers_cleared += 1,
        (was, Some(end)) if was != Some(end) => {
            tally.timers_set += 1;
            tally.timers_sooner += u64::from(was.is_some_and(|was| end < was));
        }
        _ => {}
    }
}

fn count_offer(offer: &Offer, took: bool, tally: &mut Tally) {
    tally.offers += 1;
    match offer.kind {
        "lsf" => tally.offers_lsf += 1,
        "bert" => tally.offers_bert += 1,
        "stream" => tally.offers_stream += 1,
        _ => tally.offers_packet += 1,
    }
    if offer.accepted {
        tally.accepted += 1;
    } else {
        tally.rejected += 1;
        tally.taken_on_reject += u64::from(took);
    }
}
