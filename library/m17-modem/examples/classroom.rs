//! A classroom: eight seats at one desk, each with an exercise of its own, their samples in turns. Then one seat's calls are given again
//! alone, to another seat of another desk, and are answered as they were.
use m17_modem::{accepts, line, Desk, Heard, Offer, Rate, Refusal, Seat};
use sent::{a_line, sent};

mod sent;

/// What a seat is answered: its offers, and the lines of those that were accepted.
type Answers = Vec<(Offer, Option<String>)>;

/// As many samples as a sound card gives at once.
const PIECE: usize = 480;

fn main() -> Result<(), Refusal> {
    let exercises: Vec<(Rate, Vec<i16>)> = (0..8)
        .map(|seat| {
            let rate = if seat % 2 == 0 { Rate::Khz48 } else { Rate::Khz24 };
            Ok((rate, exercise(rate, seat)?))
        })
        .collect::<Result<_, Refusal>>()?;

    let mut desk = Box::new(Desk::new());
    for (seat, (rate, _)) in Seat::ALL.into_iter().zip(&exercises) {
        desk.open(seat, *rate)?;
    }
    let mut answers: [Answers; 8] = Default::default();
    let longest = exercises.iter().map(|(_, samples)| samples.len()).max().unwrap_or(0);
    for at in (0..longest).step_by(PIECE) {
        for (seat, (_, samples)) in Seat::ALL.into_iter().zip(&exercises) {
            let piece = &samples[at.min(samples.len())..(at + PIECE).min(samples.len())];
            hear(&mut desk, seat, piece, &mut answers[seat.number()])?;
        }
    }
    for seat in Seat::ALL {
        println!("seat {}: {} offers, carrier {}", seat.number(), answers[seat.number()].len(), desk.data_carrier_detect(seat)?);
    }

    // The replay: seat 5's exercise alone, at seat 2 of a fresh desk.
    let (replayed, at) = (Seat::of(5)?, Seat::of(2)?);
    let (rate, samples) = &exercises[replayed.number()];
    let mut alone = Box::new(Desk::new());
    alone.open(at, *rate)?;
    let mut again = vec![];
    for piece in samples.chunks(PIECE) {
        hear(&mut alone, at, piece, &mut again)?;
    }
    assert!(!again.is_empty() && again == answers[replayed.number()], "a replay of one seat is the session again");
    println!("seat 5 replayed alone: the same {} answers", again.len());
    Ok(())
}

/// All of a piece, each offer replied to by the rule of the program `receive`.
fn hear(desk: &mut Desk, seat: Seat, piece: &[i16], answers: &mut Answers) -> Result<(), Refusal> {
    let mut room = [0.0; 192];
    let mut rest = piece;
    while !rest.is_empty() {
        let fed = desk.feed(seat, rest, &mut room)?;
        rest = &rest[fed.count..];
        if let Heard::Offered(offer) = fed.heard {
            let accepted = accepts(offer.kind, &room);
            desk.reply(seat, accepted)?;
            answers.push((offer, accepted.then(|| String::from_utf8_lossy(&line(&room)).into_owned())));
        }
    }
    Ok(())
}

/// A seat's exercise: an LSF frame and as many Stream frames as its number says, each of a payload of its own.
fn exercise(rate: Rate, seat: u64) -> Result<Vec<i16>, Refusal> {
    let lines: Vec<_> = (0..=seat).map(|frame| a_line(if frame == 0 { "55F7" } else { "FF5D" }, 100 * seat + frame)).collect();
    sent(rate, &lines)
}
