//! The exercise runner's loop. With files of bare samples at 48 kHz, each an exercise: a fresh receiver for each, so that nothing is carried
//! over, and a line for each accepted frame. Without, the client's complaint of docs/CARRY-OVER.md: one receiver kept over two exercises, a
//! fresh one for each, and one kept with a pause between them, side by side.
use m17_modem::{accepts, line, Kind, Rate, Refusal, SoftDemodulator};
use sent::{a_line, sent};
use std::error::Error;
use std::io::{self, Write};
use std::{env, fs};

mod sent;

fn main() -> Result<(), Box<dyn Error>> {
    let files: Vec<_> = env::args_os().skip(1).collect();
    if files.is_empty() {
        complaint(Rate::Khz48)?;
        return complaint(Rate::Khz24);
    }
    let mut out = io::stdout().lock();
    for file in files {
        let samples: Vec<i16> = fs::read(&file)?.chunks_exact(2).map(|pair| i16::from_le_bytes([pair[0], pair[1]])).collect();
        out.write_all(&lines(&samples)?)?;
    }
    Ok(())
}

/// The lines of an exercise, by the rule of the program `receive`.
fn lines(samples: &[i16]) -> Result<Vec<u8>, Refusal> {
    let mut lines = vec![];
    SoftDemodulator::new().feed_all(samples, |offer, symbols| {
        let accepted = accepts(offer.kind, symbols);
        if accepted {
            lines.extend(line(symbols));
        }
        accepted
    })?;
    Ok(lines)
}

/// Exercise two breaks off where its Stream burst has just been found, and exercise three is the end of a preamble and an LSF frame.
fn complaint(rate: Rate) -> Result<(), Box<dyn Error>> {
    let each = if rate == Rate::Khz48 { 10 } else { 5 };
    let broken_off = if rate == Rate::Khz48 { 113 } else { 57 };
    let found = (2 * 192 + 15) * each + 1;
    let second = &sent(rate, &[a_line("55F7", 1), a_line("FF5D", 2)])?[found - broken_off..found];
    let due = 37 * each + 1 + 184 * each;
    let third = &sent(rate, &[a_line("55F7", 3)])?[(192 - 22) * each..][..due + 2 * each];
    let pause = vec![0; 400 * each];

    let kept = offers(rate, &[second, third])?;
    let fresh = [offers(rate, &[second])?, offers(rate, &[third])?];
    let paused = offers(rate, &[second, &pause, third])?;

    let invented = (Kind::Stream, (broken_off + 184 * each) as u64);
    println!("{} Hz", rate.hertz());
    println!("  kept                    {kept:?}");
    println!("  fresh for each          {:?}, {:?}", fresh[0], fresh[1]);
    println!("  kept, a pause between   {paused:?}");
    assert_eq!(kept, [invented], "a frame that nobody sent, and the LSF frame is lost");
    assert_eq!(fresh, [vec![], vec![(Kind::Lsf, due as u64)]]);
    assert_eq!(paused, [invented, (Kind::Lsf, (broken_off + pause.len() + due) as u64)]);
    Ok(())
}

/// The kind and the sample of each offer, of exercises that one receiver hears one after the other.
fn offers(rate: Rate, exercises: &[&[i16]]) -> Result<Vec<(Kind, u64)>, Refusal> {
    let mut receiver = SoftDemodulator::at(rate);
    let mut offers = vec![];
    for samples in exercises {
        receiver.feed_all(samples, |offer, _| {
            offers.push((offer.kind, offer.sample));
            true
        })?;
    }
    Ok(offers)
}
