//! Frames out and back, and what the calls that do the same in other ways answer.
use m17_modem::*;
#[path = "../examples/sent/mod.rs"]
mod sent;
use sent::{a_line, sent};

const WORDS: [&str; 4] = ["55F7", "DF55", "FF5D", "75FF"];

/// All offers that a fresh receiver makes, every one accepted.
fn offers(rate: Rate, samples: &[i16]) -> Vec<(Offer, Symbols)> {
    let mut found = vec![];
    let judge = |offer, symbols: &Symbols| {
        found.push((offer, *symbols));
        true
    };
    SoftDemodulator::at(rate).feed_all(samples, judge).unwrap();
    found
}

fn recording(rate: Rate) -> Vec<i16> {
    sent(rate, &[a_line("55F7", 1), a_line("FF5D", 2), a_line("FF5D", 3)]).unwrap()
}

#[test]
fn frames_of_every_kind_come_back_at_both_rates() {
    for rate in [Rate::Khz48, Rate::Khz24] {
        for (kind, word) in Kind::ALL.into_iter().zip(WORDS) {
            let text = a_line(word, 7);
            let found = offers(rate, &sent(rate, std::slice::from_ref(&text)).unwrap());
            let (offer, symbols) = found[0];
            assert_eq!((offer.kind, &line(&symbols)[..96]), (kind, text.as_bytes()));
            assert!(accepts(kind, &symbols) && found.len() == 1);
        }
    }
}

#[test]
fn a_call_a_sample_is_as_in_stretches() {
    for rate in [Rate::Khz48, Rate::Khz24] {
        let samples = recording(rate);
        let mut receiver = SoftDemodulator::at(rate);
        let single: Vec<_> =
            samples.iter().filter_map(|&sample| receiver.demod(sample, |offer, symbols| Some((offer, *symbols))).unwrap()).collect();
        assert!(single.len() == 3 && single == offers(rate, &samples));
    }
}

#[test]
fn a_sample_is_refused_while_a_reply_is_owed() {
    let samples = recording(Rate::Khz48);
    let mut receiver = SoftDemodulator::new();
    let fed = receiver.feed(&samples).unwrap();
    let symbols = *receiver.symbols();
    assert!(matches!(fed.heard, Heard::Offered(_)) && receiver.is_reply_owed());
    assert_eq!(receiver.hear(0), Err(Refusal::ReplyOwed));
    assert_eq!((receiver.count(), *receiver.symbols()), (fed.count as u64, symbols));
    receiver.reply(true).unwrap();
    assert_eq!(receiver.hear(0), Ok(Heard::Quiet));
}

#[test]
fn a_stretch_of_no_samples_is_quiet() {
    assert_eq!(SoftDemodulator::new().feed(&[]), Ok(Fed { count: 0, heard: Heard::Quiet }));
}

#[test]
fn the_list_is_what_the_receiver_offers() {
    for rate in [Rate::Khz48, Rate::Khz24] {
        let samples = recording(rate);
        let (mut numbers, mut symbols) = ([0; 20], [0.0; 768]);
        let listing = list(rate, &samples, &[true; 3], &mut numbers, &mut symbols).unwrap();
        let listed: Vec<_> = listing.offers().map(|o| (o.kind, o.sample, o.taken_at, o.age, o.replaced, *o.symbols)).collect();
        let heard: Vec<_> = offers(rate, &samples).into_iter().map(|(o, s)| (o.kind, o.sample, o.taken_at, o.age, o.replaced, s)).collect();
        assert_eq!(listed, heard);
    }
}

#[test]
fn a_replay_finds_what_the_whole_run_offers() {
    for rate in [Rate::Khz48, Rate::Khz24] {
        let samples = recording(rate);
        let all = offers(rate, &samples);
        let mut room = [0.0; 200];
        for asked in [1, all[0].0.sample, all[0].0.sample + 1, all[2].0.sample] {
            let first = all.iter().find(|(offer, _)| offer.sample >= asked).unwrap();
            assert_eq!(replay(rate, &samples, asked, &mut room), Ok(Some(first.0)));
            assert_eq!(room[..192], first.1);
        }
        assert_eq!(replay(rate, &samples, all[2].0.sample + 1, &mut room), Ok(None));
    }
}

#[test]
fn a_box_that_sends_the_same_is_accepted() {
    let lines = [a_line("55F7", 1), a_line("FF5D", 2)];
    let text = lines.join("\n") + "\n";
    let samples = [vec![0; 30], sent(Rate::Khz48, &lines).unwrap()].concat();
    assert_eq!(check(30, text.as_bytes(), &samples), Ok(Verdict::Yes));
    assert_eq!(check(30, text.as_bytes(), &samples[..100]), Ok(Verdict::Short));
    assert_eq!(check(30, text.as_bytes(), &[&samples[..], &[0]].concat()), Ok(Verdict::Long));
    assert_eq!(check(29, text.as_bytes(), &samples), Ok(Verdict::Differs(30)));
}
