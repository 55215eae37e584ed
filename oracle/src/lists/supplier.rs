//! Request m: what the old sender sends of a text, whole and damaged, and what a checker says of it, written
//! from document 02. The Rust refuses nothing: the refusals are by hand. README.md gives the lines' forms.

use crate::house::sent;
use crate::lists::programs::{headed, hexadecimal, payload};
use crate::random::Random;

const SAMPLE: &str = include_str!("../../../sample/frames.txt");

/// Samples of a preamble, of a frame and of the end, and the zeros that are last.
const PART: usize = 1920;
const END: usize = 2720;
const ZEROS: usize = 729;

/// The largest padding count.
const MOST: usize = 122_400;

pub fn write() -> String {
    let mut random = Random::new(41);
    let frames = ["55F7", "FF5D", "DF55", "75FF"].map(|word| payload(&mut random, word));
    let mut list = String::new();
    for (name, text) in [
        ("none", ""),
        ("sample", SAMPLE),
        ("several", &frames.concat()),
    ] {
        let stretch = Stretch::new(&mut list, name, text);
        for padding in [0, 1, 480] {
            stretch.whole(&mut list, padding);
            stretch.damaged(&mut list, padding, &mut random);
        }
        stretch.whole(&mut list, MOST);
    }
    refusals(&mut list);
    list
}

/// What the old sender sends of a text.
struct Stretch(Vec<i16>);

impl Stretch {
    fn new(list: &mut String, name: &str, text: &str) -> Self {
        put_text(list, name, text);
        let samples = sent(text.as_bytes()).samples;
        for piece in samples.chunks(64) {
            let digits: String = piece.iter().map(|sample| format!("{sample:04x}")).collect();
            list.push_str(&format!("samples {digits}\n"));
        }
        Stretch(samples)
    }

    /// All of it; one sample fewer and one more; a padding that is not the stated one.
    fn whole(&self, list: &mut String, padding: usize) {
        let all = padding + self.0.len();
        for length in [all, all - 1, all + 1] {
            self.check(list, padding, padding, length, None);
        }
        self.check(list, padding, padding + 1, all + 1, None);
        if 0 < padding {
            self.check(list, padding, padding - 1, all - 1, None);
        }
    }

    /// Cut at each kind of place, and one sample changed in each part, with the length right and wrong.
    fn damaged(&self, list: &mut String, padding: usize, random: &mut Random) {
        let all = padding + self.0.len();
        let end = all - END;
        let cuts = [
            0,
            padding / 2,
            padding,
            padding + 7,
            padding + PART,
            padding + PART + 77,
            end,
            end + 1000,
            all - ZEROS,
        ];
        for length in each(cuts.to_vec()) {
            self.check(list, padding, padding, length, None);
        }
        let mut places = vec![
            1,
            1.max(padding / 2),
            1.max(padding),
            padding + 1,
            padding + 2,
            padding + PART,
            padding + PART + 1,
            padding + PART + 960,
            end,
            end + 1,
            all - ZEROS,
            all - ZEROS + 1,
            all,
        ];
        places.extend((0..4).map(|_| 1 + random.below(all)));
        for place in each(places) {
            let by = *random.pick(&[1, 0x7fff, 0x8000, 0xffff]);
            self.check(list, padding, padding, all, Some((place, by)));
        }
        for (place, length) in [
            (all - 3, all - 2),
            (all - 2, all - 2),
            (all - 1, all - 2),
            (all, all + 1),
            (all + 1, all + 1),
        ] {
            self.check(list, padding, padding, length, Some((place, 1)));
        }
    }

    /// "says yes exactly if the samples are the sender's own .. Otherwise it tells the first sample that differs
    /// or, where all present agree, that the stretch is short or long."
    fn check(
        &self,
        list: &mut String,
        padding: usize,
        zeros: usize,
        length: usize,
        raised: Option<(usize, u16)>,
    ) {
        let ours: Vec<i16> = [&vec![0; padding], &self.0[..]].concat();
        let mut stretch = [&vec![0; zeros], &self.0[..]].concat();
        stretch.resize(length, 0);
        let (place, by) = raised.unwrap_or((0, 0));
        if let Some(sample) = place.checked_sub(1).and_then(|i| stretch.get_mut(i)) {
            *sample = (*sample as u16).wrapping_add(by) as i16;
        }
        let answer = match ours
            .iter()
            .zip(&stretch)
            .position(|(own, other)| own != other)
        {
            Some(i) => format!("differs {}", i + 1),
            None if length < ours.len() => "short".to_string(),
            None if length > ours.len() => "long".to_string(),
            None => "yes".to_string(),
        };
        put_check(list, padding, zeros, length, (place, by), &answer);
    }
}

/// Each number once, in order.
fn each(mut numbers: Vec<usize>) -> Vec<usize> {
    numbers.sort();
    numbers.dedup();
    numbers
}

/// Each is as the phrase before it says, whatever the samples are: none, zeros, one wrong, or what `send` writes
/// of the text.
fn refusals(list: &mut String) {
    let good = headed("55F7", 'A');
    let digits = good.trim_end();
    let cut = &digits[1..];
    let bad = [
        ("return", format!("{digits}\r\n")),
        ("lower-case", format!("{cut}a\n")),
        ("short", format!("{cut}\n")),
        ("long", format!("{digits}0\n")),
        ("empty", "\n".to_string()),
    ];
    because(
        list,
        "Any line that is not 96 capital digits and a line feed is bad",
    );
    for (name, line) in &bad {
        put_text(list, &format!("{name}-1"), line);
        put_check(list, 0, 0, 0, (0, 0), "refused 17 1");
        put_text(list, &format!("{name}-2"), &format!("{good}{line}{good}"));
        put_check(list, 480, 480, 4000, (3, 1), "refused 17 2");
    }
    because(list, "a last one without its line feed too");
    for (name, end) in [("unended", digits), ("begun", "5")] {
        put_text(list, name, &format!("{good}{good}{end}"));
        put_check(list, 0, 0, 4640, (0, 0), "refused 17 3");
    }
    because(list, "8, a padding count above 122,400");
    put_text(list, "good", &good);
    put_check(list, MOST, MOST, MOST, (0, 0), "short");
    put_check(list, MOST + 1, MOST + 1, MOST + 1, (0, 0), "refused 8");
    put_check(list, 16_777_216, 0, 0, (0, 0), "refused 8");
    because(list, "Where several apply, the smallest number is given");
    put_text(list, "empty", "\n");
    put_check(list, MOST, 0, 0, (0, 0), "refused 17 1");
    put_check(list, MOST + 1, 0, 0, (0, 0), "refused 8");
    because(list, "before any sample is looked at");
    let sent = Stretch::new(list, "empty", "\n");
    put_check(list, 0, 0, sent.0.len(), (0, 0), "refused 17 1");
}

fn because(list: &mut String, phrase: &str) {
    list.push_str(&format!("because {phrase}\n"));
}

fn put_text(list: &mut String, name: &str, text: &str) {
    list.push_str(&format!("text {name} {}\n", hexadecimal(text.as_bytes())));
}

fn put_check(
    list: &mut String,
    padding: usize,
    zeros: usize,
    length: usize,
    (place, by): (usize, u16),
    answer: &str,
) {
    list.push_str(&format!(
        "check {padding} {zeros} {length} {place} {by} = {answer}\n"
    ));
}
