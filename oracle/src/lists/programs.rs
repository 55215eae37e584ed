//! The two programs: texts for send, and recordings for receive in reads of a size, with room for lines.
//! README.md gives the lines' forms.

use crate::house::{bytes, received, sent};
use crate::random::Random;

/// As the program has them: the bytes of a read, the most that a call looks at, and room for a line of each of
/// their samples. And room for one line.
pub const READ: usize = 16_384;
pub const ALL: usize = 794_624;
const ONE: usize = 97;

pub fn write() -> String {
    let mut list = Session::default();
    whole(&mut list);
    several(&mut list);
    not_lossless(&mut list);
    silence(&mut list);
    bad_lines(&mut list);
    list.lines
}

/// The client's whole case, in reads of several sizes, also with room for one line, with an odd byte, and no
/// lines at all.
fn whole(list: &mut Session) {
    list.send("whole", &headed("55F7", '0'));
    for size in [READ, 512, 511, 1] {
        list.receive(size, ALL);
    }
    list.receive(4000, ONE);
    list.append(&[0x5a]);
    list.receive(READ, ALL);
    list.receive(513, ONE);
    list.send("none", "");
    list.receive(READ, ALL);
}

/// A frame of each kind: more than one read of the program, also with reads a byte shorter and a byte longer.
fn several(list: &mut Session) {
    let mut random = Random::new(31);
    let frames = ["55F7", "FF5D", "DF55", "75FF"].map(|word| payload(&mut random, word));
    list.send("several", &frames.concat());
    for size in [READ, READ - 1, READ + 1] {
        list.receive(size, ALL);
    }
    list.receive(4000, 2 * ONE - 1);
}

/// A payload that ends in 75, and a Stream frame after it: the last four symbols of the one and the first four
/// of the other are the Packet burst. DF before an LSF frame makes the BERT burst.
fn not_lossless(list: &mut Session) {
    for (name, tail, word) in [
        ("75-before-stream", "75", "FF5D"),
        ("df-before-lsf", "DF", "55F7"),
    ] {
        let first = format!("55F7{}{tail}\n", "0".repeat(90));
        list.send(name, &(first + &headed(word, '0')));
        list.receive(READ, ALL);
    }
}

fn silence(list: &mut Session) {
    list.zeros(5000);
    list.receive(READ, ALL);
    list.zeros(0);
    list.receive(READ, ALL);
    list.append(&[1]);
    list.receive(READ, ALL);
}

/// Each kind of bad line as the first, the second and the third of three; a line without its line feed can
/// only be the last.
fn bad_lines(list: &mut Session) {
    let good = headed("55F7", 'A');
    let digits = good.trim_end();
    let bad = [
        ("empty", "\n".to_string()),
        ("short", format!("{}\n", &digits[1..])),
        ("long", format!("{digits}0\n")),
        ("lower-case", format!("{}a\n", &digits[1..])),
        ("no-digit", format!("G{}\n", &digits[1..])),
        ("return", format!("{digits}\r\n")),
        ("space", format!("{} \n", &digits[1..])),
        ("nul", format!("{}\0\n", &digits[1..])),
    ];
    for (name, line) in &bad {
        for place in 0..3 {
            let mut lines = [&good; 3];
            lines[place] = line;
            let text: String = lines.map(String::as_str).concat();
            list.send(&format!("{name}-{}", place + 1), &text);
        }
    }
    for (name, end) in [("unended", digits), ("begun", "5"), ("half", &digits[..48])] {
        for before in 0..3 {
            list.send(
                &format!("{name}-{}", before + 1),
                &(good.repeat(before) + end),
            );
        }
    }
}

pub fn headed(word: &str, digit: char) -> String {
    format!("{word}{}\n", digit.to_string().repeat(92))
}

pub fn payload(random: &mut Random, word: &str) -> String {
    let digits: String = (0..92).map(|_| format!("{:X}", random.below(16))).collect();
    format!("{word}{digits}\n")
}

#[derive(Default)]
pub struct Session {
    pub lines: String,
    recording: Vec<u8>,
}

impl Session {
    /// The recording becomes what is sent for the text.
    pub fn send(&mut self, name: &str, text: &str) {
        let sent = sent(text.as_bytes());
        self.recording = bytes(&sent.samples);
        let bad = sent
            .bad
            .map_or(String::new(), |number| format!(" bad line {number}"));
        self.say(&format!(
            "send {name} {} = {} {}{bad}",
            hexadecimal(text.as_bytes()),
            sent.samples.len(),
            adler(&self.recording)
        ));
    }

    fn zeros(&mut self, samples: usize) {
        self.recording = vec![0; 2 * samples];
        self.say(&format!("zeros {samples}"));
    }

    fn append(&mut self, bytes: &[u8]) {
        self.recording.extend_from_slice(bytes);
        self.say(&format!("append {}", hexadecimal(bytes)));
    }

    /// Every sample is moved by the offset.
    pub fn offset(&mut self, by: i16) {
        for sample in self.recording.chunks_exact_mut(2) {
            let moved = i16::from_le_bytes([sample[0], sample[1]]) + by;
            sample.copy_from_slice(&moved.to_le_bytes());
        }
        self.say(&format!("offset {by}"));
    }

    /// Neither the size of the reads nor the room changes what is received.
    pub fn receive(&mut self, size: usize, room: usize) -> Vec<String> {
        let lines = received(&self.recording);
        self.say(&format!("receive {size} {room}"));
        self.lines.push_str(&lines.concat());
        self.say(&format!("found {}", lines.len()));
        lines
    }

    fn say(&mut self, line: &str) {
        self.lines.push_str(line);
        self.lines.push('\n');
    }
}

pub fn hexadecimal(bytes: &[u8]) -> String {
    bytes.iter().map(|byte| format!("{byte:02x}")).collect()
}

/// Adler-32, so that a line tells a whole recording.
fn adler(bytes: &[u8]) -> u32 {
    let (sum, sums) = bytes.iter().fold((1, 0), |(sum, sums), &byte| {
        let sum = (sum + u32::from(byte)) % 65_521;
        (sum, (sums + sum) % 65_521)
    });
    65_536 * sums + sum
}
