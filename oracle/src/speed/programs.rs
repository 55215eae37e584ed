//! The whole programs over an hour of sound, the port's beside those that the oracle does with the old modem:
//! silence and frames for receive, the lines of these frames for send. Both read a file and write a file.

use super::{median, Random};
use std::fs::{self, File};
use std::path::{Path, PathBuf};
use std::process::{Command, Stdio};
use std::time::{Duration, Instant};

/// Odd, for the median.
const RUNS: usize = 3;

/// An hour, in samples and in frames.
const HOUR: usize = 48_000 * 3600;
const FRAMES: usize = HOUR / 1920;

/// Where the two sides' programs are.
pub struct Sides {
    pub port: PathBuf,
    pub oracle: PathBuf,
}

impl Sides {
    fn command(&self, old: bool, program: &str) -> Command {
        if old {
            let mut command = Command::new(&self.oracle);
            command.arg(program);
            command
        } else {
            Command::new(self.port.join(program))
        }
    }

    fn run(&self, old: bool, program: &str, from: &Path, to: &Path) -> Duration {
        let mut command = self.command(old, program);
        command
            .stdin(Stdio::from(File::open(from).unwrap()))
            .stdout(Stdio::from(File::create(to).unwrap()));
        let start = Instant::now();
        let status = command.status().unwrap();
        let time = start.elapsed();
        assert!(status.success(), "{program} ended with {status}");
        time
    }

    /// Both sides in turn; they must write the same.
    fn compare(&self, name: &str, program: &str, from: &Path, room: &Path) {
        let (ours, theirs) = (room.join("port"), room.join("oracle"));
        let mut times: [Vec<Duration>; 2] = Default::default();
        for _ in 0..RUNS {
            times[0].push(self.run(false, program, from, &ours));
            times[1].push(self.run(true, program, from, &theirs));
        }
        let wrote = fs::read(&ours).unwrap();
        assert!(
            wrote == fs::read(&theirs).unwrap(),
            "{program} does not write what the old modem's does"
        );
        let [new, old] = times.map(median);
        println!(
            "{program:<8} {name:<8} {:>12} {:>6.2}",
            wrote.len(),
            new / old
        );
    }
}

pub fn programs(sides: &Sides, room: &Path) {
    println!("program  input    bytes written  ratio");
    fs::create_dir_all(room).unwrap();
    let [silence, text, frames] = ["silence", "text", "frames"].map(|name| room.join(name));
    File::create(&silence)
        .unwrap()
        .set_len(2 * HOUR as u64)
        .unwrap();
    let mut random = Random::new(22);
    let lines: String = (0..FRAMES)
        .map(|_| {
            let digits: String = (0..92).map(|_| format!("{:X}", random.below(16))).collect();
            format!("FF5D{digits}\n")
        })
        .collect();
    fs::write(&text, lines).unwrap();
    sides.run(true, "send", &text, &frames);
    sides.compare("silence", "receive", &silence, room);
    sides.compare("frames", "receive", &frames, room);
    sides.compare("frames", "send", &text, room);
    fs::remove_dir_all(room).unwrap();
}
