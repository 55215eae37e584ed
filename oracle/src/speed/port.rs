//! The port's program `speed`, started once and asked job after job. A job's time is taken from the byte that
//! begins it to its checksum: neither the start nor the reading of the data is in it.

use crate::rate::RATE;
use std::io::{Read, Write};
use std::path::Path;
use std::process::{Child, ChildStdin, ChildStdout, Command, Stdio};
use std::time::{Duration, Instant};

/// The letters by which the program knows its jobs.
#[derive(Clone, Copy)]
pub enum Job {
    Demod = b'd' as isize,
    Feed = b'f' as isize,
    List = b'l' as isize,
    Open = b'o' as isize,
    Send = b's' as isize,
    Check = b'c' as isize,
}

impl Job {
    /// At 24 kHz a capital.
    fn letter(self) -> u8 {
        let letter = self as u8;
        if RATE == 24_000 {
            letter.to_ascii_uppercase()
        } else {
            letter
        }
    }
}

pub struct Port {
    child: Child,
    asks: ChildStdin,
    answers: ChildStdout,
}

impl Port {
    pub fn start(program: &Path) -> Self {
        let mut child = Command::new(program)
            .stdin(Stdio::piped())
            .stdout(Stdio::piped())
            .spawn()
            .expect("tools/speed has built the program");
        let asks = child.stdin.take().expect("it is piped");
        let answers = child.stdout.take().expect("it is piped");
        Port {
            child,
            asks,
            answers,
        }
    }

    /// The checksum of a job, and the time that it took.
    pub fn run(&mut self, job: Job, count: usize, data: &[u8]) -> (u64, Duration) {
        let count = u32::try_from(count).expect("a request's number has four bytes");
        self.put(&[job.letter()]);
        self.put(&count.to_le_bytes());
        self.put(data);
        self.take::<1>();
        let start = Instant::now();
        self.put(b"!");
        let sum = self.take();
        let time = start.elapsed();
        (u64::from_le_bytes(sum), time)
    }

    fn put(&mut self, bytes: &[u8]) {
        self.asks
            .write_all(bytes)
            .expect("the port has ended before its input");
    }

    fn take<const N: usize>(&mut self) -> [u8; N] {
        let mut bytes = [0; N];
        self.answers
            .read_exact(&mut bytes)
            .expect("the port has ended without an answer");
        bytes
    }

    /// The end of its input ends it.
    pub fn end(mut self) {
        drop(self.asks);
        let status = self.child.wait().expect("it was started here");
        assert!(status.success(), "the port ended with {status}");
    }
}
