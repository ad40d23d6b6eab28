//! The proved program, started once for each run.

use crate::random::Random;
use std::io::{self, Read, Write};
use std::path::{Path, PathBuf};
use std::process::{Child, ChildStdin, Command, ExitStatus, Stdio};
use std::sync::mpsc;
use std::thread;
use std::time::{Duration, Instant};

/// A run that goes on for longer is ended.
const LONGEST: Duration = Duration::from_secs(100);

/// The pause between two pieces of input.
const PAUSE: Duration = Duration::from_micros(20);

/// How the input is handed over.
#[derive(Clone, Copy)]
pub enum Feed {
    Whole,
    /// Octets at a time, with a pause, so that a line can come in several reads.
    Pieces(usize),
}

impl Feed {
    /// In pieces, of these many octets at least, but not very many pieces.
    pub fn pieces(octets: usize, text: &[u8]) -> Feed {
        Feed::Pieces(octets.max(text.len() / 30))
    }

    /// Mostly whole.
    pub fn any(text: &[u8], random: &mut Random) -> Feed {
        match random.below(4) {
            0 => Feed::pieces(random.between(1, 100), text),
            _ => Feed::Whole,
        }
    }

    /// A program that ends before its input does is seen by what it wrote.
    fn hand_over(self, mut input: ChildStdin, text: &[u8]) {
        match self {
            Feed::Whole => {
                let _ = input.write_all(text);
            }
            Feed::Pieces(octets) => {
                for piece in text.chunks(octets) {
                    if input.write_all(piece).is_err() {
                        return;
                    }
                    thread::sleep(PAUSE);
                }
            }
        }
    }
}

/// What the program left.
pub struct Ended {
    pub output: Vec<u8>,
    pub status: ExitStatus,
    pub time: Duration,
}

/// The program that PONDRESZI_PROGRAM names, otherwise ../target/bin/program.
pub fn path() -> PathBuf {
    match std::env::var_os("PONDRESZI_PROGRAM") {
        Some(path) if !path.is_empty() => PathBuf::from(path),
        _ => Path::new(env!("CARGO_MANIFEST_DIR")).join("../target/bin/program"),
    }
}

/// Runs the program on a text, to its end. Output far beyond what is expected is cut.
pub fn run(path: &Path, text: &[u8], feed: Feed, expected: usize) -> io::Result<Ended> {
    let start = Instant::now();
    let mut child = Command::new(path)
        .stdin(Stdio::piped())
        .stdout(Stdio::piped())
        .spawn()?;
    let (Some(input), Some(output)) = (child.stdin.take(), child.stdout.take()) else {
        unreachable!("both are piped");
    };
    thread::scope(|scope| {
        scope.spawn(move || feed.hand_over(input, text));
        let (sender, receiver) = mpsc::channel();
        scope.spawn(move || {
            let mut octets = Vec::with_capacity(expected + 1);
            let _ = output.take(expected as u64 + 64).read_to_end(&mut octets);
            let _ = sender.send(octets);
        });
        let output = receiver.recv_timeout(LONGEST);
        let status = end(&mut child, start)?;
        match (output, status) {
            (Ok(output), Some(status)) => Ok(Ended {
                output,
                status,
                time: start.elapsed(),
            }),
            _ => Err(io::Error::other("it did not end by itself")),
        }
    })
}

/// How the program ended, where it did by itself. It has closed its output, or is late.
fn end(child: &mut Child, start: Instant) -> io::Result<Option<ExitStatus>> {
    while start.elapsed() < LONGEST {
        if let Some(status) = child.try_wait()? {
            return Ok(Some(status));
        }
        thread::sleep(PAUSE);
    }
    child.kill()?;
    child.wait()?;
    Ok(None)
}
