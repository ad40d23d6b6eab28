//! Measures the proved library and the independent implementation in one run, alternating
//! the two, and prints what an operation takes on each side; frames and CLTUs are measured
//! beside plain programs too (../../plain_frame.rs, ../../plain_cltu.rs). Before an operation is
//! timed all sides must answer it alike. It is no part of the comparison.
//!
//!   bench [--rounds]
//!
//! With --rounds every round of each side is printed too.

mod cltu_checks;
mod cltus;
mod ends;
mod frames;
mod measure;
mod tables;

#[allow(dead_code)]
#[path = "../../inputs/mod.rs"]
mod inputs;
#[allow(dead_code)]
#[path = "../../library.rs"]
mod library;
#[allow(dead_code)]
#[path = "../../octets.rs"]
mod octets;
#[path = "../../plain_cltu.rs"]
mod plain_cltu;
#[path = "../../plain_frame.rs"]
mod plain_frame;
#[allow(dead_code)]
#[path = "../../random.rs"]
mod random;
#[allow(dead_code)]
#[path = "../../table_octets.rs"]
mod table_octets;

/// Lends memory as it is, in the place of ../../lending.rs, which would be measured too.
mod lending {
    pub struct Lent<'a, T: ?Sized = [u8]>(&'a mut T);

    pub fn lend(octets: &mut [u8]) -> Lent<'_, [u8]> {
        Lent(octets)
    }

    pub fn lend_number<T>(number: &mut T) -> Lent<'_, T> {
        Lent(number)
    }

    impl Lent<'_, [u8]> {
        pub fn first(&self) -> *mut u8 {
            self.0.as_ptr().cast_mut()
        }

        pub fn len(&self) -> u64 {
            self.0.len() as u64
        }
    }

    impl<T> Lent<'_, T> {
        pub fn number(&self) -> *mut T {
            std::ptr::from_ref::<T>(self.0).cast_mut()
        }
    }
}

/// Makes no fault, in the place of ../../call.rs.
mod call {
    pub fn arguments<T, const N: usize>(_: &str, _: [&str; N], arguments: [T; N]) -> [T; N] {
        arguments
    }
}

use std::process::ExitCode;

use measure::{Row, ROUND, ROUNDS};

const SPACECRAFT: u32 = 0x2A5;
const CHANNEL: u32 = 3;
const FRAME: usize = 256;
const UNIT: usize = 249;

/// The sides of an operation that is not measured beside a plain program.
const BOTH: [&str; 2] = ["Library", "Independent"];

fn main() -> ExitCode {
    let words: Vec<String> = std::env::args().skip(1).collect();
    let every_round = words == ["--rounds"];
    if !every_round && !words.is_empty() {
        eprintln!("usage: bench [--rounds]");
        return ExitCode::from(2);
    }

    cltu_checks::check_plain();
    frames::check_plain_read();
    let mut cltus = vec![cltus::write()];
    cltus.extend(cltus::read_one());
    cltus.extend(cltus::read_longest());
    cltus.push(cltus::hunt());

    let mut rows: Vec<Row<2>> = cltus.iter().map(|row| row.of(cltus::BOTH)).collect();
    rows.extend([frames::write(), frames::read()]);
    let events = rows.len();
    rows.extend([
        ends::receiver("receiver event, frames of 256 octets", UNIT),
        ends::receiver("receiver event, frames of 8 octets", 1),
        ends::sender("sender event, units of 249 octets", UNIT),
        ends::sender("sender event, units of 1 octet", 1),
    ]);

    let frames = [
        frames::write_beside_plain(UNIT),
        frames::write_beside_plain(1),
        frames::read_beside_plain(UNIT),
        frames::read_beside_plain(1),
    ];

    tables::times(&rows);
    println!();
    tables::beside("CLTUs", cltus::SIDES, cltus::PLAIN, &cltus);
    println!();
    tables::beside("Frames", frames::SIDES, frames::PLAIN, &frames);
    println!();
    tables::rates(&rows[events..]);
    println!();
    if every_round {
        tables::rounds(cltus::SIDES, &cltus);
        tables::rounds(BOTH, &rows[cltus.len()..]);
        tables::rounds(frames::SIDES, &frames);
        println!();
    }
    print_method(greatest(&cltus).max(greatest(&rows)).max(greatest(&frames)));
    ExitCode::from(0)
}

/// The greatest spread.
fn greatest<const N: usize>(rows: &[Row<N>]) -> f64 {
    rows.iter().map(Row::spread).fold(1.0, f64::max)
}

fn print_method(spread: f64) {
    println!(
        "median of {ROUNDS} rounds of at least {} ms, and in brackets the lowest and the highest",
        ROUND.as_millis()
    );
    println!("highest round over lowest, at most: {spread:.2}");
}
