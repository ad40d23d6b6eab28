//! Compares the proved library's sender and receiver with the independent ones, event by
//! event: each answer, all lent memory and the whole state after it.

mod channels;
mod channels_end;
mod channels_met;
mod receiver;
mod receiver_end;
mod sender;
mod sender_end;
mod sender_ledger;
mod session;
mod session_met;

use crate::call::{self, Part};
use crate::check::Tally;
use crate::octets::LENGTHS;
use crate::random::Random;
use crate::settings::{self, print_names, Settings};
use independent::fault::{
    Fault, CHANNELS_FAULTS, FOP_FAULTS, KEPT_FAULTS, LEDGER_FAULTS, PASS_FAULTS, PROGRAM_FAULTS,
    SESSION_FAULTS, STORE_FAULTS, SUSPENSION_FAULTS,
};
use std::process::ExitCode;
use std::time::Instant;

pub const USAGE: &str = "       compare --sender [EVENTS] [--seed N] [--fault NAME]
       compare --receiver [EVENTS] [--seed N] [--fault NAME]
       compare --channels [EVENTS] [--seed N] [--fault NAME]
       compare --session [EVENTS] [--seed N] [--fault NAME]
       compare --sender --faults
       compare --receiver --faults
       compare --channels --faults
       compare --session --faults";

/// From so many events on, all that can be met must be met.
const ENOUGH_TO_MEET_ALL: u64 = 100_000;

/// What is compared.
pub enum Mode {
    Sender,
    Receiver,
    /// A receiver of several channels.
    Channels,
    Session,
}

/// So many events where the command line says no number.
const EVENTS: u64 = 200_000;

/// The exit status is as in src/main.rs.
pub fn main(mode: Mode, words: &[String]) -> ExitCode {
    let faults = faults(&mode);
    if words == ["--faults"] {
        print_names(faults.iter().map(|fault| fault.0));
        match mode {
            Mode::Sender => print_names(call::names(Part::Sender)),
            Mode::Receiver => print_names(call::names(Part::Receiver)),
            Mode::Channels => print_names(call::names(Part::Channels)),
            Mode::Session => (),
        }
        return ExitCode::from(0);
    }
    let known = [&faults[..], &others(&mode)].concat();
    let Some(settings) = settings::read(words, EVENTS, &known, |_, _| None) else {
        eprintln!("usage:\n{USAGE}");
        return ExitCode::from(2);
    };
    println!(
        "{} events, seed {}, fault {:?}",
        settings.count, settings.seed, settings.fault
    );
    let begin = Instant::now();
    let report = match mode {
        Mode::Sender => sender::compare(&settings),
        Mode::Receiver => receiver::compare(&settings),
        Mode::Channels => channels::compare(&settings),
        Mode::Session => session::compare(&settings),
    };
    println!("{:.1} s", begin.elapsed().as_secs_f64());
    report.print(&settings)
}

/// The faults that each comparison must find, by name.
fn faults(mode: &Mode) -> Vec<(&'static str, Fault)> {
    let of_a_pass = FOP_FAULTS
        .iter()
        .filter(|fault| PASS_FAULTS.contains(&fault.1));
    let of_a_suspension = SUSPENSION_FAULTS
        .iter()
        .filter(|fault| KEPT_FAULTS.contains(&fault.1));
    match mode {
        Mode::Sender => [
            &FOP_FAULTS[..],
            &SUSPENSION_FAULTS,
            &LEDGER_FAULTS,
            &STORE_FAULTS,
        ]
        .concat(),
        Mode::Receiver => farm_faults(),
        Mode::Channels => [&CHANNELS_FAULTS[..], &farm_faults()].concat(),
        Mode::Session => {
            let faults = SESSION_FAULTS.iter().chain(of_a_pass);
            faults.chain(of_a_suspension).copied().collect()
        }
    }
}

/// All those of the ends, which a session can have too, and need not find.
fn others(mode: &Mode) -> Vec<(&'static str, Fault)> {
    match mode {
        Mode::Sender | Mode::Receiver | Mode::Channels => Vec::new(),
        Mode::Session => [&FOP_FAULTS[..], &SUSPENSION_FAULTS, &farm_faults()].concat(),
    }
}

fn farm_faults() -> Vec<(&'static str, Fault)> {
    let of_farm = PROGRAM_FAULTS
        .iter()
        .filter(|(name, _)| name.starts_with("farm"));
    of_farm.copied().collect()
}

/// Compares runs until the events are enough. Answers what they gave and how many began;
/// a run says whether it did.
fn compare_runs(
    settings: &Settings,
    mut run: impl FnMut(&mut Random, &mut Tally) -> bool,
) -> (Tally, u64) {
    let mut random = Random::new(settings.seed);
    let mut tally = Tally::new();
    let mut runs = 0;
    while tally.inputs < settings.count {
        runs += run(&mut random, &mut tally) as u64;
    }
    (tally, runs)
}

/// How often each of some things was met, by name.
struct Counts {
    title: &'static str,
    /// Each must be met.
    required: bool,
    /// So often at the least.
    least: u64,
    counts: Vec<(String, u64)>,
}

impl Counts {
    fn new(title: &'static str, names: impl Iterator<Item = String>) -> Counts {
        Counts {
            title,
            required: true,
            least: 1,
            counts: names.map(|name| (name, 0)).collect(),
        }
    }

    fn meet(&mut self, name: &str) {
        self.meet_often(name, 1);
    }

    fn meet_often(&mut self, name: &str, times: u64) {
        for (other, count) in &mut self.counts {
            if other == name {
                *count += times;
                return;
            }
        }
        self.counts.push((name.to_string(), times));
    }

    fn is_met(&self, name: &str) -> bool {
        let mut counts = self.counts.iter();
        counts.any(|(other, count)| other == name && *count > 0)
    }

    /// How many were not met, or not so often as they must be.
    fn never_met(&self) -> usize {
        let few = |count: &u64| *count < self.least;
        self.counts.iter().filter(|(_, count)| few(count)).count()
    }

    /// Each with its count; of those not required, the ones never met.
    fn print(&self) {
        let (all, never_met) = (self.counts.len(), self.never_met());
        print!("{}, {} of {all} met", self.title, all - never_met);
        if !self.required && never_met > 0 {
            print!("; never");
        }
        for (name, count) in &self.counts {
            if self.required {
                print!("; {name} {count}");
            } else if *count == 0 {
                print!(" {name},");
            }
        }
        println!();
    }
}

/// What a comparison came to.
struct Report {
    tally: Tally,
    runs: u64,
    counts: Vec<Counts>,
}

impl Report {
    fn print(&self, settings: &Settings) -> ExitCode {
        let (events, differences) = (self.tally.inputs, self.tally.differences);
        for shown in &self.tally.shown {
            print!("difference:\n{shown}");
        }
        for counts in &self.counts {
            counts.print();
        }
        let runs = self.runs;
        if differences > 0 {
            println!("compared {events} events in {runs} runs, {differences} differences");
            return ExitCode::from(1);
        }
        let required = self.counts.iter().filter(|counts| counts.required);
        let never_met: usize = required.map(Counts::never_met).sum();
        if never_met > 0 && settings.count >= ENOUGH_TO_MEET_ALL {
            println!(
                "compared {events} events in {runs} runs, 0 differences, but {never_met} things never met"
            );
            return ExitCode::from(3);
        }
        println!("compared {events} events in {runs} runs, 0 differences");
        ExitCode::from(0)
    }
}

/// The name of a refusal by its number.
fn refusal(number: u8) -> String {
    format!("refusal {number}")
}

fn compare_numbers(library: u8, expected: u8, differences: &mut Vec<String>) {
    if library != expected {
        differences.push(format!("number {library}, not {expected}"));
    }
}

/// Says which of two parts differ, with the first octet that does.
fn compare_octets(name: &str, library: &[u8], expected: &[u8], differences: &mut Vec<String>) {
    if library != expected {
        let place = library.iter().zip(expected).position(|(a, b)| a != b);
        let place = place.expect("as many are expected as are lent");
        differences.push(format!(
            "{name}: octet {place} is {:02X}, not {:02X} ({} lent)",
            library[place],
            expected[place],
            library.len()
        ));
    }
}

/// Damages octets that are a state: some octets or bits, or the length lent.
fn damage(random: &mut Random, state: &mut Vec<u8>) {
    let octets = state.len();
    match random.below(8) {
        0 => state.resize(*random.pick(&[0, 1, octets - 1, octets + 1]), 0),
        1 => *state = random.octets(octets),
        2 => {
            let place = random.below(octets);
            state[place] = *random.pick(&[0, 1, 2, 32, 64, 127, 128, 255]);
        }
        3 => {
            for _ in 0..random.between(1, 8) {
                let place = random.below(octets);
                state[place] = random.number() as u8;
            }
        }
        4 | 5 => {
            // The octets before the lengths.
            let place = random.below(octets.min(LENGTHS));
            state[place] = random.number() as u8;
        }
        _ => random.flip_a_bit(state),
    }
}
