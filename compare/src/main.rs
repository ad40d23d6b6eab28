//! Compares the proved library with the independent side on fixed and random inputs, its
//! sender, its receiver and that of several channels with the independent ones event by event,
//! or the proved program of FARM-1 with the independent one.
//!
//!   compare [COUNT] [--seed N] [--fault NAME] [--lending-fault NAME]
//!   compare --faults
//!   compare --lending-faults
//!   compare --sender [EVENTS] [--seed N] [--fault NAME]
//!   compare --receiver [EVENTS] [--seed N] [--fault NAME]
//!   compare --channels [EVENTS] [--seed N] [--fault NAME]
//!   compare --session [EVENTS] [--seed N] [--fault NAME]
//!   compare --sender --faults
//!   compare --receiver --faults
//!   compare --channels --faults
//!   compare --session --faults
//!   compare --program [RUNS] [--seed N] [--fault NAME]
//!   compare --program --lines LINES [--seed N] [--fault NAME]
//!   compare --program --faults
//!   compare --program --independent < INPUT
//!
//! COUNT is the number of inputs, RUNS that of runs of the program, the fixed ones
//! included, which are always compared; LINES is the length of one run, whose speed is
//! told; EVENTS is the number of events of all runs; INPUT is answered by the independent
//! program alone, and nothing is compared. Exit status: 0 no difference; 1
//! differences; 2 bad usage; 3 no difference, but no random input met a number, or a
//! kind, that the operation can answer, or no run met something that FARM-1 or FOP-1 can
//! come to; 4 the proved program can't be started, or does not end; 5 the library changed
//! memory beside what it was lent. Where it touches a page beside what it was lent, the
//! program ends by a fault of memory (src/lending.rs).

mod call;
mod cases;
mod check;
mod ends;
mod inputs;
mod lending;
mod library;
mod octets;
mod program;
mod random;
mod settings;
mod table_octets;

use call::Part;
use cases::OPERATIONS;
use check::Tally;
use ends::Mode;
use independent::fault::FAULTS;
use lending::LENDING_FAULTS;
use random::Random;
use settings::{print_names, Settings};
use std::process::ExitCode;

const USAGE: &str = "usage: compare [COUNT] [--seed N] [--fault NAME] [--lending-fault NAME]
       compare --faults
       compare --lending-faults";

/// So many inputs where the command line says no number.
const INPUTS: u64 = 200_000;

/// From so many inputs on, random ones must meet each number and each kind.
const ENOUGH_TO_MEET_ALL: u64 = 40_000;

fn main() -> ExitCode {
    let words: Vec<String> = std::env::args().skip(1).collect();
    if words == ["--faults"] {
        print_names(FAULTS.iter().map(|fault| fault.0));
        print_names(call::names(Part::Operations));
        return ExitCode::from(0);
    }
    if words == ["--lending-faults"] {
        print_names(LENDING_FAULTS.iter().map(|fault| fault.name));
        return ExitCode::from(0);
    }
    match words.first().map(String::as_str) {
        Some("--program") => return program::main(&words[1..]),
        Some("--sender") => return ends::main(Mode::Sender, &words[1..]),
        Some("--receiver") => return ends::main(Mode::Receiver, &words[1..]),
        Some("--channels") => return ends::main(Mode::Channels, &words[1..]),
        Some("--session") => return ends::main(Mode::Session, &words[1..]),
        _ => (),
    }
    let settings = settings::read(&words, INPUTS, &FAULTS, make_lending_fault);
    let Some(settings) = settings else {
        eprintln!("{USAGE}");
        eprintln!("{}", ends::USAGE);
        eprintln!("{}", program::USAGE);
        return ExitCode::from(2);
    };
    println!(
        "{} inputs, seed {}, fault {:?}",
        settings.count, settings.seed, settings.fault
    );
    let tallies = compare(&settings);
    report(&settings, &tallies)
}

/// The option of this comparison alone.
fn make_lending_fault(option: &str, name: &str) -> Option<()> {
    if option != "--lending-fault" {
        return None;
    }
    lending::make_fault(*LENDING_FAULTS.iter().find(|fault| fault.name == name)?);
    Some(())
}

/// A tally for each operation.
fn compare(settings: &Settings) -> Vec<Tally> {
    let mut random = Random::new(settings.seed);
    let mut tallies = Vec::new();
    let mut compared = 0;
    for operation in &OPERATIONS {
        let mut tally = Tally::new();
        (operation.fixed)(&mut tally, settings.fault);
        tally.met_in_fixed = tally.met;
        compared += tally.inputs;
        tallies.push(tally);
    }
    let turns: Vec<usize> = (0..OPERATIONS.len()).collect();
    while compared < settings.count {
        let turn = *random.pick_by_share(&turns, |turn| OPERATIONS[*turn].share);
        (OPERATIONS[turn].random)(&mut random, &mut tallies[turn], settings.fault);
        compared += 1;
    }
    tallies
}

fn report(settings: &Settings, tallies: &[Tally]) -> ExitCode {
    let mut inputs = 0;
    let mut differences = 0;
    let mut never_met = 0;
    for (operation, tally) in OPERATIONS.iter().zip(tallies) {
        for shown in &tally.shown {
            print!("difference: {}\n{shown}", operation.name);
        }
    }
    for (operation, tally) in OPERATIONS.iter().zip(tallies) {
        print!(
            "{}: {} inputs, {} differences",
            operation.name, tally.inputs, tally.differences
        );
        for (number, name) in operation.numbers {
            let met = tally.met.numbers[*number as usize];
            print!("; {number} {name} {met}");
            if met == tally.met_in_fixed.numbers[*number as usize] {
                never_met += 1;
            }
        }
        for (kind, name) in operation.kinds.iter().enumerate() {
            let met = tally.met.kinds[kind];
            print!("; {name} {met}");
            if met == tally.met_in_fixed.kinds[kind] {
                never_met += 1;
            }
        }
        println!();
        inputs += tally.inputs;
        differences += tally.differences;
    }
    if differences > 0 {
        println!("compared {inputs} inputs, {differences} differences");
        return ExitCode::from(1);
    }
    if never_met > 0 && settings.count >= ENOUGH_TO_MEET_ALL {
        println!(
            "compared {inputs} inputs, 0 differences, but {never_met} answers never met at random"
        );
        return ExitCode::from(3);
    }
    println!("compared {inputs} inputs, 0 differences");
    ExitCode::from(0)
}
