//! Compares the proved program of FARM-1 with the independent one: the whole output of
//! each run, octet by octet.

mod met;
mod process;

use crate::check::Tally;
use crate::inputs::{farm1, text};
use crate::random::Random;
use crate::settings::{self, print_names, Settings};
use independent::fault::{Fault, PROGRAM_FAULTS};
use independent::program::{answers, lines, output};
use met::Met;
use process::{Ended, Feed};
use std::io::{self, Read, Write};
use std::path::PathBuf;
use std::process::ExitCode;

pub const USAGE: &str = "       compare --program [RUNS] [--seed N] [--fault NAME]
       compare --program --lines LINES [--seed N] [--fault NAME]
       compare --program --faults
       compare --program --independent < INPUT";

/// Document 01, The program: the example, whole, with spaces for tabs.
const EXAMPLE: &str = "SET 20 250 1\nAD 250\nAD 252\nAD 251\nUNLOCK\nAD 250\nAD 10\n";
const EXAMPLE_OUTPUT: &str = "event state vr flags b
E1 S1 251 000 0
E3 S1 251 001 0
E2 S2 251 011 0
E7 S1 251 000 1
E4 S1 251 000 1
E5 S3 251 100 1
";

/// The input that is stored with the program, and its output: --independent wrote it.
const STORED: &[u8] = include_bytes!("../../../crates/program/stdin");
const STORED_OUTPUT: &[u8] = include_bytes!("../../../crates/program/stdout");

/// So many runs where the command line says no number.
const RUNS: u64 = 400;

/// What is to be compared.
struct Task {
    program: PathBuf,
    /// One run of so many lines, in place of all others.
    lines: Option<usize>,
    settings: Settings,
}

/// One input to the program.
struct Run {
    text: Vec<u8>,
    feed: Feed,
    /// The output that the paper prints.
    paper: Option<Vec<u8>>,
}

impl Run {
    fn whole(text: Vec<u8>) -> Run {
        Run {
            text,
            feed: Feed::Whole,
            paper: None,
        }
    }
}

/// Runs of one kind.
struct Kind {
    name: &'static str,
    tally: Tally,
    lines: u64,
}

impl Kind {
    fn new(name: &'static str) -> Kind {
        Kind {
            name,
            tally: Tally::new(),
            lines: 0,
        }
    }
}

/// The exit status is as in src/main.rs.
pub fn main(words: &[String]) -> ExitCode {
    if words == ["--faults"] {
        print_names(PROGRAM_FAULTS.iter().map(|fault| fault.0));
        return ExitCode::from(0);
    }
    if words == ["--independent"] {
        return write_independent();
    }
    let Some(task) = read_task(words) else {
        eprintln!("usage:\n{USAGE}");
        return ExitCode::from(2);
    };
    let compared = match task.lines {
        Some(lines) => compare_one_run(&task, lines),
        None => compare(&task),
    };
    match compared {
        Ok(status) => status,
        Err(error) => {
            println!("no run of {}: {error}", task.program.display());
            ExitCode::from(4)
        }
    }
}

/// Writes what the independent program answers to the standard input.
fn write_independent() -> ExitCode {
    let mut text = Vec::new();
    let read = io::stdin().read_to_end(&mut text);
    let written = read.and_then(|_| io::stdout().write_all(&output(&answers(&text, Fault::None))));
    ExitCode::from(if written.is_ok() { 0 } else { 4 })
}

fn read_task(words: &[String]) -> Option<Task> {
    let mut lines = None;
    let settings = settings::read(words, RUNS, &PROGRAM_FAULTS, |option, value| {
        if option != "--lines" {
            return None;
        }
        lines = Some(value.parse().ok()?);
        Some(())
    })?;
    Some(Task {
        program: process::path(),
        lines,
        settings,
    })
}

/// The fixed runs, which are always compared, and random ones.
fn compare(task: &Task) -> io::Result<ExitCode> {
    println!(
        "{} runs of {}, seed {}, fault {:?}",
        task.settings.count,
        task.program.display(),
        task.settings.seed,
        task.settings.fault
    );
    let mut random = Random::new(task.settings.seed);
    let mut met = Met::new();
    let mut kinds = [
        Kind::new("example and stored input"),
        Kind::new("windows"),
        Kind::new("texts"),
        Kind::new("random runs"),
        Kind::new("random texts"),
    ];
    let [example, windows, texts, random_runs, random_texts] = &mut kinds;

    for run in example_runs() {
        compare_run(&run, example, &mut met, task)?;
    }
    for window in (2..=254).step_by(2) {
        let run = Run::whole(farm1::window(window));
        compare_run(&run, windows, &mut met, task)?;
    }
    let run = Run::whole(farm1::all_pairs(20));
    compare_run(&run, windows, &mut met, task)?;
    for text in text::fixed() {
        let run = Run {
            feed: Feed::pieces(7, &text),
            text,
            paper: None,
        };
        compare_run(&run, texts, &mut met, task)?;
    }
    let fixed = example.tally.inputs + windows.tally.inputs + texts.tally.inputs;
    for turn in fixed..task.settings.count {
        if turn % 4 == 0 {
            let lines = random.between(1000, 8000);
            let run = Run::whole(farm1::random_lines(lines, &mut random));
            compare_run(&run, random_runs, &mut met, task)?;
        } else {
            let text = text::random(&mut random);
            let run = Run {
                feed: Feed::any(&text, &mut random),
                text,
                paper: None,
            };
            compare_run(&run, random_texts, &mut met, task)?;
        }
    }
    Ok(report(&kinds, &met))
}

/// The example with and without its last newline, at once and octet by octet; and the
/// stored input, which takes several reads.
fn example_runs() -> Vec<Run> {
    let text = EXAMPLE.replace(' ', "\t").into_bytes();
    let mut runs = Vec::new();
    for feed in [Feed::Whole, Feed::Pieces(1)] {
        for octets in [text.len(), text.len() - 1] {
            runs.push(Run {
                text: text[..octets].to_vec(),
                feed,
                paper: Some(EXAMPLE_OUTPUT.replace(' ', "\t").into_bytes()),
            });
        }
    }
    runs.push(Run {
        paper: Some(STORED_OUTPUT.to_vec()),
        ..Run::whole(STORED.to_vec())
    });
    runs
}

fn compare_run(run: &Run, kind: &mut Kind, met: &mut Met, task: &Task) -> io::Result<Ended> {
    let answers = answers(&run.text, task.settings.fault);
    let independent = output(&answers);
    let program = process::run(&task.program, &run.text, run.feed, independent.len())?;

    let by_paper = run.paper.as_ref().unwrap_or(&program.output);
    let same =
        program.status.success() && program.output == independent && program.output == *by_paper;
    if same {
        met.take(&answers);
    }
    kind.lines += lines(&run.text, Fault::None).len() as u64;
    kind.tally.compared(same, || {
        show(&run.text, &program, &independent) + &show_paper(&run.paper)
    });
    Ok(program)
}

fn report(kinds: &[Kind], met: &Met) -> ExitCode {
    let mut runs = 0;
    let mut all_lines = 0;
    let mut differences = 0;
    for kind in kinds {
        for shown in &kind.tally.shown {
            print!("difference: program {}\n{shown}", kind.name);
        }
    }
    for kind in kinds {
        println!(
            "program {}: {} runs, {} lines, {} differences",
            kind.name, kind.tally.inputs, kind.lines, kind.tally.differences
        );
        runs += kind.tally.inputs;
        all_lines += kind.lines;
        differences += kind.tally.differences;
    }
    if differences > 0 {
        println!("compared {runs} runs, {all_lines} lines, {differences} runs differ");
        return ExitCode::from(1);
    }
    met.report();
    let never_met = met.never();
    if never_met > 0 {
        println!(
            "compared {runs} runs, {all_lines} lines, 0 differences, but {never_met} never met"
        );
        return ExitCode::from(3);
    }
    println!("compared {runs} runs, {all_lines} lines, 0 differences");
    ExitCode::from(0)
}

/// One long run, for its speed.
fn compare_one_run(task: &Task, lines: usize) -> io::Result<ExitCode> {
    let mut random = Random::new(task.settings.seed);
    let run = Run::whole(farm1::random_lines(lines, &mut random));
    let mut kind = Kind::new("one run");
    let program = compare_run(&run, &mut kind, &mut Met::new(), task)?;
    for shown in &kind.tally.shown {
        print!("difference: program {}\n{shown}", kind.name);
    }
    let seconds = program.time.as_secs_f64();
    println!(
        "compared 1 run, {} lines, {} octets, {} differences; {seconds:.3} s, {:.0} lines per second",
        kind.lines,
        run.text.len(),
        kind.tally.differences,
        kind.lines as f64 / seconds
    );
    Ok(ExitCode::from(kind.tally.differences as u8))
}

/// How it ended, and the first line of the outputs that differs, with the lines of the
/// input about it.
fn show(text: &[u8], program: &Ended, independent: &[u8]) -> String {
    let mut shown = format!("  the program ended with {}\n", program.status);
    shown.push_str(&show_lines("input", &lines(text, Fault::None), 0));
    let ours: Vec<&[u8]> = independent
        .split_inclusive(|octet| *octet == b'\n')
        .collect();
    let theirs: Vec<&[u8]> = program
        .output
        .split_inclusive(|octet| *octet == b'\n')
        .collect();
    let same = ours
        .iter()
        .zip(&theirs)
        .take_while(|(one, other)| one == other)
        .count();
    if same < ours.len() || same < theirs.len() {
        shown.push_str(&format!(
            "  the outputs differ first in line {same}, counted from 0\n"
        ));
        shown.push_str(&show_lines(
            "input",
            &lines(text, Fault::None),
            same.saturating_sub(3),
        ));
        shown.push_str(&show_lines("program", &theirs, same.saturating_sub(3)));
        shown.push_str(&show_lines("independent", &ours, same.saturating_sub(3)));
    }
    shown
}

fn show_paper(paper: &Option<Vec<u8>>) -> String {
    match paper {
        Some(octets) => format!("  paper: {}\n", octets.escape_ascii()),
        None => String::new(),
    }
}

/// Some lines from one on, each of them cut.
fn show_lines(name: &str, lines: &[&[u8]], from: usize) -> String {
    let mut shown = format!("  {name}, {} lines, from {from}:", lines.len());
    for line in lines.iter().skip(from).take(6) {
        shown.push_str(&format!(
            " \"{}\"",
            line[..line.len().min(80)].escape_ascii()
        ));
    }
    shown.push('\n');
    shown
}
