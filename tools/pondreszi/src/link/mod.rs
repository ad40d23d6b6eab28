//! `link`: an uplink unit and a receiver on board over a link that loses, repeats and damages, as
//! in example/certificates.c, until every unit is confirmed.

mod counts;
mod ends;
mod random;
mod settings;

use std::io::{self, IsTerminal, Write};

use crate::ending::Ending;
use ends::Ends;
use settings::Settings;

/// The passes for each unit after which a link that has not delivered is given up.
const PASSES_A_UNIT: u64 = 100_000;

/// The passes from one progress line to the next.
const PASSES_A_LINE: u64 = 2_000;

pub fn run(words: &[&str]) -> Result<Ending, Ending> {
    let mut ends = Ends::new(Settings::parse(words)?)?;
    let progress = io::stderr().is_terminal();
    let most_passes = PASSES_A_UNIT * ends.units() as u64;
    let mut passes = 0;
    while !ends.are_done() && passes < most_passes {
        if progress && passes % PASSES_A_LINE == 0 {
            show(&ends.progress());
        }
        ends.pass()?;
        passes += 1;
    }
    if progress {
        show("");
    }
    let report = ends.report();
    let sentence = if !ends.are_done() {
        "not every unit was confirmed; the link is given up."
    } else if !report.in_order || report.on_board != ends.units() {
        "what is on board differs from what was offered."
    } else {
        return Ok(Ending::done(report.to_string()));
    };
    Err(Ending::refused(sentence.to_owned()).with_output(report.to_string()))
}

/// Writes a line over the one before. Where it cannot be written nothing is lost.
fn show(line: &str) {
    let mut output = io::stderr();
    let _ = write!(output, "\r\x1b[K{line}");
    let _ = output.flush();
}
