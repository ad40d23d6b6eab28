//! `cltu encode` and `cltu decode`.

use pondreszi::{cltu, Mode};

use crate::ending::Ending;
use crate::octets;
use crate::options::Options;

pub fn encode(words: &[&str]) -> Result<Ending, Ending> {
    let options = Options::parse(words, &["--binary"], &[])?;
    let binary = options.has("--binary");
    let written = cltu::write(&octets::input(binary)?)?;
    Ok(Ending::done(octets::output(&written, binary)))
}

pub fn decode(words: &[&str]) -> Result<Ending, Ending> {
    let options = Options::parse(words, &["--binary", "--correct"], &[])?;
    let binary = options.has("--binary");
    let mode = if options.has("--correct") {
        Mode::Correcting
    } else {
        Mode::Detecting
    };
    let decoded = cltu::read(&octets::input(binary)?, mode)?;
    let sentence = format!(
        "{} octets decoded, the tail at octet {}, {} codeblocks corrected.",
        decoded.octets.len(),
        decoded.place,
        decoded.corrected
    );
    Ok(Ending::done(octets::output(&decoded.octets, binary)).with_sentence(sentence))
}
