//! What the inputs of one operation gave, and how a difference is shown.

use std::fmt::{self, Debug};

/// So many differences of each operation are shown.
const SHOWN_DIFFERENCES: usize = 3;

/// So many octets of an input are shown.
const SHOWN_OCTETS: usize = 64;

/// How often each number was answered, and each kind with number 0.
#[derive(Clone, Copy)]
pub struct Met {
    pub numbers: [u64; 256],
    pub kinds: [u64; 256],
}

const NOTHING_MET: Met = Met {
    numbers: [0; 256],
    kinds: [0; 256],
};

pub struct Tally {
    pub inputs: u64,
    pub differences: u64,
    /// What the library answered.
    pub met: Met,
    /// What it answered in the fixed cases.
    pub met_in_fixed: Met,
    /// The first differences, as text.
    pub shown: Vec<String>,
}

impl Tally {
    pub fn new() -> Tally {
        Tally {
            inputs: 0,
            differences: 0,
            met: NOTHING_MET,
            met_in_fixed: NOTHING_MET,
            shown: Vec::new(),
        }
    }

    /// The library answered this number.
    pub fn meet(&mut self, number: u8) {
        self.met.numbers[number as usize] += 1;
    }

    /// The library answered number 0 with this kind.
    pub fn meet_kind(&mut self, kind: u8) {
        self.met.kinds[kind as usize] += 1;
    }

    /// One input is compared.
    pub fn compared(&mut self, same: bool, describe: impl FnOnce() -> String) {
        self.inputs += 1;
        if !same {
            self.differences += 1;
            if self.shown.len() < SHOWN_DIFFERENCES {
                self.shown.push(describe());
            }
        }
    }
}

/// An answer that is an octet, shown in hexadecimal.
#[derive(PartialEq)]
pub struct Octet(pub u8);

impl Debug for Octet {
    fn fmt(&self, f: &mut fmt::Formatter) -> fmt::Result {
        write!(f, "{:02X}", self.0)
    }
}

/// An answer of two octets, shown in hexadecimal.
#[derive(PartialEq)]
pub struct TwoOctets(pub u16);

impl Debug for TwoOctets {
    fn fmt(&self, f: &mut fmt::Formatter) -> fmt::Result {
        write!(f, "{:04X}", self.0)
    }
}

/// Both agree, and with the paper where it says the answer.
pub fn agree<T: PartialEq>(library: &T, independent: &T, paper: &Option<T>) -> bool {
    library == independent && (paper.is_none() || paper.as_ref() == Some(library))
}

pub fn show_octets(name: &str, octets: &[u8]) -> String {
    let mut text = format!("  {name}, {} octets:", octets.len());
    for octet in octets.iter().take(SHOWN_OCTETS) {
        text.push_str(&format!(" {octet:02X}"));
    }
    if octets.len() > SHOWN_OCTETS {
        text.push_str(" ...");
    }
    text.push('\n');
    text
}

pub fn show_answers<T: Debug>(library: &T, independent: &T, paper: &Option<T>) -> String {
    let mut text = format!("  library:     {library:?}\n  independent: {independent:?}\n");
    if let Some(paper) = paper {
        text.push_str(&format!("  paper:       {paper:?}\n"));
    }
    text
}

/// The first octet in which two buffers of one length differ, if any does.
pub fn show_first_difference(name: &str, library: &[u8], independent: &[u8]) -> String {
    for (offset, (one, other)) in library.iter().zip(independent).enumerate() {
        if one != other {
            return format!(
                "  {name} differs first at octet {offset}: library {one:02X}, independent {other:02X}\n"
            );
        }
    }
    String::new()
}
