//! A lent output, and the answer of writing into it.

use crate::fault::Fault;
use crate::refusal::{DONE, ROOM};

/// The answer of writing.
#[derive(Clone, Copy, PartialEq, Eq, Debug)]
pub struct Written {
    /// The number of document 01, Refusals.
    pub number: u8,
    /// The octets written.
    pub count: u64,
}

impl Written {
    pub fn refused(number: u8) -> Written {
        Written { number, count: 0 }
    }
}

/// Writes the octets where the lent output has room for them: the last check of any
/// writing (document 01, Refusals).
pub fn write(octets: &[u8], output: &mut [u8], fault: Fault) -> Written {
    if output.len() < octets.len() {
        return Written::refused(ROOM);
    }
    hand_out(octets, output, fault);
    Written {
        number: DONE,
        count: octets.len() as u64,
    }
}

/// Only the octets handed out are touched (document 01, Refusals).
pub fn hand_out(octets: &[u8], output: &mut [u8], fault: Fault) {
    if fault == Fault::TouchesAll {
        output.fill(0);
    }
    output[..octets.len()].copy_from_slice(octets);
}
