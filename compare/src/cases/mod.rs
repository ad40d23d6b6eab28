//! The operations compared. Each has its module with its fixed cases, which the papers
//! answer, and its random ones.

use crate::check::Tally;
use crate::random::Random;
use independent::fault::Fault;

mod clcw_read;
mod clcw_write;
mod cltu_read;
mod cltu_write;
mod codeblock;
mod fecf;
mod frame_read;
mod frame_write;
mod randomizer;

pub struct Operation {
    pub name: &'static str,
    /// Its share of the random inputs.
    pub share: usize,
    /// The numbers that it can answer, by name; none where it answers octets.
    pub numbers: &'static [(u8, &'static str)],
    /// The kinds of what it answers with number 0, by name, from kind 0 on; none where
    /// there is one only.
    pub kinds: &'static [&'static str],
    /// Compares the fixed cases.
    pub fixed: fn(&mut Tally, Fault),
    /// Compares one random input.
    pub random: fn(&mut Random, &mut Tally, Fault),
}

pub const OPERATIONS: [Operation; 13] = [
    codeblock::ERROR_CONTROL,
    codeblock::JUDGE,
    randomizer::OCTET,
    cltu_write::WRITE,
    cltu_read::READ,
    fecf::FECF,
    frame_write::WRITE_AD,
    frame_write::WRITE_BD,
    frame_write::WRITE_UNLOCK,
    frame_write::WRITE_SET_VR,
    frame_read::READ,
    clcw_write::WRITE,
    clcw_read::READ,
];

/// Short lengths are up to this.
const SHORT: usize = 260;

/// In one input of so many a length may be long.
const LONG_ONCE_IN: usize = 6;

/// Every length from 0 to this, one after the other, most of them short.
fn every_length(tally: &Tally, most: usize) -> usize {
    let turn = tally.inputs as usize;
    match turn % LONG_ONCE_IN {
        0 => turn / LONG_ONCE_IN % (most + 1),
        _ => turn % (SHORT + 1),
    }
}

/// The length of a lent output, against the octets needed.
#[derive(Clone, Copy)]
enum Room {
    Exact,
    OneLess,
    Zero,
    Larger,
    AnySmaller,
}

const ROOMS: [Room; 5] = [
    Room::Exact,
    Room::OneLess,
    Room::Zero,
    Room::Larger,
    Room::AnySmaller,
];

impl Room {
    fn octets(self, need: usize, random: &mut Random) -> usize {
        match self {
            Room::Exact => need,
            Room::OneLess => need.saturating_sub(1),
            Room::Zero => 0,
            Room::Larger => need + random.between(1, 20),
            Room::AnySmaller => random.between(0, need),
        }
    }
}
