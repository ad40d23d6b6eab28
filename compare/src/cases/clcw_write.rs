//! Writing a CLCW.

use super::{Operation, ROOMS};
use crate::check::{agree, show_answers, show_first_difference, show_octets, Tally};
use crate::inputs;
use crate::library;
use crate::random::Random;
use independent::clcw::{self, Report};
use independent::fault::Fault;
use independent::output::Written;
use independent::refusal::{DONE, ROOM, SETTING};

pub const WRITE: Operation = Operation {
    name: "clcw_write",
    share: 10,
    numbers: &[(DONE, "done"), (ROOM, "room"), (SETTING, "setting")],
    kinds: &[],
    fixed: write_fixed,
    random: write_random,
};

/// Octets of a CLCW (clause 6.3.1).
const NEED: usize = 4;

/// Channel, the three flags, counter and report value, and the word: document 01, CLCW.
/// The first is printed there, and the bits of the flags in the next three.
const WORDS: [([u32; 6], [u8; 4]); 7] = [
    ([3, 0, 0, 0, 2, 17], [0x01, 0x0C, 0x04, 0x11]),
    ([0, 1, 0, 0, 0, 0], [0x01, 0x00, 0x20, 0x00]),
    ([0, 0, 1, 0, 0, 0], [0x01, 0x00, 0x10, 0x00]),
    ([0, 0, 0, 1, 0, 0], [0x01, 0x00, 0x08, 0x00]),
    ([63, 1, 128, 255, 3, 255], [0x01, 0xFC, 0x3E, 0xFF]),
    ([63, 256, 65_536, 1 << 31, 3, 255], [0x01, 0xFC, 0x3E, 0xFF]),
    ([0, u32::MAX, 0, 1 << 24, 0, 0], [0x01, 0x00, 0x28, 0x00]),
];

/// Channel, counter, report value, lent output, number: document 01, Limits and Refusals.
const FIXED: [(u32, u32, u32, usize, u8); 27] = [
    (0, 0, 0x5A, 4, DONE),
    (63, 3, 0x5A, 4, DONE),
    (63, 3, 0x5A, 100, DONE),
    (63, 3, 0x5A, 3, ROOM),
    (0, 0, 0x5A, 0, ROOM),
    (64, 0, 0x5A, 4, SETTING),
    (255, 0, 0x5A, 4, SETTING),
    (0, 4, 0x5A, 4, SETTING),
    (0, 255, 0x5A, 4, SETTING),
    (64, 4, 0x5A, 4, SETTING),
    (64, 0, 0x5A, 3, SETTING),
    (0, 4, 0x5A, 3, SETTING),
    (64, 4, 0x5A, 0, SETTING),
    (256 + 3, 0, 0x5A, 4, SETTING),
    (0, 256 + 3, 0x5A, 4, SETTING),
    (0, 0, 256 + 3, 4, SETTING),
    (65_536 + 3, 0, 0x5A, 4, SETTING),
    (0, 65_536 + 3, 0x5A, 4, SETTING),
    (0, 0, 65_536 + 3, 4, SETTING),
    (1 << 31, 0, 0x5A, 4, SETTING),
    (0, 1 << 31, 0x5A, 4, SETTING),
    (0, 0, 1 << 31, 4, SETTING),
    (u32::MAX, 0, 0x5A, 4, SETTING),
    (0, u32::MAX, 0x5A, 4, SETTING),
    (0, 0, u32::MAX, 4, SETTING),
    (0, 0, 256, 3, SETTING),
    (0, 0, 255, 4, DONE),
];

fn write_fixed(tally: &mut Tally, fault: Fault) {
    for ([channel, lockout, wait, retransmit, counter, value], word) in WORDS {
        let report = Report {
            channel,
            lockout,
            wait,
            retransmit,
            counter,
            value,
        };
        let answer = Written {
            number: DONE,
            count: NEED as u64,
        };
        let buffer = vec![0xA5; NEED];
        write(&report, buffer, Some((answer, &word)), tally, fault);
    }
    for (channel, counter, value, lent, number) in FIXED {
        let report = Report {
            channel,
            lockout: 1,
            wait: 0,
            retransmit: 1,
            counter,
            value,
        };
        let count = if number == DONE { NEED as u64 } else { 0 };
        let answer = Written { number, count };
        let buffer = vec![0xA5; lent];
        write(&report, buffer, Some((answer, &[])), tally, fault);
    }
}

/// A report within, at or beyond the limits, and any room.
fn write_random(random: &mut Random, tally: &mut Tally, fault: Fault) {
    let mut report = inputs::clcw::report(random);
    match random.below(16) {
        0 => report.channel = *random.pick(&[0, 63, 64, 255]),
        1 => report.counter = *random.pick(&[0, 3, 4, 255]),
        2 => report.channel = random.between(0, 255) as u32,
        3 => report.counter = random.between(0, 255) as u32,
        4 => report.value = *random.pick(&[0, 255, 256, 257]),
        5 => report.channel = inputs::too_wide(random, report.channel),
        6 => report.counter = inputs::too_wide(random, report.counter),
        7 => report.value = inputs::too_wide(random, report.value),
        8 => report.lockout = inputs::too_wide(random, 0),
        9 => report.wait = inputs::too_wide(random, 0),
        10 => report.retransmit = inputs::too_wide(random, 0),
        _ => {}
    }
    let lent = random.pick(&ROOMS).octets(NEED, random);
    let buffer = random.octets(lent);
    write(&report, buffer, None, tally, fault);
}

/// The paper says the answer, and octets with which the output begins.
fn write(
    report: &Report,
    buffer: Vec<u8>,
    paper: Option<(Written, &[u8])>,
    tally: &mut Tally,
    fault: Fault,
) {
    let lent = buffer.len();
    let mut library_buffer = buffer.clone();
    let library = library::clcw_write(report, &mut library_buffer);

    let mut independent_buffer = buffer;
    let independent = clcw::write(report, &mut independent_buffer, fault);

    tally.meet(library.number);
    let (paper, word) = match paper {
        Some((answer, word)) => (Some(answer), word),
        None => (None, &[][..]),
    };
    let same = agree(&library, &independent, &paper)
        && library_buffer == independent_buffer
        && library_buffer.starts_with(word);
    tally.compared(same, || {
        format!("  {report:?}, lent output: {lent} octets\n")
            + &show_answers(&library, &independent, &paper)
            + &show_first_difference("output", &library_buffer, &independent_buffer)
            + &show_octets("output of the library", &library_buffer)
            + &show_octets("output by the paper", word)
    });
}
