//! Reading a CLCW.

use super::Operation;
use crate::check::{agree, show_answers, show_first_difference, show_octets, Tally};
use crate::inputs::clcw::{for_the_reader, Input};
use crate::library;
use crate::random::Random;
use independent::clcw::{self, Read};
use independent::fault::Fault;
use independent::refusal::{ADDRESS, DONE, LENGTH};

pub const READ: Operation = Operation {
    name: "clcw_read",
    share: 20,
    numbers: &[(DONE, "done"), (ADDRESS, "address"), (LENGTH, "length")],
    kinds: &["invalid", "valid"],
    fixed: read_fixed,
    random: read_random,
};

/// The word that document 01, CLCW prints: channel 3, no flags, counter 2, V(R) 17.
const PRINTED: [u8; 4] = [0x01, 0x0C, 0x04, 0x11];

const PRINTED_ANSWER: Read = Read {
    number: DONE,
    valid: 1,
    status: 0,
    rf: 0,
    flags: 0,
    counter: 2,
    report: 17,
};

/// Document 01, Limits, Refusals and CLCW.
fn read_fixed(tally: &mut Tally, fault: Fault) {
    let mut fixed = |octets: &[u8], channel: u32, paper: Option<Read>| {
        let octets = octets.to_vec();
        read(&Input { octets, channel }, paper, tally, fault);
    };
    fixed(&PRINTED, 3, Some(PRINTED_ANSWER));

    // The three flags, each with its bit.
    for (third, flags) in [(0x20, 4), (0x10, 2), (0x08, 1)] {
        let answer = Read {
            flags,
            counter: 0,
            report: 0,
            ..PRINTED_ANSWER
        };
        fixed(&[0x01, 0x00, third, 0x00], 0, Some(answer));
    }

    // Status, no RF and no bit lock are read and not judged.
    for (status, rf) in [(1, 1), (2, 2), (4, 3), (7, 0)] {
        let word = [0x01 | status << 2, 0x0C, 0x04 | rf << 6, 0x11];
        let answer = Read {
            status,
            rf,
            ..PRINTED_ANSWER
        };
        fixed(&word, 3, Some(answer));
    }

    // An own channel that isn't the word's, or is beyond the limit.
    let beyond = [256 + 3, 65_536 + 3, (1 << 31) + 3, u32::MAX];
    for channel in [0, 2, 63, 64, 67, 131, 195, 255].into_iter().chain(beyond) {
        fixed(&PRINTED, channel, Some(Read::refused(ADDRESS)));
    }

    // Each bit flipped: type, version, COP and spare make the word invalid, whatever
    // its channel.
    for bit in 0..32 {
        let mut word = PRINTED;
        word[bit / 8] ^= 0x80 >> (bit % 8);
        let invalid = matches!(bit, 0..=2 | 6..=7 | 14..=15 | 23);
        let (ours, theirs) = match bit {
            _ if invalid => (Some(Read::invalid()), Some(Read::invalid())),
            8..=13 => (Some(Read::refused(ADDRESS)), None),
            _ => (None, Some(Read::refused(ADDRESS))),
        };
        fixed(&word, 3, ours);
        fixed(&word, 64 + 3, theirs);
        fixed(&word, 1, None);
    }

    // Not of four octets, and more wrong besides.
    let long = [&PRINTED[..], &[0; 65_536]].concat();
    for length in [0, 1, 2, 3, 5, 6, 7, 8, 256 + 4, 65_536 + 4] {
        for channel in [3, 4] {
            fixed(&long[..length], channel, Some(Read::refused(LENGTH)));
            fixed(&vec![0xFF; length], channel, Some(Read::refused(LENGTH)));
        }
    }
}

fn read_random(random: &mut Random, tally: &mut Tally, fault: Fault) {
    read(&for_the_reader(random), None, tally, fault);
}

fn read(input: &Input, paper: Option<Read>, tally: &mut Tally, fault: Fault) {
    let channel = input.channel;
    let mut lent = input.octets.clone();
    let library = library::clcw_read(&mut lent, channel);
    let independent = clcw::read(&input.octets, channel, fault);

    tally.meet(library.number);
    if library.number == DONE {
        tally.meet_kind(library.valid);
    }
    let same = agree(&library, &independent, &paper) && lent == input.octets;
    tally.compared(same, || {
        show_octets("input", &input.octets)
            + &format!("  own channel: {channel}\n")
            + &show_answers(&library, &independent, &paper)
            + &show_first_difference("input", &lent, &input.octets)
    });
}
