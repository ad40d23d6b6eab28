//! The codeblock's error control octet, and the judgement of octets as a codeblock.

use super::Operation;
use crate::check::{agree, show_answers, show_first_difference, show_octets, Octet, Tally};
use crate::inputs::cltu::with_error_control;
use crate::library;
use crate::random::Random;
use independent::bits;
use independent::cltu::TAIL_SEQUENCE;
use independent::codeblock::{self, Judged, CORRECTING, DETECTING};
use independent::fault::Fault;
use independent::refusal::{DONE, LENGTH, NO_BLOCK, ROOM, SETTING};

pub const ERROR_CONTROL: Operation = Operation {
    name: "codeblock_error_control",
    share: 10,
    numbers: &[],
    kinds: &[],
    fixed: error_control_fixed,
    random: error_control_random,
};

pub const JUDGE: Operation = Operation {
    name: "codeblock_judge",
    share: 15,
    numbers: &[
        (DONE, "done"),
        (NO_BLOCK, "no block"),
        (LENGTH, "length"),
        (ROOM, "room"),
        (SETTING, "setting"),
    ],
    kinds: &[],
    fixed: judge_fixed,
    random: judge_random,
};

/// Document 01, Codeblock and CLTU: the five codeblocks.
const FIVE_CODEBLOCKS: [([u8; 7], u8); 5] = [
    ([0, 0, 0, 0, 0, 0, 0], 0xFE),
    ([0xC5; 7], 0xFE),
    ([0, 0, 0, 0, 0, 0, 1], 0x74),
    ([0, 0, 0, 0, 0, 0, 2], 0x60),
    ([0, 0, 0, 0, 0, 0, 3], 0xEA),
];

fn error_control_fixed(tally: &mut Tally, fault: Fault) {
    for (information, eighth) in FIVE_CODEBLOCKS {
        error_control(&information, Some(Octet(eighth)), tally, fault);
    }
}

fn error_control_random(random: &mut Random, tally: &mut Tally, fault: Fault) {
    let length = match random.below(10) {
        0 => random.between(0, 64),
        1..=4 => 7,
        _ => random.between(0, 10),
    };
    let information = random.octets(length);
    error_control(&information, None, tally, fault);
}

fn error_control(information: &[u8], paper: Option<Octet>, tally: &mut Tally, fault: Fault) {
    let mut lent = information.to_vec();
    let library = Octet(library::codeblock_error_control(&mut lent));
    let field = codeblock::error_control(&bits::from_octets(information), fault);
    let independent = Octet(bits::to_octets(&field)[0]);

    let same = agree(&library, &independent, &paper) && lent == information;
    tally.compared(same, || {
        show_octets("information", information)
            + &show_octets("information after the call", &lent)
            + &show_answers(&library, &independent, &paper)
    });
}

/// The modes, and others that a cut to 8 or 16 bits would make one of them.
const MODES: [u32; 8] = [DETECTING, CORRECTING, 2, 255, 256, 257, 65_536, 0xFFFF_FFFF];

fn judge_fixed(tally: &mut Tally, fault: Fault) {
    let refused = |number| Some(judged(number, 0));
    for (information, eighth) in FIVE_CODEBLOCKS {
        let mut block = information.to_vec();
        block.push(eighth);
        for mode in [DETECTING, CORRECTING] {
            judge(&block, mode, 7, Some(judged(DONE, 0)), tally, fault);
            judge(&block, mode, 6, refused(ROOM), tally, fault);
            judge(&block[1..], mode, 7, refused(LENGTH), tally, fault);
        }
        for mode in &MODES[2..] {
            judge(&block, *mode, 7, refused(SETTING), tally, fault);
            judge(&block[1..], *mode, 7, refused(LENGTH), tally, fault);
        }
        judge(&[], CORRECTING, 7, refused(LENGTH), tally, fault);
    }
    for (information, eighth) in &FIVE_CODEBLOCKS[2..4] {
        let mut block = information.to_vec();
        block.push(*eighth);
        each_flip(&block, true, tally, fault);
    }
    each_flip(&TAIL_SEQUENCE, false, tally, fault);
}

/// Each bit and each two bits in error, in both modes (document 02, order 3): one of the 63 is
/// mended where the codeblock was good; all else is bad.
fn each_flip(block: &[u8], is_good: bool, tally: &mut Tally, fault: Fault) {
    for one in 0..64 {
        for other in 0..=one {
            let mut flipped = block.to_vec();
            flipped[one / 8] ^= 0x80 >> (one % 8);
            if other != one {
                flipped[other / 8] ^= 0x80 >> (other % 8);
            }
            let mended = is_good && one == other && one < 63;
            for mode in [DETECTING, CORRECTING] {
                let paper = if mended && mode == CORRECTING {
                    judged(DONE, 1)
                } else {
                    judged(NO_BLOCK, 0)
                };
                judge(&flipped, mode, 7, Some(paper), tally, fault);
            }
        }
    }
}

fn judged(number: u8, corrected: u8) -> Judged {
    Judged { number, corrected }
}

fn judge_random(random: &mut Random, tally: &mut Tally, fault: Fault) {
    let mut block = match random.below(10) {
        0 => {
            let length = random.between(0, 10);
            random.octets(length)
        }
        // Well encoded, but perhaps not of seven octets.
        1 => {
            let length = random.between(0, 9);
            with_error_control(&random.octets(length))
        }
        2 => TAIL_SEQUENCE.to_vec(),
        _ => with_error_control(&random.octets(7)),
    };
    match random.below(4) {
        0 => {}
        1 => *block.last_mut().unwrap_or(&mut 0) ^= 1,
        _ => {
            if !block.is_empty() {
                for _ in 0..random.between(0, 5) {
                    random.flip_a_bit(&mut block);
                }
            }
        }
    }
    let mode = match random.below(8) {
        0 => *random.pick(&MODES),
        number => (number % 2) as u32,
    };
    let room = *random.pick(&[7, 7, 7, 6, 8, 0]);
    judge(&block, mode, room, None, tally, fault);
}

fn judge(
    block: &[u8],
    mode: u32,
    room: usize,
    paper: Option<Judged>,
    tally: &mut Tally,
    fault: Fault,
) {
    let mut lent = block.to_vec();
    let mut library_output = vec![0xA5; room];
    let library = library::codeblock_judge(&mut lent, mode, &mut library_output);
    let mut independent_output = vec![0xA5; room];
    let independent = codeblock::judge_octets(block, mode, &mut independent_output, fault);

    tally.meet(library.number);
    let same = agree(&library, &independent, &paper)
        && library_output == independent_output
        && lent == block;
    tally.compared(same, || {
        show_octets("block", block)
            + &show_octets("block after the call", &lent)
            + &format!("  mode {mode}, lent output: {room} octets\n")
            + &show_answers(&library, &independent, &paper)
            + &show_first_difference("output", &library_output, &independent_output)
    });
}
