//! Writing a CLTU.

use super::{every_length, Operation, ROOMS};
use crate::check::{agree, show_answers, show_first_difference, show_octets, Tally};
use crate::library;
use crate::random::Random;
use independent::cltu;
use independent::fault::Fault;
use independent::frame::FRAME_MOST;
use independent::output::Written;
use independent::refusal::{DONE, LENGTH, ROOM};

pub const WRITE: Operation = Operation {
    name: "cltu_write",
    share: 20,
    numbers: &[(DONE, "done"), (LENGTH, "length"), (ROOM, "room")],
    kinds: &[],
    fixed: write_fixed,
    random: write_random,
};

/// Frame length, lent output, number, count: document 01, Limits, Refusals and
/// Codeblock and CLTU; document 02, order 7.
const FIXED: [(usize, usize, u8, u64); 12] = [
    (8, 26, DONE, 26),
    (256, 306, DONE, 306),
    (257, 306, DONE, 306),
    (1024, 1186, DONE, 1186),
    (8, 25, ROOM, 0),
    (256, 305, ROOM, 0),
    (1024, 1185, ROOM, 0),
    (0, 400, LENGTH, 0),
    (7, 0, LENGTH, 0),
    (1025, 1200, LENGTH, 0),
    (1024 + 8, 1200, LENGTH, 0),
    (65_536 + 8, 400, LENGTH, 0),
];

fn write_fixed(tally: &mut Tally, fault: Fault) {
    for (length, lent, number, count) in FIXED {
        let buffer = vec![0xA5; lent];
        write(
            &vec![0; length],
            buffer,
            Some(Written { number, count }),
            tally,
            fault,
        );
    }
}

/// Every length up to 1,030, one after the other, the short ones more often, with any kind of
/// room.
fn write_random(random: &mut Random, tally: &mut Tally, fault: Fault) {
    let length = every_length(tally, FRAME_MOST + 6);
    let room = random.pick(&ROOMS);
    let need = 2 + 8 * length.div_ceil(7) + 8;
    let lent = room.octets(need, random);

    let frame = random.octets(length);
    let buffer = random.octets(lent);
    write(&frame, buffer, None, tally, fault);
}

fn write(frame: &[u8], buffer: Vec<u8>, paper: Option<Written>, tally: &mut Tally, fault: Fault) {
    let lent = buffer.len();
    let mut library_frame = frame.to_vec();
    let mut library_buffer = buffer.clone();
    let library = library::cltu_write(&mut library_frame, &mut library_buffer);

    let mut independent_buffer = buffer;
    let independent = cltu::write(frame, &mut independent_buffer, fault);

    tally.meet(library.number);
    let same = agree(&library, &independent, &paper)
        && library_buffer == independent_buffer
        && library_frame == frame;
    tally.compared(same, || {
        show_octets("frame", frame)
            + &format!("  lent output: {lent} octets\n")
            + &show_answers(&library, &independent, &paper)
            + &show_first_difference("output", &library_buffer, &independent_buffer)
            + &show_first_difference("frame", &library_frame, frame)
    });
}
