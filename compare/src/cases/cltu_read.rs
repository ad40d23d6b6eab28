//! Reading a CLTU.

use super::{Operation, Room, ROOMS};
use crate::check::{agree, show_answers, show_first_difference, show_octets, Tally};
use crate::inputs;
use crate::library;
use crate::random::Random;
use independent::cltu::{self, Read, START_SEQUENCE, TAIL_SEQUENCE};
use independent::codeblock::{CORRECTING, DETECTING};
use independent::fault::Fault;
use independent::frame::FRAME_MOST;
use independent::refusal::{DONE, LENGTH, NO_BLOCK, NO_END, NO_START, ROOM, SETTING};

pub const READ: Operation = Operation {
    name: "cltu_read",
    share: 45,
    numbers: &[
        (DONE, "done"),
        (NO_START, "no start"),
        (NO_BLOCK, "no block"),
        (NO_END, "no end"),
        (LENGTH, "length"),
        (ROOM, "room"),
        (SETTING, "setting"),
    ],
    kinds: &[],
    fixed: read_fixed,
    random: read_random,
};

/// Document 01, Limits, Refusals and Codeblock and CLTU, as document 02, orders 2, 3 and 7, amend them.
fn read_fixed(tally: &mut Tally, fault: Fault) {
    let codeblock = inputs::cltu::with_error_control(&[0; 7]);
    let start_and_tail = [&START_SEQUENCE[..], &TAIL_SEQUENCE].concat();
    let one_codeblock = [&START_SEQUENCE[..], &codeblock].concat();
    let whole = [&one_codeblock[..], &TAIL_SEQUENCE].concat();
    let longest = [&whole[..], &[0; 4096 - 18]].concat();
    let too_long = [&longest[..], &[0]].concat();
    let hidden = [&[0xEA, 0x90][..], &whole].concat();

    let of_longest_frame = cltu::encode(&[0x3C; FRAME_MOST], Fault::None);

    let fixed: [(&[u8], usize, u8, u64, u64); 22] = [
        (&[], 0, NO_START, 0, 0),
        (&[0xEB], 20, NO_START, 0, 1),
        (&[0; 4096], 20, NO_START, 0, 4096),
        (&START_SEQUENCE, 20, NO_END, 0, 2),
        (&[0xEB, 0xEB, 0x90], 20, NO_END, 0, 3),
        (&[0xEB, 0x91], 20, NO_END, 0, 2),
        (&[0xEA, 0x91], 20, NO_START, 0, 2),
        (&[0xEB, 0x93], 20, NO_START, 0, 2),
        (&[0xE8, 0x90], 20, NO_START, 0, 2),
        (&hidden, 20, NO_BLOCK, 0, 2),
        (&start_and_tail[..9], 20, NO_END, 0, 2),
        (&start_and_tail, 20, NO_BLOCK, 0, 2),
        (&one_codeblock, 20, NO_END, 0, 10),
        (&whole[..17], 0, NO_END, 0, 10),
        (&whole, 7, DONE, 7, 10),
        (&whole, 6, ROOM, 0, 0),
        (&of_longest_frame, 1029, DONE, 1029, 1178),
        (&of_longest_frame, 1028, ROOM, 0, 0),
        (&of_longest_frame[..1185], 1029, NO_END, 0, 1178),
        (&longest, 7, DONE, 7, 10),
        (&too_long, 7, LENGTH, 0, 0),
        (&[0; 65_536], 20, LENGTH, 0, 0),
    ];
    for (input, lent, number, count, place) in fixed {
        let buffer = vec![0xA5; lent];
        let paper = Read {
            number,
            count,
            place,
            corrected: 0,
        };
        read(input, DETECTING, buffer.clone(), Some(paper), tally, fault);
        // What the near place hides is one bit away from a codeblock.
        let paper = (input != hidden).then_some(paper);
        read(input, CORRECTING, buffer.clone(), paper, tally, fault);
        // Another mode is judged after the length.
        for mode in [2, 256, 257, 65_536, 65_537, u32::MAX] {
            let paper = Read {
                number: if number == LENGTH { LENGTH } else { SETTING },
                count: 0,
                place: 0,
                corrected: 0,
            };
            read(input, mode, buffer.clone(), Some(paper), tally, fault);
        }
    }
    near_starts(&whole, tally, fault);
    near_everywhere(&whole, tally, fault);
    each_flip(&whole, tally, fault);
    runs_on(&one_codeblock, tally, fault);
}

/// At every offset of 4,096 octets a start sequence with one and with two bits in error, before a
/// codeblock and tail as far as they fit, behind zeros or behind places that are two bits
/// away.
fn near_everywhere(whole: &[u8], tally: &mut Tally, fault: Fault) {
    let two_away = [START_SEQUENCE[0] ^ 0x81, START_SEQUENCE[1]];
    for offset in 0..=4096 - START_SEQUENCE.len() {
        let bit: u16 = 1 << (offset / 4 % 16);
        let other: u16 = 1 << ((offset / 4 + 1 + offset / 64 % 15) % 16);
        let before = [[0, 0], two_away][offset % 2];
        let mode = [DETECTING, CORRECTING][offset / 2 % 2];
        for mask in [bit, bit | other] {
            let [first, second] = mask.to_be_bytes();
            let mut input: Vec<u8> = before.into_iter().cycle().take(offset).collect();
            input.extend(whole);
            input[offset] ^= first;
            input[offset + 1] ^= second;
            input.truncate(4096);
            read(&input, mode, vec![0xA5; 7], None, tally, fault);
        }
    }
}

/// Each bit of a CLTU of one codeblock in error, in both modes (document 02, orders 2 and 3).
fn each_flip(whole: &[u8], tally: &mut Tally, fault: Fault) {
    for bit in 0..8 * whole.len() {
        let mut flipped = whole.to_vec();
        flipped[bit / 8] ^= 0x80 >> (bit % 8);
        let in_codeblock = (16..80).contains(&bit);
        for mode in [DETECTING, CORRECTING] {
            let mended = in_codeblock && bit != 79 && mode == CORRECTING;
            let (number, count, place) = if in_codeblock && !mended {
                (NO_BLOCK, 0, 2)
            } else {
                (DONE, 7, 10)
            };
            let paper = Read {
                number,
                count,
                place,
                corrected: mended.into(),
            };
            read(&flipped, mode, vec![0xA5; 7], Some(paper), tally, fault);
        }
    }
}

/// No mode is better in every way: a codeblock with one bit in error that ends the CLTU in the
/// detecting mode is mended in the correcting mode, and reading runs on to the input's end.
fn runs_on(one_codeblock: &[u8], tally: &mut Tally, fault: Fault) {
    let mut near = inputs::cltu::with_error_control(&[0; 7]);
    near[0] ^= 1;
    let input = [one_codeblock, &near].concat();
    for (mode, number, count, place) in [(DETECTING, DONE, 7, 10), (CORRECTING, NO_END, 0, 18)] {
        let paper = Read {
            number,
            count,
            place,
            corrected: 0,
        };
        read(&input, mode, vec![0xA5; 14], Some(paper), tally, fault);
    }
}

/// A CLTU of one codeblock behind zeros, at every offset up to 16 and at the last that its
/// start sequence can have, with each bit and each two bits of its start sequence in error:
/// with one it is read as if there were none, with two there is no start sequence.
fn near_starts(whole: &[u8], tally: &mut Tally, fault: Fault) {
    let last = 4096 - START_SEQUENCE.len();
    for offset in (0..=16).chain([last]) {
        let mut input = vec![0; offset];
        input.extend(whole);
        input.truncate(4096);
        let behind = offset as u64 + START_SEQUENCE.len() as u64;
        let as_whole = if offset == last {
            (NO_END, 0, behind)
        } else {
            (DONE, 7, behind + 8)
        };
        for bit in 0..16 {
            for other in 0..=bit {
                let mask: u16 = 1 << bit | 1 << other;
                let [first, second] = mask.to_be_bytes();
                let mut flipped = input.clone();
                flipped[offset] ^= first;
                flipped[offset + 1] ^= second;
                let (number, count, place) = if bit == other {
                    as_whole
                } else {
                    (NO_START, 0, input.len() as u64)
                };
                let paper = Read {
                    number,
                    count,
                    place,
                    corrected: 0,
                };
                let mode = if bit % 2 == 0 { DETECTING } else { CORRECTING };
                read(&flipped, mode, vec![0xA5; 7], Some(paper), tally, fault);
            }
        }
    }
}

fn read_random(random: &mut Random, tally: &mut Tally, fault: Fault) {
    let input = inputs::cltu::for_the_reader(random);
    let mode = match random.below(16) {
        0 => *random.pick(&[2, 256, 65_536, u32::MAX]),
        number => (number % 2) as u32,
    };

    // The exact need, and where the input is refused more than could be decoded.
    let answer = cltu::read(&input, mode, &mut vec![0; input.len()], Fault::None);
    let need = if answer.number == DONE {
        answer.count as usize
    } else {
        input.len()
    };
    let room = if random.once_in(2) {
        Room::Exact
    } else {
        *random.pick(&ROOMS)
    };
    let lent = room.octets(need, random);
    let buffer = random.octets(lent);
    read(&input, mode, buffer, None, tally, fault);
}

fn read(
    input: &[u8],
    mode: u32,
    buffer: Vec<u8>,
    paper: Option<Read>,
    tally: &mut Tally,
    fault: Fault,
) {
    let lent = buffer.len();
    let mut library_input = input.to_vec();
    let mut library_buffer = buffer.clone();
    let library = library::cltu_read(&mut library_input, mode, &mut library_buffer);

    let mut independent_buffer = buffer;
    let independent = cltu::read(input, mode, &mut independent_buffer, fault);

    tally.meet(library.number);
    let same = agree(&library, &independent, &paper)
        && library_buffer == independent_buffer
        && library_input == input;
    tally.compared(same, || {
        show_octets("input", input)
            + &format!("  mode {mode}, lent output: {lent} octets\n")
            + &show_answers(&library, &independent, &paper)
            + &show_first_difference("output", &library_buffer, &independent_buffer)
            + &show_first_difference("input", &library_input, input)
    });
}
