//! Inputs to the CLTU reader.

use super::{any_of, noise, Kind};
use crate::random::Random;
use independent::bits;
use independent::cltu::{self, START_SEQUENCE, TAIL_SEQUENCE};
use independent::codeblock;
use independent::fault::Fault;
use independent::frame::FRAME_MOST;
use std::iter;

/// The octets with their error control octet: a good codeblock where there are seven.
pub fn with_error_control(information: &[u8]) -> Vec<u8> {
    let mut block = bits::from_octets(information);
    block.extend(codeblock::error_control(&block, Fault::None));
    bits::to_octets(&block)
}

/// A frame for the CLTU: mostly short, now and then of any length.
fn frame(random: &mut Random) -> Vec<u8> {
    let length = match random.below(32) {
        0 => random.between(8, FRAME_MOST),
        1 => *random.pick(&[FRAME_MOST - 2, FRAME_MOST - 1, FRAME_MOST]),
        2 | 3 => random.between(8, 256),
        4..=7 => *random.pick(&[8, 13, 14, 15, 21, 22]),
        _ => random.between(8, 60),
    };
    random.octets(length)
}

fn whole_cltu(random: &mut Random) -> Vec<u8> {
    cltu::encode(&frame(random), Fault::None)
}

/// A good codeblock; now and then one that holds a start sequence.
fn good_codeblock(random: &mut Random) -> Vec<u8> {
    let mut information = random.octets(7);
    if random.once_in(10) {
        let offset = random.below(6);
        information[offset..offset + 2].copy_from_slice(&START_SEQUENCE);
    }
    with_error_control(&information)
}

/// The start sequence with so many bits in error.
fn wrong_start(random: &mut Random, errors: usize) -> [u8; 2] {
    let mut bits = bits::from_octets(&START_SEQUENCE);
    let right = bits.clone();
    while bits
        .iter()
        .zip(&right)
        .filter(|(one, other)| one != other)
        .count()
        < errors
    {
        let place = random.below(bits.len());
        bits[place] = !right[place];
    }
    bits::to_octets(&bits).try_into().unwrap()
}

const KINDS: [Kind<Vec<u8>>; 16] = [
    (14, surrounded),
    (16, damaged_parts),
    (14, damaged),
    (10, cut_short),
    (6, joined),
    (8, fragments),
    (3, only_noise),
    (6, biased_noise),
    (8, wrong_filler),
    (5, damaged_start),
    (8, near_places),
    (2, off_the_boundary),
    (18, run_of_codeblocks),
    (2, about_the_limit),
    (1, late_start),
    (1, over_long),
];

/// An input to the CLTU reader.
pub fn for_the_reader(random: &mut Random) -> Vec<u8> {
    any_of(&KINDS, random)
}

/// A whole CLTU, with random octets before and after it.
fn surrounded(random: &mut Random) -> Vec<u8> {
    let mut input = noise(random, 30);
    input.extend(whole_cltu(random));
    input.extend(noise(random, 30));
    input
}

/// The same with bits flipped anywhere.
fn damaged(random: &mut Random) -> Vec<u8> {
    let mut input = surrounded(random);
    let flips = *random.pick(&[1, 1, 1, 2, 2, 3, 4, 8]);
    for _ in 0..flips {
        random.flip_a_bit(&mut input);
    }
    input
}

/// A CLTU with up to three bits in error in each of its parts: the start sequence, each
/// codeblock and the tail; mostly none or one.
fn damaged_parts(random: &mut Random) -> Vec<u8> {
    let mut input = whole_cltu(random);
    let flips: &[usize] = if random.once_in(2) {
        &[0, 1]
    } else {
        &[0, 0, 0, 0, 1, 1, 1, 2, 3]
    };
    let (start, rest) = input.split_at_mut(START_SEQUENCE.len());
    for part in iter::once(start).chain(rest.chunks_mut(8)) {
        for _ in 0..*random.pick(flips) {
            random.flip_a_bit(part);
        }
    }
    if random.once_in(2) {
        input.extend(noise(random, 30));
    }
    input
}

/// Cut short at any place.
fn cut_short(random: &mut Random) -> Vec<u8> {
    let mut input = if random.once_in(3) {
        surrounded(random)
    } else {
        whole_cltu(random)
    };
    let length = random.between(0, input.len());
    input.truncate(length);
    input
}

/// Several CLTUs one after the other, with or without random octets between them.
fn joined(random: &mut Random) -> Vec<u8> {
    let mut input = Vec::new();
    for _ in 0..random.between(2, 4) {
        if random.once_in(2) {
            input.extend(noise(random, 10));
        }
        let mut one = whole_cltu(random);
        if random.once_in(3) {
            random.flip_a_bit(&mut one);
        }
        input.extend(one);
    }
    input
}

/// Start sequences and tail sequences, whole and halved, in any order, down to nothing;
/// so EB EB 90 too, and EB at the very end.
fn fragments(random: &mut Random) -> Vec<u8> {
    let mut input = if random.once_in(2) {
        noise(random, 12)
    } else {
        Vec::new()
    };
    for _ in 0..random.between(0, 4) {
        match random.below(7) {
            0 | 1 => input.extend(START_SEQUENCE),
            2 => input.push(0xEB),
            3 => input.push(0x90),
            4 => input.extend(TAIL_SEQUENCE),
            5 => input.extend(good_codeblock(random)),
            _ => input.extend(noise(random, 9)),
        }
    }
    if random.once_in(4) {
        input.push(0xEB);
    }
    input
}

fn only_noise(random: &mut Random) -> Vec<u8> {
    noise(random, 200)
}

/// Noise in which EB and 90 are frequent, with and without a bit in error.
fn biased_noise(random: &mut Random) -> Vec<u8> {
    let mut input = noise(random, 100);
    for octet in input.iter_mut() {
        match random.below(16) {
            0 | 1 => *octet = 0xEB,
            2 | 3 => *octet = 0x90,
            4 => *octet = 0xEB ^ 1 << random.below(8),
            5 => *octet = 0x90 ^ 1 << random.below(8),
            _ => {}
        }
    }
    input
}

/// A CLTU of which one codeblock has a wrong filler bit.
fn wrong_filler(random: &mut Random) -> Vec<u8> {
    let mut input = whole_cltu(random);
    let codeblocks = (input.len() - START_SEQUENCE.len() - TAIL_SEQUENCE.len()) / 8;
    let wrong = random.below(codeblocks);
    input[START_SEQUENCE.len() + 8 * wrong + 7] ^= 1;
    input.extend(noise(random, 10));
    input
}

/// A CLTU with bits of the start sequence in error, alone or before a whole one.
fn damaged_start(random: &mut Random) -> Vec<u8> {
    let mut input = whole_cltu(random);
    let errors = *random.pick(&[1, 1, 2, 2, 3]);
    input[..START_SEQUENCE.len()].copy_from_slice(&wrong_start(random, errors));
    if random.once_in(2) {
        input.extend(whole_cltu(random));
    }
    input
}

/// Start sequences with up to three bits in error at any offset, one over the other too, and
/// perhaps a CLTU behind them.
fn near_places(random: &mut Random) -> Vec<u8> {
    let most = *random.pick(&[40, 40, 40, 400, 4000]);
    let length = random.between(START_SEQUENCE.len(), most);
    let mut input = random.octets(length);
    for _ in 0..random.between(1, 6) {
        let errors = *random.pick(&[0, 1, 1, 2, 2, 2, 2, 3]);
        let offset = random.between(0, length - START_SEQUENCE.len());
        input[offset..offset + START_SEQUENCE.len()].copy_from_slice(&wrong_start(random, errors));
    }
    if random.once_in(2) {
        let mut end = whole_cltu(random);
        let errors = *random.pick(&[0, 1, 2]);
        end[..START_SEQUENCE.len()].copy_from_slice(&wrong_start(random, errors));
        input.extend(end);
    }
    input
}

/// A CLTU that does not begin at an octet boundary.
fn off_the_boundary(random: &mut Random) -> Vec<u8> {
    let before = random.between(1, 7);
    let mut shifted = bits::from_octets(&random.octets(1))[..before].to_vec();
    shifted.extend(bits::from_octets(&whole_cltu(random)));
    shifted.extend(&bits::from_octets(&random.octets(1))[before..]);
    bits::to_octets(&shifted)
}

/// A start sequence, a run of good codeblocks, and one of several ends.
fn run_of_codeblocks(random: &mut Random) -> Vec<u8> {
    let mut input = noise(random, 3);
    input.extend(START_SEQUENCE);
    let most = *random.pick(&[2, 5, 40]);
    for _ in 0..random.between(0, most) {
        input.extend(good_codeblock(random));
    }
    match random.below(5) {
        0 => {}
        1 => input.extend(TAIL_SEQUENCE),
        2 => input.extend(noise(random, 7)),
        3 => input.extend(noise(random, 20)),
        _ => {
            let mut bad = good_codeblock(random);
            random.flip_a_bit(&mut bad);
            input.extend(bad);
        }
    }
    input
}

/// A run of good codeblocks of the given length in octets, in half of the cases with a
/// tail sequence in the place of the last or of some earlier one.
fn long_run(random: &mut Random, length: usize) -> Vec<u8> {
    let mut input = noise(random, 12);
    input.extend(START_SEQUENCE);
    let first = input.len();
    while input.len() < length {
        input.extend(good_codeblock(random));
    }
    input.truncate(length);
    let whole = (length - first) / 8;
    let end = match random.below(4) {
        0 => Some(whole - 1),
        1 => Some(random.below(whole)),
        _ => None,
    };
    if let Some(end) = end {
        input[first + 8 * end..first + 8 * end + 8].copy_from_slice(&TAIL_SEQUENCE);
    }
    input
}

/// About the limit of 4,096 octets.
fn about_the_limit(random: &mut Random) -> Vec<u8> {
    let length = random.between(4090, 4100);
    long_run(random, length)
}

/// Noise up to the limit, with a start sequence, and perhaps more of a CLTU, at the end.
fn late_start(random: &mut Random) -> Vec<u8> {
    let mut input = Vec::new();
    let mut end = whole_cltu(random);
    let kept = random.between(1, end.len());
    end.truncate(kept);
    let length = random.between(4090, 4100);
    input.extend(random.octets(length - end.len()));
    input.extend(end);
    input
}

/// Beyond the limit.
fn over_long(random: &mut Random) -> Vec<u8> {
    let length = random.between(4097, 5000);
    long_run(random, length)
}
