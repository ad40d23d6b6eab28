//! The plain program of CLTUs leaves no rule out: before it is measured, each of its forms must
//! give the independent side's answers.

use independent::cltu::{self, Read};
use independent::codeblock::{CODEBLOCK_BITS, CORRECTING, DETECTING};
use independent::fault::Fault;
use independent::output::Written;
use independent::randomizer;
use independent::refusal::{DONE, LENGTH, NO_BLOCK, NO_END, NO_START, ROOM, SETTING};

use crate::inputs::cltu::{for_the_reader, with_error_control};
use crate::plain_cltu::{read, write, AtOnce, BitByBit, BySevenTables, ByTable, ByTwoTables, Form};
use crate::random::Random;

/// So many random inputs to the readers, and so many random codeblocks.
const INPUTS: usize = 10_000;
const CODEBLOCKS: usize = 10_000;

/// The information of the longest input, in octets.
const INFORMATION_MOST: usize = 511 * 7;

type Reader = fn(&[u8], u32, &mut [u8]) -> Read;
type Writer = fn(&[u8], &mut [u8]) -> Written;

/// So many forms, and those of them that read and write.
const FORMS: usize = 5;

const READERS: [Reader; FORMS] = [
    read::<BitByBit>,
    read::<ByTable>,
    read::<ByTwoTables>,
    read::<BySevenTables>,
    read::<AtOnce>,
];
const WRITERS: [Writer; FORMS] = [
    write::<BitByBit>,
    write::<ByTable>,
    write::<ByTwoTables>,
    write::<BySevenTables>,
    write::<AtOnce>,
];

/// Before a call the output holds these.
const UNTOUCHED: u8 = 0xA5;

pub fn check_plain() {
    let mut random = Random::new(13);
    let codeblocks = codeblocks(&mut random);
    check_parts::<BitByBit>(&codeblocks);
    check_parts::<ByTable>(&codeblocks);
    check_parts::<ByTwoTables>(&codeblocks);
    check_parts::<BySevenTables>(&codeblocks);
    check_parts::<AtOnce>(&codeblocks);
    check_writers(&mut random);
    check_readers(&mut random);
}

fn check_parts<F: Form>(codeblocks: &[[u8; 8]]) {
    check_codeblocks::<F>(codeblocks);
    check_sequence::<F>();
}

/// Good codeblocks: of each one bit of information, and random ones.
fn codeblocks(random: &mut Random) -> Vec<[u8; 8]> {
    let mut all = Vec::new();
    for bit in 0..56 {
        all.push((1u64 << bit).to_be_bytes()[1..].to_vec());
    }
    for _ in 0..CODEBLOCKS {
        all.push(random.octets(7));
    }
    let coded = all.into_iter().map(|seven| with_error_control(&seven));
    coded.map(|eight| eight.try_into().unwrap()).collect()
}

/// The error control octets, and the wrong bit of each difference.
fn check_codeblocks<F: Form>(codeblocks: &[[u8; 8]]) {
    let mut bits = [CODEBLOCK_BITS - 1; 128];
    for (number, codeblock) in codeblocks.iter().enumerate() {
        assert!(F::error_control(codeblock) == codeblock[7]);
        let bit = number % (CODEBLOCK_BITS - 1);
        let mut wrong = *codeblock;
        wrong[bit / 8] ^= 0x80 >> (bit % 8);
        let difference = F::error_control(&wrong) ^ wrong[7];
        bits[usize::from(difference / 2)] = bit;
        assert!(F::wrong_bit(difference) == bit);
    }
    for (difference, bit) in bits.into_iter().enumerate() {
        assert!(F::wrong_bit(2 * difference as u8) == bit);
    }
}

/// The random sequence, as long as any information.
fn check_sequence<F: Form>() {
    let places = 0..INFORMATION_MOST as u64;
    let sequence: Vec<u8> = places.map(|n| randomizer::octet(n, Fault::None)).collect();
    for length in 0..=sequence.len() {
        let mut octets = vec![0; length];
        F::randomize(&mut octets);
        assert!(octets == sequence[..length]);
    }
}

/// Each form answers, and leaves the output, as the independent side does.
fn check_all<F, A: PartialEq>(
    room: usize,
    independent: impl Fn(&mut [u8]) -> A,
    forms: [F; FORMS],
    call: impl Fn(F, &mut [u8]) -> A,
) -> A {
    let mut left = vec![UNTOUCHED; room];
    let answer = independent(&mut left);
    for form in forms {
        let mut output = vec![UNTOUCHED; room];
        assert!(call(form, &mut output) == answer && output == left);
    }
    answer
}

/// Frames of each length up to beyond the limit, with each room about the need.
fn check_writers(random: &mut Random) {
    for length in (0..=260).chain(1020..=1028) {
        let frame = random.octets(length);
        let need = cltu::encode(&frame, Fault::None).len();
        for room in [0, need - 1, need, need + 1] {
            let independent = |output: &mut [u8]| cltu::write(&frame, output, Fault::None);
            check_all(room, independent, WRITERS, |write, output| {
                write(&frame, output)
            });
        }
    }
}

/// Inputs of each kind that the comparison has, in each mode and one that is none. Each
/// number must be met, and corrected codeblocks.
fn check_readers(random: &mut Random) {
    let mut met = [false; 16];
    let mut corrected = 0;
    for _ in 0..INPUTS {
        let input = for_the_reader(random);
        for mode in [DETECTING, CORRECTING, 2] {
            let told = check_read(&input, mode, input.len());
            let need = told.count as usize;
            for room in [need, need.saturating_sub(1)] {
                met[usize::from(check_read(&input, mode, room).number)] = true;
            }
            met[usize::from(told.number)] = true;
            corrected += told.corrected;
        }
    }
    for number in [DONE, NO_START, NO_BLOCK, NO_END, LENGTH, ROOM, SETTING] {
        assert!(met[usize::from(number)], "{number} not met");
    }
    assert!(corrected > 0);
}

fn check_read(input: &[u8], mode: u32, room: usize) -> Read {
    let independent = |output: &mut [u8]| cltu::read(input, mode, output, Fault::None);
    check_all(room, independent, READERS, |read, output| {
        read(input, mode, output)
    })
}
