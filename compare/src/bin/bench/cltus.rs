//! CLTUs: the library beside the plain program in each form, the independent side, and a copy
//! of the input.

use std::hint::black_box;

use independent::cltu::{self, Read, START_SEQUENCE, TAIL_SEQUENCE};
use independent::codeblock::{CODEBLOCK_BITS, CORRECTING, DETECTING, INFORMATION_BITS};
use independent::fault::Fault;
use independent::output::Written;
use independent::refusal::{DONE, NO_START};

use crate::inputs::cltu::with_error_control;
use crate::measure::{check, measure, sample, samples, side, Answering, Row, Side};
use crate::plain_cltu::{self, AtOnce, BitByBit, BySevenTables, ByTable, ByTwoTables, Form};
use crate::random::Random;
use crate::{library, FRAME};

pub const SIDES: [&str; 8] = [
    "Library",
    "Plain bit by bit",
    "Plain by table",
    "Plain by two tables",
    "Plain 56 bits at once",
    "Plain by seven tables",
    "Independent",
    "Copy of the input",
];

/// So many after the library are the plain program's; and the library and the independent side.
pub const PLAIN: usize = 5;
pub const BOTH: [usize; 2] = [0, 6];

type CltuRow = Row<{ SIDES.len() }>;

const CLTU: usize = 306;
const INPUT: usize = 4096;
const CODEBLOCKS: usize = 510;

/// Octets of a codeblock and of its information.
const CODEBLOCK: usize = CODEBLOCK_BITS / 8;
const INFORMATION: usize = INFORMATION_BITS / 8;

/// A start sequence, good codeblocks, a tail sequence, and zeros up to the limit.
fn longest_input(seed: usize) -> Vec<u8> {
    let mut input = START_SEQUENCE.to_vec();
    for information in sample(seed, CODEBLOCKS * INFORMATION).chunks(INFORMATION) {
        input.extend(with_error_control(information));
    }
    input.extend(TAIL_SEQUENCE);
    input.resize(INPUT, 0);
    input
}

/// The same with one of the first 63 bits of each codeblock inverted.
fn with_wrong_bits(seed: usize) -> Vec<u8> {
    let mut input = longest_input(seed);
    let mut random = Random::new(seed as u64);
    let codeblocks = input[START_SEQUENCE.len()..].chunks_mut(CODEBLOCK);
    for codeblock in codeblocks.take(CODEBLOCKS) {
        let bit = random.below(CODEBLOCK_BITS - 1);
        codeblock[bit / 8] ^= 0x80 >> (bit % 8);
    }
    input
}

/// Random octets up to the limit, in which nothing is within one bit of a start sequence.
fn without_start(seed: usize) -> Vec<u8> {
    let mut input = sample(seed, INPUT);
    let start = u16::from_be_bytes(START_SEQUENCE);
    for place in 1..INPUT {
        let sixteen = u16::from_be_bytes([input[place - 1], input[place]]);
        if (sixteen ^ start).count_ones() <= 1 {
            // The second octet is then two bits away.
            input[place] = 0;
        }
    }
    input
}

/// A side that answers as reading or writing does.
type CltuSide<A> = Box<dyn Answering<Vec<u8>, A>>;

/// Checks that the sides answer alike, then measures them and a copy of the input.
fn beside_copy<A: PartialEq>(
    name: &str,
    inputs: &[Vec<u8>],
    mut sides: [CltuSide<A>; SIDES.len() - 1],
) -> CltuRow {
    check(name, &mut sides);
    let length = inputs[0].len();
    let mut copy = side(inputs, length, |input, output| {
        output.copy_from_slice(input)
    });
    let [library, by_bit, by_table, by_two, at_once, by_seven, independent] =
        sides.each_mut().map(|side| &mut **side as &mut dyn Side);
    let sides = [
        library,
        by_bit,
        by_table,
        by_two,
        at_once,
        by_seven,
        independent,
        &mut *copy,
    ];
    measure(name, 1, sides)
}

pub fn write() -> CltuRow {
    let frames = samples(|seed| sample(seed, FRAME));
    let sides = [
        side(&frames, CLTU, |frame, output| {
            library::cltu_write(frame, output)
        }),
        plain_write::<BitByBit>(&frames),
        plain_write::<ByTable>(&frames),
        plain_write::<ByTwoTables>(&frames),
        plain_write::<AtOnce>(&frames),
        plain_write::<BySevenTables>(&frames),
        side(&frames, CLTU, |frame, output| {
            cltu::write(frame, output, Fault::None)
        }),
    ];
    beside_copy("CLTU write, frame of 256 octets", &frames, sides)
}

fn plain_write<F: Form>(frames: &[Vec<u8>]) -> CltuSide<Written> {
    side(frames, CLTU, |frame, output| {
        plain_cltu::write::<F>(frame, output)
    })
}

/// The independent side must answer each input with this number, so many codeblocks and so
/// many corrected ones.
fn read(
    name: &str,
    inputs: &[Vec<u8>],
    mode: u32,
    (number, codeblocks, corrected): (u8, usize, usize),
) -> CltuRow {
    let room = codeblocks * INFORMATION;
    for input in inputs {
        let read = cltu::read(input, mode, &mut vec![0; room], Fault::None);
        assert!(read.number == number);
        assert!((read.count, read.corrected) == (room as u64, corrected as u64));
    }
    // No side may take the mode for a constant.
    let mode = black_box(mode);
    let sides = [
        side(inputs, room, move |input, output| {
            library::cltu_read(input, mode, output)
        }),
        plain_read::<BitByBit>(inputs, room, mode),
        plain_read::<ByTable>(inputs, room, mode),
        plain_read::<ByTwoTables>(inputs, room, mode),
        plain_read::<AtOnce>(inputs, room, mode),
        plain_read::<BySevenTables>(inputs, room, mode),
        side(inputs, room, move |input, output| {
            cltu::read(input, mode, output, Fault::None)
        }),
    ];
    beside_copy(name, inputs, sides)
}

fn plain_read<F: Form>(inputs: &[Vec<u8>], room: usize, mode: u32) -> CltuSide<Read> {
    side(inputs, room, move |input, output| {
        plain_cltu::read::<F>(input, mode, output)
    })
}

/// The CLTU of one frame.
pub fn read_one() -> [CltuRow; 2] {
    let cltus = samples(|seed| cltu::encode(&sample(seed, FRAME), Fault::None));
    assert!(cltus[0].len() == CLTU);
    let told = (DONE, FRAME.div_ceil(INFORMATION), 0);
    [(DETECTING, "detecting"), (CORRECTING, "correcting")].map(|(mode, named)| {
        read(
            &format!("CLTU read, CLTU of 306 octets, {named}"),
            &cltus,
            mode,
            told,
        )
    })
}

pub fn read_longest() -> [CltuRow; 3] {
    let name = "CLTU read, 4,096 octets with 510 codeblocks";
    let good = samples(longest_input);
    let wrong = samples(with_wrong_bits);
    let told = (DONE, CODEBLOCKS, 0);
    let told_wrong = (DONE, CODEBLOCKS, CODEBLOCKS);
    [
        read(&format!("{name}, detecting"), &good, DETECTING, told),
        read(&format!("{name}, correcting"), &good, CORRECTING, told),
        read(
            &format!("{name}, a wrong bit in each, correcting"),
            &wrong,
            CORRECTING,
            told_wrong,
        ),
    ]
}

/// Hunting through a whole input, in vain.
pub fn hunt() -> CltuRow {
    let name = "CLTU read, 4,096 octets without a start sequence";
    read(name, &samples(without_start), DETECTING, (NO_START, 0, 0))
}
