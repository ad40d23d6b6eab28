//! CLTUs written and read on octets, as a plain Rust program does it: what the benchmark
//! measures beside the library's. A call answers as the library's does, by a number and through
//! references, and allocates nothing. The forms differ in the check of a codeblock and in the
//! randomizer alone: `BitByBit`, `ByTable`, `ByTwoTables`, `BySevenTables` and `AtOnce`.

use independent::cltu::Read;
use independent::codeblock::{CORRECTING, DETECTING};
use independent::output::Written;
use independent::refusal::{DONE, LENGTH, NO_BLOCK, NO_END, NO_START, ROOM, SETTING};

/// Clauses 8.3.2, 8.3.4 and 8.6.
const START: u16 = 0xEB90;
const TAIL: [u8; CODEBLOCK] = [0xC5, 0xC5, 0xC5, 0xC5, 0xC5, 0xC5, 0xC5, 0x79];
const FILL: u8 = 0x55;

/// Octets: the start sequence, a codeblock and its information.
const START_OCTETS: usize = 2;
const CODEBLOCK: usize = 8;
const INFORMATION: usize = 7;

/// Bits of a codeblock: the information, and all but the filler bit.
const INFORMATION_BITS: usize = 56;
const CODED_BITS: usize = 63;

/// Document 01, Limits, and what follows from them.
const FRAME_LEAST: usize = 8;
const FRAME_MOST: usize = 1024;
const FILLED_MOST: usize = FRAME_MOST.next_multiple_of(INFORMATION);
const INPUT_MOST: usize = 4096;
const CODEBLOCKS_MOST: usize = (INPUT_MOST - START_OCTETS) / CODEBLOCK;

/// Clause 8.5: X^7 + X^6 + X^2 + 1, less its highest term, in the highest bits of a number.
const GENERATOR: u64 = 0b100_0101 << (64 - 7);

/// Clause 8.2.3: the parity bits are complemented, the filler bit is not.
const COMPLEMENT: u8 = 0xFE;

/// Clause 8.4.3: of the bits a(n) to a(n+7), the first in the highest place, those whose sum
/// is a(n+8); the first eight are ones; and the octets after which the sequence repeats.
const SUMMED: u8 = 0b1111_1010;
const PRESET: u8 = 0xFF;
const PERIOD: usize = 255;

/// What differs between the forms; all but one find the wrong bit and randomize by table.
pub trait Form {
    /// The error control octet of the seven octets before it.
    fn error_control(codeblock: &[u8; CODEBLOCK]) -> u8;

    /// The bit whose inversion makes this difference of the error control octets, its filler
    /// bit zero; `CODED_BITS` where there is none.
    fn wrong_bit(difference: u8) -> usize {
        WRONG_BITS[usize::from(difference >> 1)].into()
    }

    /// The octets exclusively ORed with the random sequence.
    fn randomize(octets: &mut [u8]) {
        for period in octets.chunks_mut(PERIOD) {
            for (octet, random) in period.iter_mut().zip(&SEQUENCE) {
                *octet ^= random;
            }
        }
    }
}

/// One step of the division by the generator: the highest bit leaves.
const fn step(dividend: u64) -> u64 {
    (dividend << 1) ^ ((dividend >> 63) * GENERATOR)
}

/// The remainder of so many of the highest bits times X^7, the other bits zero, and a zero
/// behind its seven bits.
const fn remainder(mut dividend: u64, bits: usize) -> u8 {
    let mut stepped = 0;
    while stepped < bits {
        dividend = step(dividend);
        stepped += 1;
    }
    (dividend >> INFORMATION_BITS) as u8
}

/// The powers of X gone through, from that of the last of the bits on.
const fn wrong_bit(difference: u8) -> usize {
    let mut power = 1 << (64 - 7);
    let mut bit = CODED_BITS;
    while bit > 0 {
        bit -= 1;
        if (power >> INFORMATION_BITS) as u8 == difference {
            return bit;
        }
        power = step(power);
    }
    CODED_BITS
}

/// The next bit of the random sequence behind seven of the eight.
const fn next(eight: u8) -> u8 {
    (eight << 1) | ((eight & SUMMED).count_ones() & 1) as u8
}

/// The eight bits behind these eight.
const fn next_octet(mut eight: u8) -> u8 {
    let mut place = 0;
    while place < 8 {
        eight = next(eight);
        place += 1;
    }
    eight
}

/// A bit at a time, without a table.
pub struct BitByBit;

impl Form for BitByBit {
    fn error_control(codeblock: &[u8; CODEBLOCK]) -> u8 {
        let information = u64::from_be_bytes(*codeblock) & !0xFF;
        remainder(information, INFORMATION_BITS) ^ COMPLEMENT
    }

    fn wrong_bit(difference: u8) -> usize {
        wrong_bit(difference)
    }

    fn randomize(octets: &mut [u8]) {
        let mut eight = PRESET;
        for octet in octets {
            *octet ^= eight;
            eight = next_octet(eight);
        }
    }
}

/// The remainder of each octet times X^7, and a zero behind it.
static REMAINDERS: [u8; 256] = {
    let mut table = [0; 256];
    let mut octet = 0;
    while octet < 256 {
        table[octet] = remainder((octet as u64) << INFORMATION_BITS, 8);
        octet += 1;
    }
    table
};

/// The wrong bit by the seven bits of a difference.
static WRONG_BITS: [u8; 128] = {
    let mut table = [0; 128];
    let mut difference = 0;
    while difference < 128 {
        table[difference] = wrong_bit((difference as u8) << 1) as u8;
        difference += 1;
    }
    table
};

/// One period of the random sequence.
static SEQUENCE: [u8; PERIOD] = {
    let mut sequence = [PRESET; PERIOD];
    let mut place = 1;
    while place < PERIOD {
        sequence[place] = next_octet(sequence[place - 1]);
        place += 1;
    }
    sequence
};

/// An octet at a time, by a table.
pub struct ByTable;

impl Form for ByTable {
    fn error_control(codeblock: &[u8; CODEBLOCK]) -> u8 {
        let mut remainder = 0;
        for octet in &codeblock[..INFORMATION] {
            remainder = REMAINDERS[usize::from(remainder ^ octet)];
        }
        remainder ^ COMPLEMENT
    }
}

/// The remainders of each octet in each place of the information.
static REMAINDERS_BY_PLACE: [[u8; 256]; INFORMATION] = {
    let mut tables = [[0; 256]; INFORMATION];
    let mut place = 0;
    while place < INFORMATION {
        let mut octet = 0;
        while octet < 256 {
            let information = (octet as u64) << (INFORMATION_BITS - 8 * place);
            tables[place][octet] = remainder(information, INFORMATION_BITS);
            octet += 1;
        }
        place += 1;
    }
    tables
};

/// The octets by a table each, none waiting for another.
pub struct BySevenTables;

impl Form for BySevenTables {
    fn error_control(codeblock: &[u8; CODEBLOCK]) -> u8 {
        let mut remainder = COMPLEMENT;
        for (octet, table) in codeblock.iter().zip(&REMAINDERS_BY_PLACE) {
            remainder ^= table[usize::from(*octet)];
        }
        remainder
    }
}

/// Two octets at a time, by the tables of the last two places: the library's own method.
pub struct ByTwoTables;

impl Form for ByTwoTables {
    fn error_control(codeblock: &[u8; CODEBLOCK]) -> u8 {
        let [.., first, second] = &REMAINDERS_BY_PLACE;
        let mut remainder = 0;
        for pair in codeblock[..INFORMATION - 1].chunks_exact(2) {
            remainder = first[usize::from(remainder ^ pair[0])] ^ second[usize::from(pair[1])];
        }
        second[usize::from(remainder ^ codeblock[INFORMATION - 1])] ^ COMPLEMENT
    }
}

/// All information bits at once.
pub struct AtOnce;

impl Form for AtOnce {
    /// The generator is (X^6 + X + 1) (X + 1), so that with Y for 1/X the quotient is the
    /// information over 1 + Y^5 + Y^6 and over 1 + Y. The inverse of 1 + f is the product of
    /// 1 + f, 1 + f^2, 1 + f^4 and on, as far as the powers of Y stay within the information.
    fn error_control(codeblock: &[u8; CODEBLOCK]) -> u8 {
        let mut quotient = u64::from_be_bytes(*codeblock) >> 8;
        for (one, other) in [(40, 48), (20, 24), (10, 12), (5, 6)] {
            quotient ^= (quotient >> one) ^ (quotient >> other);
        }
        for one in [32, 16, 8, 4, 2, 1] {
            quotient ^= quotient >> one;
        }
        let remainder = quotient ^ (quotient << 2) ^ (quotient << 6);
        (remainder << 1) as u8 ^ COMPLEMENT
    }
}

/// Writes a frame as a CLTU (document 01, Refusals: 10, then 11).
pub fn write<F: Form>(frame: &[u8], output: &mut [u8]) -> Written {
    let mut count = 0;
    let number = write_counted::<F>(frame, output, &mut count);
    Written { number, count }
}

#[inline(never)]
fn write_counted<F: Form>(frame: &[u8], output: &mut [u8], count: &mut u64) -> u8 {
    *count = 0;
    if frame.len() < FRAME_LEAST || frame.len() > FRAME_MOST {
        return LENGTH;
    }
    let codeblocks = frame.len().div_ceil(INFORMATION);
    let total = START_OCTETS + CODEBLOCK * codeblocks + TAIL.len();
    let Some(cltu) = output.get_mut(..total) else {
        return ROOM;
    };
    let mut information = [FILL; FILLED_MOST];
    information[..frame.len()].copy_from_slice(frame);
    F::randomize(&mut information[..INFORMATION * codeblocks]);
    let (start, rest) = cltu.split_at_mut(START_OCTETS);
    start.copy_from_slice(&START.to_be_bytes());
    let (coded, tail) = rest.split_at_mut(CODEBLOCK * codeblocks);
    let sevens = information.as_chunks::<INFORMATION>().0;
    for (codeblock, seven) in coded.as_chunks_mut().0.iter_mut().zip(sevens) {
        let mut eight = [0; CODEBLOCK];
        eight[..INFORMATION].copy_from_slice(seven);
        eight[INFORMATION] = F::error_control(&eight);
        *codeblock = eight;
    }
    tail.copy_from_slice(&TAIL);
    *count = total as u64;
    DONE
}

/// Reads a CLTU in the mode of that number (document 01, Refusals: 10, 12, 1, then 2 or 3,
/// then 11; document 02, orders 2 and 3).
pub fn read<F: Form>(input: &[u8], mode: u32, output: &mut [u8]) -> Read {
    let mut read = Read {
        number: DONE,
        count: 0,
        place: 0,
        corrected: 0,
    };
    let (count, place, corrected) = (&mut read.count, &mut read.place, &mut read.corrected);
    read.number = read_told::<F>(input, mode, output, count, place, corrected);
    read
}

#[inline(never)]
fn read_told<F: Form>(
    input: &[u8],
    mode: u32,
    output: &mut [u8],
    count: &mut u64,
    place: &mut u64,
    corrected: &mut u64,
) -> u8 {
    (*count, *place, *corrected) = (0, 0, 0);
    if input.len() > INPUT_MOST {
        return LENGTH;
    }
    if mode != DETECTING && mode != CORRECTING {
        return SETTING;
    }
    let Some(start) = input.windows(START_OCTETS).position(is_start) else {
        *place = input.len() as u64;
        return NO_START;
    };
    let first = start + START_OCTETS;
    let codeblocks = input[first..].as_chunks().0;
    let wrong: &mut [u16] = if mode == CORRECTING {
        &mut [0; CODEBLOCKS_MOST]
    } else {
        &mut []
    };
    let taken = take::<F>(codeblocks, mode, wrong);
    *place = (first + CODEBLOCK * taken.codeblocks) as u64;
    if taken.codeblocks == codeblocks.len() {
        return NO_END;
    }
    if taken.codeblocks == 0 {
        return NO_BLOCK;
    }
    let good = &codeblocks[..taken.codeblocks];
    if !hand_out::<F>(good, &wrong[..taken.wrong], output) {
        *place = 0;
        return ROOM;
    }
    *count = (INFORMATION * good.len()) as u64;
    *corrected = taken.corrected;
    DONE
}

/// Document 02, order 2: at most one bit differs.
fn is_start(sixteen: &[u8]) -> bool {
    let difference = u16::from_be_bytes([sixteen[0], sixteen[1]]) ^ START;
    difference & difference.wrapping_sub(1) == 0
}

/// The codeblocks before the first bad one, those of them that are corrected, and how many
/// wrong bits are noted.
struct Taken {
    codeblocks: usize,
    corrected: u64,
    wrong: usize,
}

/// Notes the wrong bits of the information, counted through all of it; those of the parity are
/// not handed out.
fn take<F: Form>(codeblocks: &[[u8; CODEBLOCK]], mode: u32, wrong: &mut [u16]) -> Taken {
    let mut corrected = 0;
    let mut noted = 0;
    let bad = codeblocks
        .iter()
        .enumerate()
        .position(|(number, codeblock)| {
            let difference = F::error_control(codeblock) ^ codeblock[INFORMATION];
            if difference == 0 {
                return false;
            }
            // A filler bit of one is bad in both modes.
            if mode == DETECTING || difference & 1 != 0 {
                return true;
            }
            let bit = F::wrong_bit(difference);
            if bit == CODED_BITS {
                return true;
            }
            wrong[noted] = (INFORMATION_BITS * number + bit) as u16;
            noted += usize::from(bit < INFORMATION_BITS);
            corrected += 1;
            false
        });
    Taken {
        codeblocks: bad.unwrap_or(codeblocks.len()),
        corrected,
        wrong: noted,
    }
}

/// The information of the codeblocks, mended and derandomized, where there is room for it.
fn hand_out<F: Form>(good: &[[u8; CODEBLOCK]], wrong: &[u16], output: &mut [u8]) -> bool {
    let Some(information) = output.get_mut(..INFORMATION * good.len()) else {
        return false;
    };
    let sevens = information.as_chunks_mut::<INFORMATION>().0;
    for (seven, codeblock) in sevens.iter_mut().zip(good) {
        seven.copy_from_slice(&codeblock[..INFORMATION]);
    }
    for bit in wrong {
        information[usize::from(bit / 8)] ^= 0x80 >> (bit % 8);
    }
    F::randomize(information);
    true
}
