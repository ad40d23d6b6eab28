//! The CLTU: start sequence, codeblocks, tail sequence (clause 8.3.1),
//! written and read by the rules of document 01, as document 02 amends them.

use crate::bits;
use crate::codeblock::{self, CODEBLOCK_BITS, CORRECTING, DETECTING, INFORMATION_BITS};
use crate::fault::Fault;
use crate::frame::{FRAME_LEAST, FRAME_MOST};
use crate::output::{self, Written};
use crate::randomizer;
use crate::refusal::{DONE, LENGTH, NO_BLOCK, NO_END, NO_START, ROOM, SETTING};

/// Clause 8.3.2.
pub const START_SEQUENCE: [u8; 2] = [0xEB, 0x90];

/// Clause 8.3.4.
pub const TAIL_SEQUENCE: [u8; 8] = [0xC5, 0xC5, 0xC5, 0xC5, 0xC5, 0xC5, 0xC5, 0x79];

/// Alternating ones and zeros, starting with a zero (clause 8.6).
pub const FILL: u8 = 0x55;

/// The limit of the reader's input, in octets (document 01, Limits).
const INPUT_MOST: usize = 4096;

/// The answer of reading.
#[derive(Clone, Copy, PartialEq, Eq, Debug)]
pub struct Read {
    /// The number of document 01, Refusals.
    pub number: u8,
    /// The octets handed out.
    pub count: u64,
    /// The place in the input, in octets.
    pub place: u64,
    /// The codeblocks corrected (document 02, order 3).
    pub corrected: u64,
}

/// The CLTU of a frame of any length.
pub fn encode(frame: &[u8], fault: Fault) -> Vec<u8> {
    // Fill completes the last codeblock (clause 8.6).
    let mut data = bits::from_octets(frame);
    let fill = if fault == Fault::FillZero { 0 } else { FILL };
    while data.len() % INFORMATION_BITS != 0 {
        data.extend(bits::from_octets(&[fill]));
    }

    // Data and fill are randomized before they are encoded (clauses 8.4.2 and 8.4.4).
    let randomized = randomizer::apply(&data, fault);

    let mut cltu = bits::from_octets(&START_SEQUENCE);
    for information in randomized.chunks(INFORMATION_BITS) {
        cltu.extend(information);
        cltu.extend(codeblock::error_control(information, fault));
    }
    cltu.extend(bits::from_octets(&TAIL_SEQUENCE));
    bits::to_octets(&cltu)
}

/// Writes a frame as a CLTU (document 01, Refusals: 10, then 11).
pub fn write(frame: &[u8], output: &mut [u8], fault: Fault) -> Written {
    if frame.len() < FRAME_LEAST || frame.len() > FRAME_MOST {
        return Written::refused(LENGTH);
    }
    output::write(&encode(frame, fault), output, fault)
}

/// Reads a CLTU in the mode of that number (document 01, Refusals: 10, 1, then 2 or 3, then
/// 11; another mode is 12, after 10 and before 1).
pub fn read(input: &[u8], mode: u32, output: &mut [u8], fault: Fault) -> Read {
    let known = mode == DETECTING || mode == CORRECTING;
    if fault == Fault::ModeBeforeLength && !known {
        return refuse(SETTING, 0);
    }
    if input.len() > INPUT_MOST {
        return refuse(LENGTH, 0);
    }
    if !known {
        return refuse(SETTING, 0);
    }

    // Search (clause 8.7, state S2).
    let received = bits::from_octets(input);
    let Some(start) = find_start_sequence(&received, fault) else {
        return refuse(NO_START, received.len());
    };

    // Decode (clause 8.7, state S3), until a codeblock is rejected (event E4).
    let mut next = start + 8 * START_SEQUENCE.len();
    let mut data = Vec::new();
    let mut corrected = 0;
    loop {
        if received.len() - next < CODEBLOCK_BITS {
            return refuse(NO_END, next);
        }
        let block = &received[next..next + CODEBLOCK_BITS];
        let Some(accepted) = codeblock::judge(block, mode, fault) else {
            break;
        };
        data.extend(accepted.information);
        corrected += accepted.corrected;
        next += CODEBLOCK_BITS;
    }
    if data.is_empty() {
        return refuse(NO_BLOCK, next);
    }

    // The decoded data are derandomized, fill included (clauses 8.4.4 and 8.6).
    let decoded = bits::to_octets(&randomizer::apply(&data, fault));
    if output.len() < decoded.len() {
        return refuse(ROOM, 0);
    }
    output::hand_out(&decoded, output, fault);
    if fault == Fault::PlaceOffByEight {
        next += CODEBLOCK_BITS;
    }
    Read {
        number: DONE,
        count: decoded.len() as u64,
        place: next as u64 / 8,
        corrected,
    }
}

/// The bit at which the first start sequence begins: sixteen bits at an octet boundary, of
/// which at most one differs from it (clause 8.3.2; document 02, order 2).
fn find_start_sequence(received: &[bool], fault: Fault) -> Option<usize> {
    let most_errors = match fault {
        Fault::RefusesAll => return None,
        Fault::StartExact => 0,
        Fault::StartTwoErrors => 2,
        _ => 1,
    };
    let pattern = bits::from_octets(&START_SEQUENCE);
    let mut first = 0;
    while first + pattern.len() <= received.len() {
        let sixteen = &received[first..first + pattern.len()];
        let errors = sixteen
            .iter()
            .zip(&pattern)
            .filter(|(one, other)| one != other)
            .count();
        if errors <= most_errors {
            return Some(first);
        }
        first += 8;
    }
    None
}

/// A refusal, with its place given in bits.
fn refuse(number: u8, place: usize) -> Read {
    Read {
        number,
        count: 0,
        place: place as u64 / 8,
        corrected: 0,
    }
}

#[cfg(test)]
mod tests {
    use super::*;

    fn frame(length: usize) -> Vec<u8> {
        (0..length).map(|n| (37 * n + 11) as u8).collect()
    }

    fn written(length: usize) -> Vec<u8> {
        let mut output = vec![0; 1200];
        let answer = write(&frame(length), &mut output, Fault::None);
        assert_eq!(answer.number, DONE);
        output.truncate(answer.count as usize);
        output
    }

    fn read_into(input: &[u8], room: usize) -> (Read, Vec<u8>) {
        let mut output = vec![0xAA; room];
        let answer = read(input, DETECTING, &mut output, Fault::None);
        (answer, output)
    }

    // Document 02, order 3: a bit in error in the start sequence, in each codeblock and in the
    // tail; each codeblock counts.
    #[test]
    fn one_wrong_bit_in_each_part() {
        let whole = written(20);
        let (as_written, octets) = read_into(&whole, 30);
        let mut input = whole.clone();
        input[1] ^= 0x10;
        for codeblock in 0..4 {
            input[2 + 8 * codeblock + 2 * codeblock] ^= 0x80 >> codeblock;
        }
        let mut output = vec![0xAA; 30];
        let answer = read(&input, CORRECTING, &mut output, Fault::None);
        assert_eq!(
            answer,
            Read {
                corrected: 3,
                ..as_written
            }
        );
        assert_eq!(output, octets);
        let (answer, _) = read_into(&input, 30);
        assert_eq!(answer, refuse(NO_BLOCK, 8 * 2));
    }

    // Document 01, Codeblock and CLTU: 26 for n = 8, 306 for n = 256; document 02, order 7:
    // 1,186 for 1,024.
    #[test]
    fn lengths() {
        assert_eq!(written(8).len(), 26);
        assert_eq!(written(256).len(), 306);
        assert_eq!(written(1024).len(), 1186);
        for length in 8..=1024 {
            assert_eq!(written(length).len(), 2 + 8 * length.div_ceil(7) + 8);
        }
    }

    #[test]
    fn zeros_show_the_random_sequence_and_the_fill() {
        let mut output = [0; 26];
        write(&[0; 8], &mut output, Fault::None);
        assert_eq!(output[..7], [0xEB, 0x90, 0xFF, 0x39, 0x9E, 0x5A, 0x68]);
        for k in 8..14 {
            assert_eq!(
                output[2 + 1 + k],
                0x55 ^ randomizer::octet(k as u64, Fault::None)
            );
        }
        assert_eq!(output[18..], TAIL_SEQUENCE);
    }

    #[test]
    fn writing_refuses() {
        for (length, room, number) in [
            (0, 400, LENGTH),
            (7, 0, LENGTH),
            (1025, 1300, LENGTH),
            (8, 25, ROOM),
            (256, 305, ROOM),
            (1024, 1185, ROOM),
            (1024, 1186, DONE),
            (8, 26, DONE),
        ] {
            let mut output = vec![0xAA; room];
            let answer = write(&frame(length), &mut output, Fault::None);
            assert_eq!(answer.number, number);
            if number != DONE {
                assert_eq!(answer.count, 0);
                assert_eq!(output, vec![0xAA; room]);
            }
        }
    }

    #[test]
    fn what_is_written_is_read() {
        for length in (8..=256usize).chain(1018..=1024) {
            let decoded = 7 * length.div_ceil(7);
            let mut filled = frame(length);
            filled.resize(decoded, FILL);
            filled.push(0xAA);

            let mut input = vec![0xEB];
            input.extend(written(length));
            let (answer, output) = read_into(&input, decoded + 1);
            let place = 1 + 2 + 8 * length.div_ceil(7) as u64;
            assert_eq!(
                answer,
                Read {
                    number: DONE,
                    count: decoded as u64,
                    place,
                    corrected: 0
                }
            );
            assert_eq!(output, filled);

            let (answer, output) = read_into(&input, decoded - 1);
            assert_eq!(answer, refuse(ROOM, 0));
            assert_eq!(output, vec![0xAA; decoded - 1]);
        }
    }

    #[test]
    fn reading_refuses() {
        let whole = written(8);
        let mut bad = whole.clone();
        bad[5] ^= 1;
        let mut long = whole.clone();
        long.resize(4097, 0);
        for (input, number, place) in [
            (&long[..], LENGTH, 0),
            (&[], NO_START, 0),
            (&[0x90, 0xEB], NO_START, 2),
            (&[0xEB, 0xEB, 0x90], NO_END, 3),
            (&whole[..2], NO_END, 2),
            (&whole[..9], NO_END, 2),
            (&whole[..10], NO_END, 10),
            (&whole[..18], NO_END, 18),
            (&whole[..25], NO_END, 18),
            (&bad[..], NO_BLOCK, 2),
        ] {
            let (answer, output) = read_into(input, 20);
            assert_eq!(answer, refuse(number, 8 * place));
            assert_eq!(output, [0xAA; 20]);
        }
        let (answer, _) = read_into(&long[..4096], 20);
        assert_eq!((answer.number, answer.place), (DONE, 18));
    }
    /// The CLTU with the bits of a mask flipped in its start sequence.
    fn flipped(whole: &[u8], mask: u16) -> Vec<u8> {
        let mut input = whole.to_vec();
        input[0] ^= (mask >> 8) as u8;
        input[1] ^= mask as u8;
        input
    }

    // Document 02, order 2; clause 8.3.2.
    #[test]
    fn one_wrong_bit_of_the_start_sequence() {
        let whole = written(8);
        let as_written = read_into(&whole, 20);
        assert_eq!(as_written.0.number, DONE);
        for bit in 0..16 {
            assert_eq!(read_into(&flipped(&whole, 1 << bit), 20), as_written);
            for other in 0..bit {
                let (answer, _) = read_into(&flipped(&whole, 1 << bit | 1 << other), 20);
                assert_eq!(answer, refuse(NO_START, 8 * whole.len()));
            }
        }
    }

    // Document 02, order 2: "An earlier near match hides a later exact one".
    #[test]
    fn a_near_match_hides_an_exact_one() {
        let input = [&[0xEA, 0x90][..], &written(8)].concat();
        let (answer, _) = read_into(&input, 20);
        assert_eq!(answer, refuse(NO_BLOCK, 8 * 2));
        let (answer, _) = read_into(&input[2..], 20);
        assert_eq!((answer.number, answer.place), (DONE, 18));
    }
}
