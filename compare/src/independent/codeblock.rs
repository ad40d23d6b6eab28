//! The BCH codeblock: 56 information bits, 7 parity bits, filler bit (clause 8.2.1).

use crate::bits;
use crate::fault::Fault;
use crate::output;
use crate::refusal::{DONE, LENGTH, NO_BLOCK, ROOM, SETTING};

pub const INFORMATION_BITS: usize = 56;
pub const CODEBLOCK_BITS: usize = 64;

/// g(x) = x^7 + x^6 + x^2 + 1, from the coefficient of x^7 down (clause 8.5).
const GENERATOR: [bool; 8] = [true, true, false, false, false, true, false, true];

/// The remainder of the information times x^7, divided by g(x) (clause 8.5).
/// The first bit has the highest power.
fn parity_check_bits(information: &[bool]) -> Vec<bool> {
    let mut dividend = information.to_vec();
    dividend.extend([false; 7]);
    for first in 0..information.len() {
        if dividend[first] {
            for power in 0..8 {
                dividend[first + power] ^= GENERATOR[power];
            }
        }
    }
    dividend[information.len()..].to_vec()
}

/// The error control field: the parity check bits, each complemented, and the
/// filler bit zero (clause 8.2.3).
pub fn error_control(information: &[bool], fault: Fault) -> Vec<bool> {
    let mut field = parity_check_bits(information);
    if fault != Fault::ParityPlain {
        for bit in field.iter_mut() {
            *bit = !*bit;
        }
    }
    field.push(false);
    field
}

/// Good: all 64 bits equal the encoding of the first 56 (document 01, Codeblock and CLTU).
pub fn is_good(block: &[bool], fault: Fault) -> bool {
    if block.len() != CODEBLOCK_BITS {
        return false;
    }
    let (information, received) = block.split_at(INFORMATION_BITS);
    let encoded = error_control(information, fault);
    if fault == Fault::FillerIgnored {
        return received[..7] == encoded[..7];
    }
    received == encoded
}

/// The modes of clause 8.8, by number (document 02, order 3).
pub const DETECTING: u32 = 0;
pub const CORRECTING: u32 = 1;

/// A codeblock that is not bad: its information, and how many bits were corrected.
#[derive(Clone, PartialEq, Eq, Debug)]
pub struct Accepted {
    pub information: Vec<bool>,
    pub corrected: u64,
}

/// Document 02, order 3: good, or in the correcting mode one of the first 63 bits away from
/// good, or bad. Each of them is tried.
pub fn judge(block: &[bool], mode: u32, fault: Fault) -> Option<Accepted> {
    if is_good(block, fault) {
        return Some(Accepted {
            information: block[..INFORMATION_BITS].to_vec(),
            corrected: 0,
        });
    }
    let corrects = match fault {
        Fault::CorrectsNever => false,
        Fault::CorrectsWhenDetecting => true,
        _ => mode == CORRECTING,
    };
    if block.len() != CODEBLOCK_BITS || !corrects {
        return None;
    }
    let bits = match fault {
        Fault::CorrectsFiller => CODEBLOCK_BITS,
        _ => CODEBLOCK_BITS - 1,
    };
    for bit in 0..bits {
        let mut tried = block.to_vec();
        tried[bit] ^= true;
        if is_good(&tried, fault) {
            let mut corrected = 1;
            if fault == Fault::CorrectedParityUncounted && bit >= INFORMATION_BITS {
                corrected = 0;
            }
            if fault == Fault::CorrectsOnePlaceOff {
                tried[bit] ^= true;
                tried[bit + 1] ^= true;
            }
            return Some(Accepted {
                information: tried[..INFORMATION_BITS].to_vec(),
                corrected,
            });
        }
    }
    None
}

/// The answer of the judge at the boundary.
#[derive(Clone, Copy, PartialEq, Eq, Debug)]
pub struct Judged {
    /// The number of document 01, Refusals: 2 is a bad codeblock.
    pub number: u8,
    /// 1 where a bit was corrected.
    pub corrected: u8,
}

/// Judges octets as a codeblock and hands its information out: 10, 12, 2, then 11.
pub fn judge_octets(block: &[u8], mode: u32, output: &mut [u8], fault: Fault) -> Judged {
    let refused = |number| Judged {
        number,
        corrected: 0,
    };
    if 8 * block.len() != CODEBLOCK_BITS {
        return refused(LENGTH);
    }
    if mode != DETECTING && mode != CORRECTING {
        return refused(SETTING);
    }
    let Some(accepted) = judge(&bits::from_octets(block), mode, fault) else {
        return refused(NO_BLOCK);
    };
    let information = bits::to_octets(&accepted.information);
    if output.len() < information.len() {
        return refused(ROOM);
    }
    output::hand_out(&information, output, fault);
    Judged {
        number: DONE,
        corrected: accepted.corrected as u8,
    }
}

#[cfg(test)]
mod tests {
    use super::*;

    // Document 01, Codeblock and CLTU.
    #[test]
    fn five_codeblocks() {
        for (information, eighth) in [
            ([0, 0, 0, 0, 0, 0, 0], 0xFE),
            ([0xC5; 7], 0xFE),
            ([0, 0, 0, 0, 0, 0, 1], 0x74),
            ([0, 0, 0, 0, 0, 0, 2], 0x60),
            ([0, 0, 0, 0, 0, 0, 3], 0xEA),
        ] {
            let mut block = bits::from_octets(&information);
            let field = error_control(&block, Fault::None);
            assert_eq!(bits::to_octets(&field), [eighth]);
            block.extend(field);
            assert!(is_good(&block, Fault::None));
        }
    }

    // Clause 8.8: one, two or three bits in error are detected, the filler bit not
    // counted. Two are tried here, and the filler bit by itself.
    #[test]
    fn damaged_codeblocks_are_bad() {
        let mut block = bits::from_octets(&[0x12, 0x34, 0x56, 0x78, 0x9A, 0xBC, 0xDE]);
        block.extend(error_control(&block, Fault::None));
        for one in 0..64 {
            for other in 0..one {
                block[one] ^= true;
                assert!(!is_good(&block, Fault::None));
                block[other] ^= true;
                assert!(!is_good(&block, Fault::None));
                block[one] ^= true;
                block[other] ^= true;
            }
        }
        assert!(is_good(&block, Fault::None));
    }

    // Document 02, order 3: any one of the 63 bits is mended, any two of the 64 are bad, and
    // so is the tail with up to two bits in error.
    #[test]
    fn corrected_codeblocks() {
        let mut block = bits::from_octets(&[0x12, 0x34, 0x56, 0x78, 0x9A, 0xBC, 0xDE]);
        let information = block.clone();
        block.extend(error_control(&block, Fault::None));
        let tail = bits::from_octets(&[0xC5, 0xC5, 0xC5, 0xC5, 0xC5, 0xC5, 0xC5, 0x79]);
        for one in 0..64 {
            let mut damaged = block.clone();
            damaged[one] ^= true;
            let mended = Accepted {
                information: information.clone(),
                corrected: 1,
            };
            assert_eq!(
                judge(&damaged, CORRECTING, Fault::None),
                (one < 63).then_some(mended)
            );
            assert_eq!(judge(&damaged, DETECTING, Fault::None), None);
            for other in 0..one {
                damaged[other] ^= true;
                assert_eq!(judge(&damaged, CORRECTING, Fault::None), None);
                damaged[other] ^= true;
            }
            for other in 0..=one {
                let mut end = tail.clone();
                end[one] ^= true;
                assert_eq!(judge(&end, CORRECTING, Fault::None), None);
                end[other] ^= true;
                assert_eq!(judge(&end, CORRECTING, Fault::None), None);
            }
        }
    }

    #[test]
    fn the_tail_sequence_is_bad() {
        let tail = bits::from_octets(&[0xC5, 0xC5, 0xC5, 0xC5, 0xC5, 0xC5, 0xC5, 0x79]);
        assert!(!is_good(&tail, Fault::None));
    }

    #[test]
    fn other_lengths_are_bad() {
        for length in [0, 48, 64] {
            let mut block = vec![false; length];
            block.extend(error_control(&block, Fault::None));
            assert!(!is_good(&block, Fault::None));
        }
    }
}
