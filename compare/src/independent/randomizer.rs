//! The randomizer (clause 8.4).

use crate::bits;
use crate::codeblock::{CODEBLOCK_BITS, INFORMATION_BITS};
use crate::fault::Fault;

/// The random sequence repeats after so many bits (clause 8.4.3).
const PERIOD: usize = 255;

/// The first bits of the random sequence (clause 8.4.3). It begins with eight ones,
/// and h(x) = x^8 + x^6 + x^4 + x^3 + x^2 + x + 1 gives each further bit:
/// a(n+8) = a(n+6) + a(n+4) + a(n+3) + a(n+2) + a(n+1) + a(n).
fn sequence(length: usize) -> Vec<bool> {
    let mut a = vec![true; 8];
    for n in 0..length.saturating_sub(8) {
        a.push(a[n + 6] ^ a[n + 4] ^ a[n + 3] ^ a[n + 2] ^ a[n + 1] ^ a[n]);
    }
    a.truncate(length);
    a
}

/// Octet k of the random sequence, k from 0.
pub fn octet(k: u64, fault: Fault) -> u8 {
    let one_period = sequence(PERIOD);
    let mut eight = Vec::new();
    for bit in 0..8 {
        let mut n = 8 * k as u128 + bit;
        if fault == Fault::RandomizerLate {
            n += 1;
        }
        eight.push(one_period[(n % PERIOD as u128) as usize]);
    }
    bits::to_octets(&eight)[0]
}

/// The random sequence, from its first bit on, exclusively ORed with the
/// information bits of a CLTU, bit by bit (clause 8.4.4). The same randomizes
/// and derandomizes. The error control fields are no part of the data.
pub fn apply(data: &[bool], fault: Fault) -> Vec<bool> {
    let error_control_bits = CODEBLOCK_BITS - INFORMATION_BITS;
    let codeblocks = data.len().div_ceil(INFORMATION_BITS);
    let a = sequence(codeblocks * CODEBLOCK_BITS + 1);
    let mut result = Vec::with_capacity(data.len());
    for (n, bit) in data.iter().enumerate() {
        let place = match fault {
            Fault::RandomizerThrough => n + error_control_bits * (n / INFORMATION_BITS),
            Fault::RandomizerLate => n + 1,
            _ => n,
        };
        result.push(bit ^ a[place]);
    }
    result
}

#[cfg(test)]
mod tests {
    use super::*;

    // The 40 bits printed in clause 8.4.3.
    #[test]
    fn printed_bits() {
        let mut printed = String::new();
        for bit in sequence(40) {
            printed.push(if bit { '1' } else { '0' });
        }
        assert_eq!(printed, "1111111100111001100111100101101001101000");
    }

    // Document 01, Codeblock and CLTU.
    #[test]
    fn five_octets() {
        for (k, value) in [0xFF, 0x39, 0x9E, 0x5A, 0x68].into_iter().enumerate() {
            assert_eq!(octet(k as u64, Fault::None), value);
        }
    }

    // Clause 8.4.3: it repeats after 255 bits, and after no fewer.
    #[test]
    fn period() {
        let a = sequence(3 * PERIOD);
        for shift in 1..=PERIOD {
            let repeats = a[..2 * PERIOD] == a[shift..shift + 2 * PERIOD];
            assert_eq!(repeats, shift == PERIOD);
        }
    }

    #[test]
    fn octets_are_the_sequence() {
        let octets = bits::to_octets(&sequence(8 * 1000));
        for (k, value) in octets.into_iter().enumerate() {
            assert_eq!(octet(k as u64, Fault::None), value);
        }
        // 2^64 - 1 is a multiple of 255.
        assert_eq!(octet(u64::MAX, Fault::None), octet(0, Fault::None));
    }

    #[test]
    fn applied_to_zeros_it_is_the_sequence() {
        for length in [0, 56, 112, 2072] {
            assert_eq!(apply(&vec![false; length], Fault::None), sequence(length));
        }
    }
}
