//! Octets as vectors of bits. Bit 0 is the most significant bit of the first
//! octet, the one that is transmitted first.

use std::ops::RangeInclusive;

/// A field: its first and its last bit.
pub type Field = RangeInclusive<usize>;

pub fn from_octets(octets: &[u8]) -> Vec<bool> {
    let mut bits = Vec::with_capacity(8 * octets.len());
    for octet in octets {
        for bit in 0..8 {
            bits.push(octet & (0x80 >> bit) != 0);
        }
    }
    bits
}

/// The number of bits is a multiple of eight.
pub fn to_octets(bits: &[bool]) -> Vec<u8> {
    assert!(bits.len() % 8 == 0);
    let mut octets = Vec::with_capacity(bits.len() / 8);
    for eight in bits.chunks(8) {
        let mut octet = 0;
        for &bit in eight {
            octet = 2 * octet + bit as u8;
        }
        octets.push(octet);
    }
    octets
}

/// The number that a field holds, its most significant bit first.
pub fn get(bits: &[bool], field: Field) -> usize {
    let mut value = 0;
    for &bit in &bits[field] {
        value = 2 * value + bit as usize;
    }
    value
}

/// Lays a number out in a field, which is wide enough for it.
pub fn put(bits: &mut [bool], field: Field, value: usize) {
    let mut rest = value;
    for bit in bits[field].iter_mut().rev() {
        *bit = rest % 2 == 1;
        rest /= 2;
    }
    assert!(rest == 0);
}

#[cfg(test)]
mod tests {
    use super::*;

    #[test]
    fn most_significant_bit_first() {
        let bits = from_octets(&[0x80, 0x01]);
        assert_eq!(bits.len(), 16);
        for (n, bit) in bits.iter().enumerate() {
            assert_eq!(*bit, n == 0 || n == 15);
        }
    }

    #[test]
    fn there_and_back() {
        let octets: Vec<u8> = (0..=255).collect();
        assert_eq!(to_octets(&from_octets(&octets)), octets);
    }

    #[test]
    fn a_field_is_laid_out_and_taken() {
        let mut bits = vec![true; 16];
        put(&mut bits, 6..=15, 0x2A5);
        assert_eq!(to_octets(&bits), [0xFE, 0xA5]);
        assert_eq!(get(&bits, 6..=15), 0x2A5);
        assert_eq!(get(&bits, 6..=6), 1);
        assert_eq!(get(&bits, 7..=7), 0);
    }
}
