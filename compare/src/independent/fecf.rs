//! The Frame Error Control Field (clause 6.2.4).

use crate::fault::Fault;

pub const FECF_BITS: usize = 16;

/// G(X) = X^16 + X^12 + X^5 + 1 (clause 6.2.4.2): its powers.
const GENERATOR: [usize; 4] = [16, 12, 5, 0];

/// The remainder of X^16 M(X) + X^(n-16) L(X), divided by G(X), where the message M has
/// n - 16 bits and L(X) has all powers from 15 to 0 (clause 6.2.4.2). The first bit has
/// the highest power.
pub fn field(message: &[bool], fault: Fault) -> Vec<bool> {
    // X^16 M(X), whose n bits have the powers n - 1 to 0.
    let mut dividend = message.to_vec();
    dividend.extend([false; FECF_BITS]);

    // X^(n-16) L(X), which has the powers n - 1 to n - 16.
    if fault != Fault::FecfPresetZero {
        for bit in &mut dividend[..FECF_BITS] {
            *bit = !*bit;
        }
    }

    // From each bit that is one, as long as it has power 16 or more, G(X) is taken away
    // with its highest power there.
    for first in 0..message.len() {
        if dividend[first] {
            for power in GENERATOR {
                dividend[first + 16 - power] ^= true;
            }
        }
    }
    dividend[message.len()..].to_vec()
}

/// No error is detected: the syndrome is zero (clause 6.2.4.3). It is the remainder of
/// X^16 C*(X) + X^n L(X), where the received block C* has n bits, its FECF included.
pub fn is_right(received: &[bool], fault: Fault) -> bool {
    field(received, fault) == [false; FECF_BITS]
}

#[cfg(test)]
mod tests {
    use super::*;
    use crate::bits;

    fn of_octets(octets: &[u8]) -> Vec<u8> {
        bits::to_octets(&field(&bits::from_octets(octets), Fault::None))
    }

    // Document 01, Frame.
    #[test]
    fn two_zeros() {
        assert_eq!(of_octets(&[0, 0]), [0x1D, 0x0F]);
    }

    // X^0 L(X), which is below X^16.
    #[test]
    fn no_message() {
        assert_eq!(of_octets(&[]), [0xFF, 0xFF]);
    }

    // G(X) itself has the remainder zero, so it can be added anywhere.
    #[test]
    fn multiples_of_the_generator_add_nothing() {
        let message = bits::from_octets(&[0x12, 0x34, 0x56, 0x78]);
        for first in 0..16 {
            let mut other = message.clone();
            for power in GENERATOR {
                other[first + 16 - power] ^= true;
            }
            assert_eq!(field(&other, Fault::None), field(&message, Fault::None));
        }
    }

    // The FECF is the one field that leaves no syndrome: the procedures of clauses
    // 6.2.4.2 and 6.2.4.3 agree.
    #[test]
    fn only_the_field_itself_is_right() {
        for length in 0..40 {
            let message: Vec<u8> = (0..length).map(|n| (37 * n + length) as u8).collect();
            let message = bits::from_octets(&message);
            let field = field(&message, Fault::None);
            let step = if length < 3 { 1 } else { 251 };
            for change in (0..=0xFFFF).step_by(step) {
                let mut other = field.clone();
                bits::put(&mut other, 0..=15, bits::get(&field, 0..=15) ^ change);
                let received = [&message[..], &other].concat();
                assert_eq!(is_right(&received, Fault::None), change == 0);
            }
        }
    }

    // Clause 6.2.4.1, note 2: an odd number of bits in error, two bits, and one burst of
    // 16 bits or less are detected.
    #[test]
    fn errors_are_detected() {
        let mut block = bits::from_octets(&[0x30, 0x01, 0x00, 0x09, 0x00, 0x82, 0x00, 0x05]);
        block.extend(field(&block, Fault::None));
        assert!(is_right(&block, Fault::None));
        for one in 0..block.len() {
            block[one] ^= true;
            assert!(!is_right(&block, Fault::None));
            for other in 0..one {
                block[other] ^= true;
                assert!(!is_right(&block, Fault::None));
                if other > 0 {
                    block[other / 2] ^= true;
                    assert!(!is_right(&block, Fault::None));
                    block[other / 2] ^= true;
                }
                block[other] ^= true;
            }
            block[one] ^= true;
        }
        for first in 0..=block.len() - 16 {
            for burst in (1..=0xFFFF).step_by(59) {
                let burst_at = first..=first + 15;
                let sent = bits::get(&block, burst_at.clone());
                bits::put(&mut block, burst_at.clone(), sent ^ burst);
                assert!(!is_right(&block, Fault::None));
                bits::put(&mut block, burst_at, sent);
            }
        }
    }
}
