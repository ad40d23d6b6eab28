//! The Frame Error Control Field.

use super::{every_length, Operation};
use crate::check::{agree, show_answers, show_octets, Tally, TwoOctets};
use crate::library;
use crate::random::Random;
use independent::bits;
use independent::fault::Fault;
use independent::fecf;
use independent::frame::FRAME_MOST;

pub const FECF: Operation = Operation {
    name: "fecf",
    share: 10,
    numbers: &[],
    kinds: &[],
    fixed: fecf_fixed,
    random: fecf_random,
};

/// Document 01, Frame: two octets 00 00. Clause 6.2.4.2: L(X) alone where n is 16. Published in catalogues of cyclic codes for
/// this generator and preset: the check value of the digits 1 to 9.
fn fecf_fixed(tally: &mut Tally, fault: Fault) {
    compare(&[0, 0], Some(TwoOctets(0x1D0F)), tally, fault);
    compare(&[], Some(TwoOctets(0xFFFF)), tally, fault);
    compare(b"123456789", Some(TwoOctets(0x29B1)), tally, fault);
    for octet in 0..=255 {
        compare(&[octet], None, tally, fault);
    }
}

/// Every length up to 1,030, one after the other, the short ones more often.
fn fecf_random(random: &mut Random, tally: &mut Tally, fault: Fault) {
    let length = every_length(tally, FRAME_MOST + 6);
    let mut message = match random.below(4) {
        0 => vec![*random.pick(&[0x00, 0xFF]); length],
        _ => random.octets(length),
    };
    if length > 0 && random.once_in(4) {
        random.flip_a_bit(&mut message);
    }
    compare(&message, None, tally, fault);
}

fn compare(message: &[u8], paper: Option<TwoOctets>, tally: &mut Tally, fault: Fault) {
    let mut lent = message.to_vec();
    let library = TwoOctets(library::fecf(&mut lent));
    let field = fecf::field(&bits::from_octets(message), fault);
    let independent = TwoOctets(bits::get(&field, 0..=15) as u16);

    let same = agree(&library, &independent, &paper) && lent == message;
    tally.compared(same, || {
        show_octets("message", message)
            + &show_octets("message after the call", &lent)
            + &show_answers(&library, &independent, &paper)
    });
}
