//! The octets of the random sequence.

use super::Operation;
use crate::check::{agree, show_answers, Octet, Tally};
use crate::library;
use crate::random::Random;
use independent::fault::Fault;
use independent::randomizer;

pub const OCTET: Operation = Operation {
    name: "randomizer_octet",
    share: 10,
    numbers: &[],
    kinds: &[],
    fixed: octet_fixed,
    random: octet_random,
};

/// Document 01, Codeblock and CLTU: the first five octets, after 255 bits again.
fn octet_fixed(tally: &mut Tally, fault: Fault) {
    for (k, value) in [0xFF, 0x39, 0x9E, 0x5A, 0x68].into_iter().enumerate() {
        octet(k as u64, Some(Octet(value)), tally, fault);
        octet(255 + k as u64, Some(Octet(value)), tally, fault);
    }
    // 2^64 - 1 is a multiple of 255.
    octet(u64::MAX, Some(Octet(0xFF)), tally, fault);
}

fn octet_random(random: &mut Random, tally: &mut Tally, fault: Fault) {
    let near = random.number() % 5;
    let k = match random.below(5) {
        // Small.
        0 => random.number() % 1000,
        // Around multiples of 255, small and huge.
        1 => 255 * (1 + random.number() % 20) - 2 + near,
        2 => 255 * (1 + random.number() % (u64::MAX / 255 - 1)) - 2 + near,
        // Around powers of two, where a product by eight passes 64 bits too.
        3 => (1u64 << random.below(64))
            .wrapping_sub(2)
            .wrapping_add(near),
        _ => random.number(),
    };
    octet(k, None, tally, fault);
}

fn octet(k: u64, paper: Option<Octet>, tally: &mut Tally, fault: Fault) {
    let library = Octet(library::randomizer_octet(k));
    let independent = Octet(randomizer::octet(k, fault));

    let same = agree(&library, &independent, &paper);
    tally.compared(same, || {
        format!("  k: {k}\n") + &show_answers(&library, &independent, &paper)
    });
}
