//! Inputs to the CLCW reader.

use super::{any_of, noise, too_wide, Kind};
use crate::random::Random;
use independent::bits::{self, Field};
use independent::clcw::{
    self, Report, CONTROL_WORD_TYPE, COP_IN_EFFECT, FARM_B_COUNTER, LOCKOUT_FLAG, NO_BIT_LOCK_FLAG,
    NO_RF_AVAILABLE_FLAG, REPORT_VALUE, RESERVED_SPARE_OF_ONE, RESERVED_SPARE_OF_TWO,
    RETRANSMIT_FLAG, STATUS_FIELD, VERSION_NUMBER, VIRTUAL_CHANNEL_IDENTIFICATION, WAIT_FLAG,
};
use independent::fault::Fault;

/// What is lent to the reader, and its own channel.
pub struct Input {
    pub octets: Vec<u8>,
    pub channel: u32,
}

/// The fields of which one value is valid.
const FIXED_FIELDS: [Field; 5] = [
    CONTROL_WORD_TYPE,
    VERSION_NUMBER,
    COP_IN_EFFECT,
    RESERVED_SPARE_OF_TWO,
    RESERVED_SPARE_OF_ONE,
];

/// The fields of which all values are valid.
const FREE_FIELDS: [Field; 9] = [
    STATUS_FIELD,
    VIRTUAL_CHANNEL_IDENTIFICATION,
    NO_RF_AVAILABLE_FLAG,
    NO_BIT_LOCK_FLAG,
    LOCKOUT_FLAG,
    WAIT_FLAG,
    RETRANSMIT_FLAG,
    FARM_B_COUNTER,
    REPORT_VALUE,
];

/// A report within the limits: document 01, Limits.
pub fn report(random: &mut Random) -> Report {
    let mut flag = || *random.pick(&[0, 0, 0, 1, 2, 128, 255]);
    let (lockout, wait, retransmit) = (flag(), flag(), flag());
    Report {
        channel: random.between(0, 63) as u32,
        lockout,
        wait,
        retransmit,
        counter: random.between(0, 3) as u32,
        value: random.between(0, 255) as u32,
    }
}

/// A valid word with any value in each field where any is valid.
fn valid_word(random: &mut Random) -> Vec<bool> {
    let mut word = clcw::encode(&report(random), Fault::None);
    for field in FREE_FIELDS {
        if random.once_in(2) {
            put_any(&mut word, field, random);
        }
    }
    word
}

fn put_any(word: &mut [bool], field: Field, random: &mut Random) {
    for bit in &mut word[field] {
        *bit = random.once_in(2);
    }
}

/// The word with its own channel.
fn sent(word: &[bool]) -> Input {
    Input {
        octets: bits::to_octets(word),
        channel: bits::get(word, VIRTUAL_CHANNEL_IDENTIFICATION) as u32,
    }
}

const KINDS: [Kind<Input>; 7] = [
    (25, valid),
    (15, other_channel),
    (20, one_field),
    (20, damaged),
    (10, several_rules_broken),
    (10, other_length),
    (10, only_noise),
];

/// An input to the CLCW reader.
pub fn for_the_reader(random: &mut Random) -> Input {
    any_of(&KINDS, random)
}

fn valid(random: &mut Random) -> Input {
    sent(&valid_word(random))
}

/// Another channel, or one beyond the limit; the bits within it may be equal.
fn other_channel(random: &mut Random) -> Input {
    let mut input = valid(random);
    break_channel(&mut input, random);
    input
}

fn break_channel(input: &mut Input, random: &mut Random) {
    match random.below(5) {
        0 => input.channel ^= 1 << random.below(6),
        1 => input.channel += 64 * random.between(1, 3) as u32,
        2 => input.channel = *random.pick(&[0, 63, 64, 255]),
        3 => input.channel = too_wide(random, input.channel),
        _ => input.channel = random.between(0, 255) as u32,
    }
}

/// A valid word with any value in one field, which may make it invalid.
fn one_field(random: &mut Random) -> Input {
    let mut word = valid_word(random);
    let fields = [&FREE_FIELDS[..], &FIXED_FIELDS].concat();
    let field = random.pick(&fields).clone();
    put_any(&mut word, field, random);
    sent(&word)
}

/// One or several bits flipped, those of the channel too.
fn damaged(random: &mut Random) -> Input {
    let mut input = valid(random);
    for _ in 0..*random.pick(&[1, 1, 1, 2, 3]) {
        random.flip_a_bit(&mut input.octets);
    }
    input
}

/// An invalid word of another channel, or one of another length too.
fn several_rules_broken(random: &mut Random) -> Input {
    let mut input = one_field(random);
    break_channel(&mut input, random);
    if random.once_in(4) {
        let length = random.between(0, 8);
        input.octets.resize(length, 0);
    }
    input
}

/// A word of none to eight octets.
fn other_length(random: &mut Random) -> Input {
    let mut input = valid(random);
    input.octets.extend(random.octets(4));
    let length = random.between(0, 8);
    input.octets.truncate(length);
    input
}

/// Noise of any length, or of four octets with the reader's own channel.
fn only_noise(random: &mut Random) -> Input {
    if random.once_in(4) {
        return Input {
            octets: noise(random, 8),
            channel: random.between(0, 255) as u32,
        };
    }
    sent(&bits::from_octets(&random.octets(4)))
}
