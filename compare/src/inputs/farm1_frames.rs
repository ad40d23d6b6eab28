//! What a receiver starts with, and the frames that come to it.

use super::frame::{change, for_the_reader, repair, unit_length};
use super::{each_too_wide, too_wide};
use crate::random::Random;
use independent::bits::Field;
use independent::farm1::Variables;
use independent::fault::Fault;
use independent::frame::{
    self, Content, BYPASS_FLAG, CONTROL_COMMAND_FLAG, FRAME_LENGTH, FRAME_SEQUENCE_NUMBER,
    RESERVED_SPARE, SPACECRAFT_IDENTIFIER, VERSION_NUMBER, VIRTUAL_CHANNEL_IDENTIFIER,
};

/// Settings within or beyond their limits.
#[derive(Clone, Copy, Debug)]
pub struct Start {
    pub spacecraft: u32,
    pub channel: u32,
    /// W, V(R), buffers.
    pub variables: [u32; 3],
}

/// Settings, of which one is too wide for an octet, or two.
pub fn fixed_starts() -> Vec<Start> {
    let start = |[spacecraft, channel, window, vr, buffers]: [u32; 5]| Start {
        spacecraft,
        channel,
        variables: [window, vr, buffers],
    };
    let all = each_too_wide([33, 3, 20, 4, 2]);
    all.into_iter().map(start).collect()
}

pub fn start(random: &mut Random) -> Start {
    let half_window = match random.below(3) {
        0 => random.between(1, 4),
        1 => random.between(1, 32),
        _ => random.between(1, 127),
    };
    let mut start = Start {
        spacecraft: random.between(0, 1023) as u32,
        channel: random.between(0, 63) as u32,
        variables: [
            2 * half_window as u32,
            random.between(0, 255) as u32,
            random.between(1, 8) as u32,
        ],
    };
    match random.below(16) {
        0 => start.spacecraft = *random.pick(&[0, 1023, 1024, 65_535]),
        1 => start.channel = *random.pick(&[0, 63, 64, 255]),
        2 => start.variables[0] = *random.pick(&[0, 1, 2, 3, 253, 254, 255]),
        3 => start.variables[2] = *random.pick(&[0, 1, 8, 9, 255]),
        4 => start.variables[1] = *random.pick(&[0, 255, 256, 257]),
        5 => start.spacecraft = too_wide(random, start.spacecraft),
        6 => start.channel = too_wide(random, start.channel),
        7 => {
            let place = random.below(3);
            start.variables[place] = too_wide(random, start.variables[place]);
        }
        _ => (),
    }
    start
}

/// A frame, mostly to this receiver; once in so many times one that may lock it.
pub fn frame(
    random: &mut Random,
    harm: usize,
    farm: &Variables,
    spacecraft: u32,
    channel: u32,
) -> Vec<u8> {
    if random.once_in(40) {
        return for_the_reader(random).octets;
    }
    let content = content(random, harm, farm);
    let mut octets = frame::encode(spacecraft, channel, &content, Fault::None);
    if random.once_in(10) {
        spoil(random, &mut octets);
    }
    if random.once_in(4) {
        let fill = random.between(0, 8);
        octets.extend(random.octets(fill));
    }
    octets
}

fn content(random: &mut Random, harm: usize, farm: &Variables) -> Content {
    let length = match random.below(3) {
        0 => unit_length(random),
        _ => random.between(1, 12),
    };
    match random.below(16) {
        0 | 1 => Content::Bd {
            unit: random.octets(length),
        },
        2 => Content::Unlock,
        3 => Content::SetVr {
            value: match random.below(3) {
                0 => random.between(0, 255) as u32,
                1 => farm.v_r.into(),
                _ => farm.beyond_v_r(random.between(1, 5)).into(),
            },
        },
        _ => Content::Ad {
            number: farm.beyond_v_r(distance(random, harm, farm)).into(),
            unit: random.octets(length),
        },
    }
}

/// N(S) - V(R).
fn distance(random: &mut Random, harm: usize, farm: &Variables) -> usize {
    let half_window = farm.half_window();
    if random.once_in(harm) {
        return match random.below(3) {
            0 => half_window,
            1 => 255 - half_window,
            _ => random.below(256),
        };
    }
    match random.below(8) {
        0 => half_window - 1,
        1 => 256 - half_window,
        2 => random.below(half_window),
        3 => 256 - random.between(1, half_window),
        _ => 0,
    }
}

/// Breaks a rule, with the FECF right or wrong.
fn spoil(random: &mut Random, octets: &mut Vec<u8>) {
    let fields: [(Field, usize); 8] = [
        (VERSION_NUMBER, 4),
        (BYPASS_FLAG, 2),
        (CONTROL_COMMAND_FLAG, 2),
        (RESERVED_SPARE, 4),
        (SPACECRAFT_IDENTIFIER, 1024),
        (VIRTUAL_CHANNEL_IDENTIFIER, 64),
        (FRAME_LENGTH, 1024),
        (FRAME_SEQUENCE_NUMBER, 256),
    ];
    match random.below(8) {
        0 => octets.truncate(random.below(octets.len())),
        1 => random.flip_a_bit(octets),
        2 => {
            random.flip_a_bit(octets);
            repair(octets);
        }
        _ => {
            let (field, values) = random.pick(&fields).clone();
            change(octets, field, random.below(values));
            if !random.once_in(4) {
                repair(octets);
            }
        }
    }
}
