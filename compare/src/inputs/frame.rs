//! Inputs to the frame reader, and addresses for the writer.

use super::{any_of, noise, too_wide, Kind};
use crate::random::Random;
use independent::bits::{self, Field};
use independent::fault::Fault;
use independent::fecf;
use independent::frame::{
    self, Content, BYPASS_FLAG, CONTROL_COMMAND_FLAG, FRAME_LENGTH, FRAME_MOST,
    FRAME_SEQUENCE_NUMBER, RESERVED_SPARE, SPACECRAFT_IDENTIFIER, UNIT_MOST, VERSION_NUMBER,
    VIRTUAL_CHANNEL_IDENTIFIER,
};

/// What is lent to the reader, and its own address.
#[derive(Clone)]
pub struct Input {
    pub octets: Vec<u8>,
    pub spacecraft: u32,
    pub channel: u32,
}

/// The octets with their FECF: a frame where they are one without it.
pub fn with_fecf(octets: &[u8]) -> Vec<u8> {
    let message = bits::from_octets(octets);
    let field = fecf::field(&message, Fault::None);
    [octets, &bits::to_octets(&field)].concat()
}

/// Changes a field of the header, which is there whole. The FECF stays as it was.
pub fn change(octets: &mut [u8], field: Field, value: usize) {
    let mut header = bits::from_octets(&octets[..5]);
    bits::put(&mut header, field, value);
    octets[..5].copy_from_slice(&bits::to_octets(&header));
}

/// Makes the FECF right again where the header says that it is; at the end of the
/// octets where that lies beyond them, or within the header.
pub fn repair(octets: &mut [u8]) {
    let end = match taken(octets, FRAME_LENGTH) + 1 {
        total if (7..=octets.len()).contains(&total) => total,
        _ => octets.len(),
    };
    let frame = with_fecf(&octets[..end - 2]);
    octets[..end].copy_from_slice(&frame);
}

fn taken(octets: &[u8], field: Field) -> usize {
    bits::get(&bits::from_octets(&octets[..5]), field)
}

/// An address within the limits: document 01, Limits.
fn address(random: &mut Random) -> (u32, u32) {
    let spacecraft = match random.below(6) {
        0 => *random.pick(&[0, 1, 1023]),
        _ => random.between(0, 1023) as u32,
    };
    let channel = match random.below(6) {
        0 => *random.pick(&[0, 63]),
        _ => random.between(0, 63) as u32,
    };
    (spacecraft, channel)
}

/// An address within, at or beyond the limits.
pub fn any_address(random: &mut Random) -> (u32, u32) {
    let (mut spacecraft, mut channel) = address(random);
    match random.below(16) {
        0 => spacecraft = *random.pick(&[0, 1, 1023, 1024, 65_535]),
        1 => channel = *random.pick(&[0, 63, 64, 255]),
        2 => spacecraft = random.between(1024, 65_535) as u32,
        3 => channel = random.between(64, 255) as u32,
        4 => {
            spacecraft = *random.pick(&[0, 1, 1023, 1024, 65_535]);
            channel = *random.pick(&[0, 63, 64, 255]);
        }
        5 => spacecraft = too_wide(random, spacecraft),
        6 => channel = too_wide(random, channel),
        _ => {}
    }
    (spacecraft, channel)
}

/// The length of a unit: mostly short, now and then any.
pub fn unit_length(random: &mut Random) -> usize {
    match random.below(32) {
        0 => random.between(1, UNIT_MOST),
        1..=3 => random.between(1, 260),
        4 => *random.pick(&[UNIT_MOST - 1, UNIT_MOST]),
        5..=7 => *random.pick(&[1, 2, 3, 248, 249, 250]),
        _ => random.between(1, 30),
    }
}

fn content(random: &mut Random) -> Content {
    let length = unit_length(random);
    match random.below(6) {
        0 | 1 => Content::Ad {
            number: random.between(0, 255) as u32,
            unit: random.octets(length),
        },
        2 | 3 => Content::Bd {
            unit: random.octets(length),
        },
        4 => Content::Unlock,
        _ => Content::SetVr {
            value: random.between(0, 255) as u32,
        },
    }
}

/// The frame of a content, sent to the reader.
fn sent(content: &Content, random: &mut Random) -> Input {
    let (spacecraft, channel) = address(random);
    Input {
        octets: frame::encode(spacecraft, channel, content, Fault::None),
        spacecraft,
        channel,
    }
}

/// A frame sent to the reader, and no more.
fn plain(random: &mut Random) -> Input {
    let content = content(random);
    sent(&content, random)
}

const KINDS: [Kind<Input>; 15] = [
    (14, whole),
    (8, other_address),
    (10, damaged),
    (14, damaged_and_repaired),
    (8, wrong_header),
    (8, wrong_command),
    (6, numbered_type_b),
    (10, wrong_length),
    (2, long),
    (1, beyond_the_limit),
    (6, cut_short),
    (20, several_rules_broken),
    (2, only_noise),
    (5, noise_with_a_header),
    (4, short),
];

/// An input to the frame reader.
pub fn for_the_reader(random: &mut Random) -> Input {
    any_of(&KINDS, random)
}

/// A whole frame, with fill or without: up to ten octets, seldom more.
fn whole(random: &mut Random) -> Input {
    let mut input = plain(random);
    let length = match random.below(20) {
        0..=7 => 0,
        8 => random.between(11, 300),
        9..=11 => *random.pick(&[6, 7]),
        _ => random.between(0, 10),
    };
    let fill = match random.below(3) {
        0 => vec![0x55; length],
        1 => vec![0; length],
        _ => random.octets(length),
    };
    input.octets.extend(fill);
    input
}

/// A frame that is sent to another address, or read by a reader whose own address is
/// beyond the limits; the bits within them may be equal.
fn other_address(random: &mut Random) -> Input {
    let mut input = whole(random);
    break_address(&mut input, random);
    input
}

fn break_address(input: &mut Input, random: &mut Random) {
    match random.below(9) {
        0 => input.spacecraft ^= 1 << random.below(10),
        1 => input.channel ^= 1 << random.below(6),
        2 => input.spacecraft += 1024 * random.between(1, 63) as u32,
        3 => input.channel += 64 * random.between(1, 3) as u32,
        4 => input.spacecraft = random.number() as u32,
        5 => input.channel = random.number() as u32,
        6 => input.spacecraft = too_wide(random, input.spacecraft),
        7 => input.channel = too_wide(random, input.channel),
        _ => (input.spacecraft, input.channel) = any_address(random),
    }
}

/// One or several bits flipped anywhere.
fn damaged(random: &mut Random) -> Input {
    let mut input = whole(random);
    for _ in 0..*random.pick(&[1, 1, 1, 2, 2, 3, 4, 8]) {
        random.flip_a_bit(&mut input.octets);
    }
    input
}

/// One or several bits flipped, often in the header, and the FECF right again.
fn damaged_and_repaired(random: &mut Random) -> Input {
    let mut input = whole(random);
    for _ in 0..*random.pick(&[1, 1, 1, 2, 2, 3, 4, 8]) {
        let flipped = match random.below(3) {
            0 => &mut input.octets[..],
            1 => &mut input.octets[..5],
            _ => &mut input.octets[..8],
        };
        random.flip_a_bit(flipped);
    }
    repair(&mut input.octets);
    input
}

/// A wrong version or spare, type (0,1), or a type-B frame's sequence octet not zero, and
/// the FECF right.
fn wrong_header(random: &mut Random) -> Input {
    let mut input = whole(random);
    break_header(&mut input.octets, random);
    repair(&mut input.octets);
    input
}

fn break_header(octets: &mut [u8], random: &mut Random) {
    match random.below(5) {
        0 => change(octets, VERSION_NUMBER, random.between(1, 3)),
        1 => change(octets, RESERVED_SPARE, random.between(1, 3)),
        2 => {
            change(octets, BYPASS_FLAG, 0);
            change(octets, CONTROL_COMMAND_FLAG, 1);
        }
        3 => {
            change(octets, BYPASS_FLAG, 1);
            change(octets, FRAME_SEQUENCE_NUMBER, random.between(1, 255));
        }
        _ => {
            change(octets, VERSION_NUMBER, random.below(4));
            change(octets, BYPASS_FLAG, random.below(2));
            change(octets, CONTROL_COMMAND_FLAG, random.below(2));
            change(octets, RESERVED_SPARE, random.below(4));
        }
    }
}

/// A BC frame of which the data are mostly neither command, and the FECF right.
fn wrong_command(random: &mut Random) -> Input {
    let (spacecraft, channel) = address(random);
    Input {
        octets: of_wrong_command(random, spacecraft, channel),
        spacecraft,
        channel,
    }
}

/// Such a frame to this address.
pub fn of_wrong_command(random: &mut Random, spacecraft: u32, channel: u32) -> Vec<u8> {
    let content = Content::Bd {
        unit: wrong_command_data(random),
    };
    let mut octets = frame::encode(spacecraft, channel, &content, Fault::None);
    change(&mut octets, CONTROL_COMMAND_FLAG, 1);
    repair(&mut octets);
    octets
}

fn wrong_command_data(random: &mut Random) -> Vec<u8> {
    let value = random.number() as u8;
    let octet = random.between(1, 255) as u8;
    match random.below(10) {
        0 => vec![octet],
        1 => vec![0x82],
        2 => vec![0x82, 0x00],
        3 => vec![0x82, 0x00, value, *random.pick(&[0, octet])],
        4 => vec![0x82, octet, value],
        5 => vec![*random.pick(&[0x00, 0x02, 0x80, 0x83, octet]), 0x00, value],
        6 => vec![0x00; random.between(2, 4)],
        7 => {
            let length = unit_length(random);
            random.octets(length)
        }
        8 => {
            let length = unit_length(random);
            [&[0x82, 0x00][..], &random.octets(length - 1)].concat()
        }
        // One bit of a command flipped, which can be one of the value.
        _ => {
            let value = value.into();
            let commands = [Content::Unlock, Content::SetVr { value }];
            let mut data = random.pick(&commands).data();
            random.flip_a_bit(&mut data);
            data
        }
    }
}

/// A type-B frame of which the sequence octet is mostly not zero, and the FECF right; now
/// and then to another address, and of the BC frames some with no command.
fn numbered_type_b(random: &mut Random) -> Input {
    let length = unit_length(random);
    let contents = [
        Content::Bd {
            unit: random.octets(length),
        },
        Content::Unlock,
        Content::SetVr {
            value: random.between(0, 255) as u32,
        },
    ];
    let mut input = match random.below(4) {
        0 => wrong_command(random),
        _ => sent(random.pick(&contents), random),
    };
    if random.once_in(4) {
        break_address(&mut input, random);
    }
    change(&mut input.octets, FRAME_SEQUENCE_NUMBER, random.below(256));
    repair(&mut input.octets);
    input.octets.extend(noise(random, 6));
    input
}

/// A header that says another length, and the FECF right there or not.
fn wrong_length(random: &mut Random) -> Input {
    let mut input = whole(random);
    break_length(&mut input.octets, random);
    if random.once_in(2) {
        repair(&mut input.octets);
    }
    input
}

fn break_length(octets: &mut [u8], random: &mut Random) {
    let lent = octets.len();
    let total = match random.below(9) {
        // Too short.
        0 => random.between(1, 7),
        1 => 7,
        // Mostly more than is lent.
        2 => random.between(257, FRAME_MOST),
        3 => *random.pick(&[257, 258, FRAME_MOST]),
        4 => lent + 1,
        5 => lent + random.between(1, 255),
        // Less than was sent: the rest is fill, or too much of it.
        6 => lent - random.between(0, 8).min(lent - 1),
        7 => random.between(1, lent),
        _ => random.between(1, FRAME_MOST),
    };
    change(octets, FRAME_LENGTH, total.min(FRAME_MOST) - 1);
}

/// A frame of 257 to 1,024 octets; whole, with fill or cut.
fn long(random: &mut Random) -> Input {
    let length = match random.below(4) {
        0 => *random.pick(&[250, 251, UNIT_MOST - 1, UNIT_MOST]),
        1 => random.between(250, UNIT_MOST),
        _ => random.between(250, 300),
    };
    of_length(random, length)
}

/// A frame of over 1,024 octets, of whose length the header has ten bits.
fn beyond_the_limit(random: &mut Random) -> Input {
    let length = UNIT_MOST + random.between(1, 40);
    of_length(random, length)
}

fn of_length(random: &mut Random, length: usize) -> Input {
    let unit = random.octets(length);
    let number = random.between(0, 255) as u32;
    let contents = [
        Content::Bd { unit: unit.clone() },
        Content::Ad { number, unit },
    ];
    let mut input = sent(random.pick(&contents), random);
    match random.below(4) {
        0 => input.octets.extend(noise(random, 10)),
        1 => {
            let length = random.between(0, input.octets.len());
            input.octets.truncate(length);
        }
        _ => {}
    }
    input
}

/// Cut short at any place.
fn cut_short(random: &mut Random) -> Input {
    let mut input = plain(random);
    let length = match random.below(3) {
        0 => input.octets.len() - 1,
        _ => random.between(0, input.octets.len()),
    };
    input.octets.truncate(length);
    input
}

/// Several rules broken at once, so that the order of the checks shows.
fn several_rules_broken(random: &mut Random) -> Input {
    let mut input = if random.once_in(2) {
        wrong_command(random)
    } else {
        plain(random)
    };
    if random.once_in(3) {
        break_header(&mut input.octets, random);
    }
    if random.once_in(2) {
        break_address(&mut input, random);
    }
    if random.once_in(4) {
        break_length(&mut input.octets, random);
    }
    repair(&mut input.octets);
    if random.once_in(3) {
        // The FECF, or anything behind the header.
        let first = *random.pick(&[5, input.octets.len() - 2]);
        random.flip_a_bit(&mut input.octets[first..]);
    }
    match random.below(6) {
        0 => {
            let fill = random.between(1, 12);
            input.octets.extend(random.octets(fill));
        }
        1 => {
            let length = random.between(0, input.octets.len());
            input.octets.truncate(length);
        }
        _ => {}
    }
    input
}

fn only_noise(random: &mut Random) -> Input {
    let (spacecraft, channel) = any_address(random);
    Input {
        octets: noise(random, 300),
        spacecraft,
        channel,
    }
}

/// Noise whose header has a length that fits; the rest of the header, the FECF and the
/// address may fit too.
fn noise_with_a_header(random: &mut Random) -> Input {
    let length = match random.below(8) {
        0 => random.between(8, FRAME_MOST + 8),
        _ => random.between(8, 262),
    };
    let mut octets = random.octets(length);
    let fill = random.between(0, 8);
    let total = length.saturating_sub(fill).clamp(7, FRAME_MOST);
    change(&mut octets, FRAME_LENGTH, total - 1);
    if random.once_in(2) {
        change(&mut octets, VERSION_NUMBER, 0);
        change(&mut octets, RESERVED_SPARE, 0);
    }
    if random.once_in(2) {
        repair(&mut octets);
    }
    let (spacecraft, channel) = if random.once_in(4) {
        any_address(random)
    } else {
        (
            taken(&octets, SPACECRAFT_IDENTIFIER) as u32,
            taken(&octets, VIRTUAL_CHANNEL_IDENTIFIER) as u32,
        )
    };
    Input {
        octets,
        spacecraft,
        channel,
    }
}

/// Seven octets or fewer, or a frame without data, with fill or without.
fn short(random: &mut Random) -> Input {
    let length = random.between(0, 7);
    let mut input = match random.below(3) {
        0 => plain(random),
        1 => sent(&Content::Bd { unit: Vec::new() }, random),
        _ => Input {
            octets: random.octets(7),
            ..plain(random)
        },
    };
    if random.once_in(4) {
        break_length(&mut input.octets, random);
    }
    if input.octets.len() == 7 && random.once_in(2) {
        input.octets.extend(noise(random, 10));
    } else {
        input.octets.truncate(length);
    }
    input
}
