//! Writing frames of the four contents.

use super::{every_length, Operation, ROOMS};
use crate::check::{agree, show_answers, show_first_difference, show_octets, Tally};
use crate::inputs;
use crate::library;
use crate::random::Random;
use independent::fault::Fault;
use independent::frame::{self, Content, FRAME_MOST, UNIT_MOST};
use independent::output::Written;
use independent::refusal::{DONE, LENGTH, ROOM, SETTING};

pub const WRITE_AD: Operation = Operation {
    name: "frame_write_ad",
    share: 15,
    numbers: UNIT_NUMBERS,
    kinds: &[],
    fixed: ad_fixed,
    random: ad_random,
};

pub const WRITE_BD: Operation = Operation {
    name: "frame_write_bd",
    share: 15,
    numbers: UNIT_NUMBERS,
    kinds: &[],
    fixed: bd_fixed,
    random: bd_random,
};

pub const WRITE_UNLOCK: Operation = Operation {
    name: "frame_write_unlock",
    share: 5,
    numbers: COMMAND_NUMBERS,
    kinds: &[],
    fixed: unlock_fixed,
    random: unlock_random,
};

pub const WRITE_SET_VR: Operation = Operation {
    name: "frame_write_set_vr",
    share: 5,
    numbers: COMMAND_NUMBERS,
    kinds: &[],
    fixed: set_vr_fixed,
    random: set_vr_random,
};

const UNIT_NUMBERS: &[(u8, &str)] = &[
    (DONE, "done"),
    (LENGTH, "length"),
    (ROOM, "room"),
    (SETTING, "setting"),
];

const COMMAND_NUMBERS: &[(u8, &str)] = &[(DONE, "done"), (ROOM, "room"), (SETTING, "setting")];

/// The octets of the header and of the FECF.
const OVERHEAD: usize = 7;

/// Spacecraft, channel, length of the unit, lent output, number: document 01, Limits
/// and Refusals; document 02, order 7. The last ones break several rules.
const UNIT_FIXED: [(u32, u32, usize, usize, u8); 31] = [
    (0, 0, 1, 8, DONE),
    (1023, 63, 249, 256, DONE),
    (1023, 63, 250, 257, DONE),
    (1023, 63, 256 + 1, 256 + 8, DONE),
    (1023, 63, 1016, 1023, DONE),
    (1023, 63, 1017, 1024, DONE),
    (1, 1, 1, 7, ROOM),
    (1, 1, 1017, 1023, ROOM),
    (1, 1, 1, 0, ROOM),
    (1, 1, 0, 400, LENGTH),
    (1, 1, 1018, 1100, LENGTH),
    (1, 1, 1024 + 1, 1100, LENGTH),
    (1, 1, 65_536 + 1, 400, LENGTH),
    (1024, 1, 1, 8, SETTING),
    (65_535, 1, 1, 8, SETTING),
    (1, 64, 1, 8, SETTING),
    (1, 255, 1, 8, SETTING),
    (65_536 + 1, 1, 1, 8, SETTING),
    (1 << 31, 1, 1, 8, SETTING),
    (u32::MAX, 1, 1, 8, SETTING),
    (1, 256 + 1, 1, 8, SETTING),
    (1, 65_536 + 1, 1, 8, SETTING),
    (1, 1 << 31, 1, 8, SETTING),
    (1, u32::MAX, 1, 8, SETTING),
    (1024, 64, 1, 8, SETTING),
    (1024, 1, 0, 400, LENGTH),
    (1, 64, 1018, 1100, LENGTH),
    (1, 1, 0, 0, LENGTH),
    (1024, 64, 1018, 0, LENGTH),
    (1024, 1, 1, 7, SETTING),
    (1, 64, 1017, 0, SETTING),
];

/// The same for a command, with the room beyond or, below zero, short of its need.
const COMMAND_FIXED: [(u32, u32, isize, u8); 16] = [
    (0, 0, 0, DONE),
    (1023, 63, 0, DONE),
    (1, 1, 100, DONE),
    (1, 1, -1, ROOM),
    (1, 1, -8, ROOM),
    (1024, 1, 0, SETTING),
    (65_535, 1, 0, SETTING),
    (1, 64, 0, SETTING),
    (1, 255, 0, SETTING),
    (65_536 + 1, 1, 0, SETTING),
    (u32::MAX, 1, 0, SETTING),
    (1, 256 + 1, 0, SETTING),
    (1, 65_536 + 1, 0, SETTING),
    (1, u32::MAX, 0, SETTING),
    (1024, 1, -1, SETTING),
    (1, 64, -8, SETTING),
];

/// N(S) and V(R) at the limit, or beyond it.
const NUMBERS_FIXED: [(u32, u8); 6] = [
    (255, DONE),
    (256, SETTING),
    (256 + 5, SETTING),
    (65_536 + 5, SETTING),
    (1 << 31, SETTING),
    (u32::MAX, SETTING),
];

/// Document 01, Frame: spacecraft 2A5 hex, channel 3, AD, N(S) 255, data AB.
fn ad_fixed(tally: &mut Tally, fault: Fault) {
    let printed = Content::Ad {
        number: 255,
        unit: vec![0xAB],
    };
    let octets = [0x02, 0xA5, 0x0C, 0x07, 0xFF, 0xAB];
    write_printed(0x2A5, 3, printed, &octets, tally, fault);
    for (number, unit_fixed) in (0..).zip(UNIT_FIXED) {
        let unit = vec![number as u8; unit_fixed.2];
        write_fixed(unit_fixed, &Content::Ad { number, unit }, &[], tally, fault);
    }
    for (number, answer) in NUMBERS_FIXED {
        // A wrong length is judged before, room behind.
        for (length, lent, answer) in [(1, 8, answer), (0, 8, LENGTH), (1018, 1100, LENGTH)] {
            let unit = vec![7; length];
            let fixed = (1, 1, length, lent, answer);
            write_fixed(fixed, &Content::Ad { number, unit }, &[], tally, fault);
        }
        let answer = if answer == DONE { ROOM } else { answer };
        let unit = vec![7];
        let fixed = (1, 1, 1, 7, answer);
        write_fixed(fixed, &Content::Ad { number, unit }, &[], tally, fault);
    }
}

fn bd_fixed(tally: &mut Tally, fault: Fault) {
    for unit_fixed in UNIT_FIXED {
        let unit = vec![0; unit_fixed.2];
        write_fixed(unit_fixed, &Content::Bd { unit }, &[], tally, fault);
    }
}

/// Document 01, Frame: spacecraft 1, channel 0.
fn unlock_fixed(tally: &mut Tally, fault: Fault) {
    let octets = [0x30, 0x01, 0x00, 0x07, 0x00, 0x00];
    write_printed(1, 0, Content::Unlock, &octets, tally, fault);
    write_command_fixed(Content::Unlock, tally, fault);
}

/// Document 01, Frame: spacecraft 1, channel 0, Set V(R) to 5.
fn set_vr_fixed(tally: &mut Tally, fault: Fault) {
    let octets = [0x30, 0x01, 0x00, 0x09, 0x00, 0x82, 0x00, 0x05];
    write_printed(1, 0, Content::SetVr { value: 5 }, &octets, tally, fault);
    write_command_fixed(Content::SetVr { value: 0 }, tally, fault);
    for (value, answer) in NUMBERS_FIXED {
        let content = Content::SetVr { value };
        write_fixed((1, 1, 3, 10, answer), &content, &[], tally, fault);
        let answer = if answer == DONE { ROOM } else { answer };
        write_fixed((1, 1, 3, 9, answer), &content, &[], tally, fault);
    }
}

/// A frame that the paper prints without FECF.
fn write_printed(
    spacecraft: u32,
    channel: u32,
    content: Content,
    octets: &[u8],
    tally: &mut Tally,
    fault: Fault,
) {
    let length = content.data().len();
    let fixed = (spacecraft, channel, length, length + OVERHEAD, DONE);
    write_fixed(fixed, &content, octets, tally, fault);
}

/// The paper says octets with which the output begins.
fn write_fixed(
    (spacecraft, channel, length, lent, number): (u32, u32, usize, usize, u8),
    content: &Content,
    octets: &[u8],
    tally: &mut Tally,
    fault: Fault,
) {
    let count = if number == DONE { length + OVERHEAD } else { 0 };
    let answer = Written {
        number,
        count: count as u64,
    };
    let buffer = vec![0xA5; lent];
    let paper = Some((answer, octets));
    write(spacecraft, channel, content, buffer, paper, tally, fault);
}

fn write_command_fixed(content: Content, tally: &mut Tally, fault: Fault) {
    let length = content.data().len();
    let need = length + OVERHEAD;
    for (spacecraft, channel, beyond, number) in COMMAND_FIXED {
        let lent = need.saturating_add_signed(beyond);
        let fixed = (spacecraft, channel, length, lent, number);
        write_fixed(fixed, &content, &[], tally, fault);
    }
}

fn ad_random(random: &mut Random, tally: &mut Tally, fault: Fault) {
    let number = any_number(random);
    let unit = unit(random, tally);
    write_random(Content::Ad { number, unit }, random, tally, fault);
}

fn bd_random(random: &mut Random, tally: &mut Tally, fault: Fault) {
    let unit = unit(random, tally);
    write_random(Content::Bd { unit }, random, tally, fault);
}

fn unlock_random(random: &mut Random, tally: &mut Tally, fault: Fault) {
    write_random(Content::Unlock, random, tally, fault);
}

fn set_vr_random(random: &mut Random, tally: &mut Tally, fault: Fault) {
    let value = any_number(random);
    write_random(Content::SetVr { value }, random, tally, fault);
}

/// A sequence number, now and then one beyond its limit.
fn any_number(random: &mut Random) -> u32 {
    let number = random.between(0, 255) as u32;
    match random.below(12) {
        0 => *random.pick(&[255, 256, 257]),
        1 => inputs::too_wide(random, number),
        _ => number,
    }
}

/// A unit of every length up to 1,024, one after the other, the short ones more often, and now
/// and then one at the borders.
fn unit(random: &mut Random, tally: &Tally) -> Vec<u8> {
    let length = match random.below(8) {
        0 => *random.pick(&[0, 1, 2, 249, 250, UNIT_MOST - 1, UNIT_MOST, UNIT_MOST + 1]),
        _ => every_length(tally, FRAME_MOST),
    };
    random.octets(length)
}

/// Any address and any room.
fn write_random(content: Content, random: &mut Random, tally: &mut Tally, fault: Fault) {
    let (spacecraft, channel) = inputs::frame::any_address(random);
    let need = content.data().len() + OVERHEAD;
    let lent = random.pick(&ROOMS).octets(need, random);
    let buffer = random.octets(lent);
    write(spacecraft, channel, &content, buffer, None, tally, fault);
}

/// The paper says the answer, and octets with which the output begins.
fn write(
    spacecraft: u32,
    channel: u32,
    content: &Content,
    buffer: Vec<u8>,
    paper: Option<(Written, &[u8])>,
    tally: &mut Tally,
    fault: Fault,
) {
    let lent = buffer.len();
    let mut library_content = content.clone();
    let mut library_buffer = buffer.clone();
    let library = library::frame_write(
        spacecraft,
        channel,
        &mut library_content,
        &mut library_buffer,
    );

    let mut independent_buffer = buffer;
    let independent = frame::write(spacecraft, channel, content, &mut independent_buffer, fault);

    tally.meet(library.number);
    let (paper, octets) = match paper {
        Some((answer, octets)) => (Some(answer), octets),
        None => (None, &[][..]),
    };
    let same = agree(&library, &independent, &paper)
        && library_buffer == independent_buffer
        && library_buffer.starts_with(octets)
        && library_content == *content;
    tally.compared(same, || {
        format!("  spacecraft {spacecraft}, channel {channel}, lent output: {lent} octets\n")
            + &show_content(content)
            + &show_answers(&library, &independent, &paper)
            + &show_first_difference("output", &library_buffer, &independent_buffer)
            + &show_octets("output of the library", &library_buffer)
            + &show_octets("output by the paper", octets)
            + &show_first_difference("data", &library_content.data(), &content.data())
    });
}

fn show_content(content: &Content) -> String {
    let name = match content {
        Content::Ad { number, .. } => format!("AD {number}, data"),
        Content::Bd { .. } => "BD, data".to_string(),
        Content::Unlock => "Unlock, data".to_string(),
        Content::SetVr { value } => format!("Set V(R) to {value}, data"),
    };
    show_octets(&name, &content.data())
}
