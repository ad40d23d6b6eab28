//! Reading a frame.

use super::Operation;
use crate::check::{agree, show_answers, show_first_difference, show_octets, Tally};
use crate::inputs::frame::{change, for_the_reader, repair, with_fecf, Input};
use crate::library;
use crate::random::Random;
use independent::bits::Field;
use independent::fault::Fault;
use independent::frame::{
    self, Read, AD, BC_SET_VR, BC_UNLOCK, BD, BYPASS_FLAG, FRAME_LENGTH, FRAME_MOST,
    FRAME_SEQUENCE_NUMBER, RESERVED_SPARE, UNIT_MOST, VERSION_NUMBER,
};
use independent::refusal::{ADDRESS, CHECK, COMMAND, DONE, FILL, HEADER, SHORT};

pub const READ: Operation = Operation {
    name: "frame_read",
    share: 60,
    numbers: &[
        (DONE, "done"),
        (SHORT, "short"),
        (FILL, "fill"),
        (HEADER, "header"),
        (ADDRESS, "address"),
        (CHECK, "check"),
        (COMMAND, "command"),
    ],
    kinds: &["AD", "BD", "Unlock", "Set V(R)"],
    fixed: read_fixed,
    random: read_random,
};

/// Document 01, Limits, Refusals and Frame; document 02, orders 7 and 10. No input is refused with 10:
/// a header says at most 1,024 octets.
fn read_fixed(tally: &mut Tally, fault: Fault) {
    three_frames(tally, fault);
    accepted(tally, fault);
    each_number(tally, fault);
    one_rule_broken(tally, fault);
    two_rules_broken(tally, fault);
    each_bit_flipped(tally, fault);
}

/// The frames that document 01 prints without FECF.
const UNLOCK: [u8; 6] = [0x30, 0x01, 0x00, 0x07, 0x00, 0x00];
const SET_VR: [u8; 8] = [0x30, 0x01, 0x00, 0x09, 0x00, 0x82, 0x00, 0x05];
const AD_FRAME: [u8; 6] = [0x02, 0xA5, 0x0C, 0x07, 0xFF, 0xAB];

/// A BC frame without FECF that is neither command.
const NO_COMMAND: [u8; 7] = [0x30, 0x01, 0x00, 0x08, 0x00, 0x82, 0x00];

/// A reader of spacecraft 1, channel 0.
fn to_us(octets: Vec<u8>) -> Input {
    Input {
        octets,
        spacecraft: 1,
        channel: 0,
    }
}

/// One to which none of the frames to spacecraft 1, channel 0 is sent.
fn to_others(octets: Vec<u8>) -> Input {
    Input {
        octets,
        spacecraft: 2,
        channel: 0,
    }
}

/// A BD frame to spacecraft 1, channel 0, whatever its length.
fn bd_frame(unit: &[u8]) -> Vec<u8> {
    let content = frame::Content::Bd {
        unit: unit.to_vec(),
    };
    frame::encode(1, 0, &content, Fault::None)
}

/// The octets with a field changed, and the FECF right.
fn changed(octets: &[u8], field: Field, value: usize) -> Vec<u8> {
    let mut octets = octets.to_vec();
    change(&mut octets, field, value);
    repair(&mut octets);
    octets
}

fn filled(octets: Vec<u8>, fill: usize) -> Vec<u8> {
    [octets, vec![0x55; fill]].concat()
}

/// The octets with the FECF at their end wrong.
fn wrong_check(mut octets: Vec<u8>) -> Vec<u8> {
    *octets.last_mut().unwrap() ^= 1;
    octets
}

fn done(kind: u8, value: u8, total: u16, field: u16) -> Read {
    Read {
        number: DONE,
        kind,
        value,
        total,
        field,
    }
}

fn three_frames(tally: &mut Tally, fault: Fault) {
    let to_2a5 = Input {
        octets: with_fecf(&AD_FRAME),
        spacecraft: 0x2A5,
        channel: 3,
    };
    for (input, answer) in [
        (to_us(with_fecf(&UNLOCK)), done(BC_UNLOCK, 0, 8, 1)),
        (to_us(with_fecf(&SET_VR)), done(BC_SET_VR, 5, 10, 3)),
        (to_2a5, done(AD, 255, 8, 1)),
    ] {
        for fill in 0..=10 {
            let paper = if fill <= 6 {
                answer
            } else {
                Read::refused(FILL)
            };
            let mut input = input.clone();
            input.octets = filled(input.octets, fill);
            read(&input, Some(paper), tally, fault);
        }
    }
}

/// Every sequence octet. A type-B frame has zero there: the header's check, behind the FECF
/// and before the address and the command. An AD frame has any.
fn each_number(tally: &mut Tally, fault: Fault) {
    let type_b = [
        (with_fecf(&UNLOCK), done(BC_UNLOCK, 0, 8, 1)),
        (with_fecf(&SET_VR), done(BC_SET_VR, 5, 10, 3)),
        (bd_frame(&[7; 10]), done(BD, 0, 17, 10)),
        (with_fecf(&NO_COMMAND), Read::refused(COMMAND)),
    ];
    let ad = changed(&bd_frame(&[7; 10]), BYPASS_FLAG, 0);
    for number in 0..=255 {
        for (frame, zero) in &type_b {
            let frame = changed(frame, FRAME_SEQUENCE_NUMBER, number);
            let (ours, others) = match number {
                0 => (*zero, ADDRESS),
                _ => (Read::refused(HEADER), HEADER),
            };
            read(&to_us(frame.clone()), Some(ours), tally, fault);
            refused(to_others(frame.clone()), others, tally, fault);
            refused(to_us(wrong_check(frame)), CHECK, tally, fault);
        }
        let ad = to_us(changed(&ad, FRAME_SEQUENCE_NUMBER, number));
        read(&ad, Some(done(AD, number as u8, 17, 10)), tally, fault);
    }
}

fn accepted(tally: &mut Tally, fault: Fault) {
    for unit in [248, 249, 250, 251, 256 + 1, 512 + 1, 1016, UNIT_MOST] {
        let frame = to_us(bd_frame(&vec![7; unit]));
        let paper = done(BD, 0, unit as u16 + 7, unit as u16);
        read(&frame, Some(paper), tally, fault);
    }
    for fill in 0..=8 {
        let longest = filled(bd_frame(&[7; UNIT_MOST]), fill);
        let paper = match fill {
            0..=6 => done(BD, 0, FRAME_MOST as u16, UNIT_MOST as u16),
            _ => Read::refused(FILL),
        };
        read(&to_us(longest), Some(paper), tally, fault);
    }
}

fn one_rule_broken(tally: &mut Tally, fault: Fault) {
    let unlock = with_fecf(&UNLOCK);
    for lent in 0..8 {
        refused(to_us(unlock[..lent].to_vec()), SHORT, tally, fault);
        refused(to_us(vec![0; lent]), SHORT, tally, fault);
    }
    // Without data, one octet of fill makes it long enough.
    refused(to_us(bd_frame(&[])), SHORT, tally, fault);
    refused(to_us(filled(bd_frame(&[]), 1)), SHORT, tally, fault);
    for total in 1..8 {
        let too_short = changed(&unlock, FRAME_LENGTH, total - 1);
        refused(to_us(too_short), SHORT, tally, fault);
    }
    // Of 1,025 octets the ten bits say 1, of 1,032 eight, and then the rest is more than fill.
    for total in [1025, 1026, 1031] {
        refused(to_us(bd_frame(&vec![7; total - 7])), SHORT, tally, fault);
    }
    refused(to_us(bd_frame(&[7; 1025])), FILL, tally, fault);
    for total in [9, 10, 255, 256, 257, 1023, FRAME_MOST] {
        let too_much = changed(&unlock, FRAME_LENGTH, total - 1);
        refused(to_us(too_much), SHORT, tally, fault);
    }
    for fill in [7, 8, 256, 65_536] {
        refused(to_us(filled(unlock.clone(), fill)), FILL, tally, fault);
    }
    refused(to_us(wrong_check(unlock.clone())), CHECK, tally, fault);
    for value in 1..=3 {
        for field in [VERSION_NUMBER, RESERVED_SPARE] {
            refused(to_us(changed(&unlock, field, value)), HEADER, tally, fault);
        }
    }
    refused(
        to_us(changed(&unlock, BYPASS_FLAG, 0)),
        HEADER,
        tally,
        fault,
    );
    for (spacecraft, channel) in [
        (0, 0),
        (1, 1),
        (1023, 0),
        (1, 63),
        (1024 + 1, 0),
        (65_535, 0),
        (1, 64),
        (1, 128),
        (1, 192),
        (1, 255),
        (64_512 + 1, 192),
        (65_536 + 1, 0),
        (1 << 31 | 1, 0),
        (u32::MAX, 0),
        (1, 256),
        (1, 65_536),
        (1, 1 << 31),
        (1, u32::MAX),
        (65_536 + 1, 256),
    ] {
        let others = Input {
            octets: unlock.clone(),
            spacecraft,
            channel,
        };
        refused(others, ADDRESS, tally, fault);
    }
    for data in [
        &[0x01][..],
        &[0x82],
        &[0x00, 0x00],
        &[0x82, 0x00],
        &[0x00, 0x00, 0x00],
        &[0x82, 0x01, 0x05],
        &[0x02, 0x00, 0x05],
        &[0x82, 0x00, 0x05, 0x00],
        &[0x82; 249],
        &[0x82; UNIT_MOST],
    ] {
        let length = (6 + data.len() as u16).to_be_bytes();
        let header = [0x30, 0x01, length[0], length[1], 0x00];
        let no_command = with_fecf(&[&header, data].concat());
        refused(to_us(no_command), COMMAND, tally, fault);
    }
}

/// The earlier check in document 01's order decides.
fn two_rules_broken(tally: &mut Tally, fault: Fault) {
    let unlock = with_fecf(&UNLOCK);
    let no_command = with_fecf(&NO_COMMAND);
    let no_version = changed(&no_command, VERSION_NUMBER, 1);
    let no_spare = changed(&no_command, RESERVED_SPARE, 1);
    let no_type = changed(&no_command, BYPASS_FLAG, 0);
    let no_data = bd_frame(&[]);
    let longest = bd_frame(&[7; UNIT_MOST]);
    let too_much = changed(&no_command, FRAME_LENGTH, 9);

    // Fewer than eight lent, and the header says more.
    refused(to_us(longest[..7].to_vec()), SHORT, tally, fault);
    // The header says fewer than eight, and 5, 8, 6 or 7.
    refused(to_us(filled(no_data.clone(), 7)), SHORT, tally, fault);
    let wrong = filled(wrong_check(no_data.clone()), 1);
    refused(to_us(wrong), SHORT, tally, fault);
    let wrong = filled(changed(&no_data, VERSION_NUMBER, 1), 1);
    refused(to_us(wrong), SHORT, tally, fault);
    refused(to_others(filled(no_data, 1)), SHORT, tally, fault);
    // The longest frame, and 4, 5, 8, 6, 7 or 9.
    refused(to_us(longest[..1023].to_vec()), SHORT, tally, fault);
    refused(to_us(longest[..8].to_vec()), SHORT, tally, fault);
    refused(to_us(filled(longest.clone(), 7)), FILL, tally, fault);
    refused(to_us(wrong_check(longest.clone())), CHECK, tally, fault);
    let wrong = changed(&longest, VERSION_NUMBER, 1);
    refused(to_us(wrong), HEADER, tally, fault);
    refused(to_others(longest.clone()), ADDRESS, tally, fault);
    let wrong = changed(&longest, frame::CONTROL_COMMAND_FLAG, 1);
    refused(to_us(wrong), COMMAND, tally, fault);
    // The header says more than lent, and 8, 6 or 7, and 9.
    refused(to_us(wrong_check(too_much.clone())), SHORT, tally, fault);
    let wrong = changed(&too_much, VERSION_NUMBER, 1);
    refused(to_us(wrong), SHORT, tally, fault);
    refused(to_others(too_much), SHORT, tally, fault);
    // Fill, and 8, 6, 7 or 9.
    let wrong = filled(wrong_check(unlock.clone()), 7);
    refused(to_us(wrong), FILL, tally, fault);
    refused(to_us(filled(no_version.clone(), 7)), FILL, tally, fault);
    refused(to_others(filled(unlock.clone(), 7)), FILL, tally, fault);
    refused(to_us(filled(no_command.clone(), 7)), FILL, tally, fault);
    // The FECF, and 6, 7 or 9.
    for wrong in [&no_version, &no_spare, &no_type, &no_command] {
        refused(to_us(wrong_check(wrong.clone())), CHECK, tally, fault);
        refused(to_others(wrong_check(wrong.clone())), CHECK, tally, fault);
    }
    refused(to_others(wrong_check(unlock)), CHECK, tally, fault);
    // The header, and 7 or 9.
    for wrong in [&no_version, &no_spare, &no_type] {
        refused(to_us(wrong.clone()), HEADER, tally, fault);
        refused(to_others(wrong.clone()), HEADER, tally, fault);
    }
    // The address, and 9.
    refused(to_others(no_command), ADDRESS, tally, fault);
}

/// Each bit of a frame flipped, and then the FECF right again.
fn each_bit_flipped(tally: &mut Tally, fault: Fault) {
    let frame = with_fecf(&SET_VR);
    for octet in 0..frame.len() {
        for bit in 0..8 {
            let mut input = to_us(frame.clone());
            input.octets[octet] ^= 0x80 >> bit;
            read(&input, None, tally, fault);
            repair(&mut input.octets);
            read(&input, None, tally, fault);
        }
    }
}

fn refused(input: Input, number: u8, tally: &mut Tally, fault: Fault) {
    read(&input, Some(Read::refused(number)), tally, fault);
}

fn read_random(random: &mut Random, tally: &mut Tally, fault: Fault) {
    read(&for_the_reader(random), None, tally, fault);
}

fn read(input: &Input, paper: Option<Read>, tally: &mut Tally, fault: Fault) {
    let (spacecraft, channel) = (input.spacecraft, input.channel);
    let mut lent = input.octets.clone();
    let library = library::frame_read(&mut lent, spacecraft, channel);
    let independent = frame::read(&input.octets, spacecraft, channel, fault);

    tally.meet(library.number);
    if library.number == DONE {
        // From AD on; a frame that is read is not of no kind.
        tally.meet_kind(library.kind.wrapping_sub(AD));
    }
    let same = agree(&library, &independent, &paper) && lent == input.octets;
    tally.compared(same, || {
        show_octets("input", &input.octets)
            + &format!("  own address: spacecraft {spacecraft}, channel {channel}\n")
            + &show_answers(&library, &independent, &paper)
            + &show_first_difference("input", &lent, &input.octets)
    });
}
