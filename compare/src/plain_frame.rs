//! Frames written and read on octets, as a plain Rust program does it: what the benchmark
//! measures beside the library's. A call answers as the library's does, by a number and
//! through references. The check of a frame is a parameter: `bit_by_bit` or `by_table`.

use independent::frame::{Content, Read, AD, BC_SET_VR, BC_UNLOCK, BD, UNIT_MOST};
use independent::output::Written;
use independent::refusal::{
    ADDRESS, CHECK, COMMAND, DONE, FILL, HEADER, LENGTH, ROOM, SETTING, SHORT,
};

/// Clause 6.2.4.2: X^16 + X^12 + X^5 + 1, less its highest term, and the presetting.
const GENERATOR: u16 = 0x1021;
const PRESET: u16 = 0xFFFF;

const HEADER_OCTETS: usize = 5;
const CHECK_OCTETS: usize = 2;

/// One bit into the register.
const fn shift(register: u16, bit: u16) -> u16 {
    let leaving = (register >> 15) ^ bit;
    (register << 1) ^ (leaving * GENERATOR)
}

/// The check of a message, a bit at a time.
pub fn bit_by_bit(message: &[u8]) -> u16 {
    let mut register = PRESET;
    for octet in message {
        for place in (0..8).rev() {
            register = shift(register, (octet >> place & 1).into());
        }
    }
    register
}

/// The check of each octet, preset zero.
static TABLE: [u16; 256] = {
    let mut table = [0; 256];
    let mut octet = 0;
    while octet < 256 {
        let mut place = 8;
        while place > 0 {
            place -= 1;
            table[octet] = shift(table[octet], (octet >> place & 1) as u16);
        }
        octet += 1;
    }
    table
};

/// The check of a message, an octet at a time.
pub fn by_table(message: &[u8]) -> u16 {
    let mut register = PRESET;
    for octet in message {
        let place = (register >> 8) as u8 ^ octet;
        register = (register << 8) ^ TABLE[place as usize];
    }
    register
}

/// Writes a frame (document 01, Refusals: 10, 12, 11).
pub fn write(
    spacecraft: u32,
    channel: u32,
    content: &Content,
    output: &mut [u8],
    check: impl Fn(&[u8]) -> u16,
) -> Written {
    let mut count = 0;
    let number = write_counted(spacecraft, channel, content, output, &mut count, check);
    Written { number, count }
}

#[inline(never)]
fn write_counted(
    spacecraft: u32,
    channel: u32,
    content: &Content,
    output: &mut [u8],
    count: &mut u64,
    check: impl Fn(&[u8]) -> u16,
) -> u8 {
    *count = 0;
    let command;
    let (flags, number, unit) = match content {
        Content::Ad { number, unit } => (0x00, *number, &unit[..]),
        Content::Bd { unit } => (0x20, 0, &unit[..]),
        Content::Unlock => (0x30, 0, &[0x00][..]),
        Content::SetVr { value } => {
            command = [0x82, 0x00, *value as u8];
            (0x30, 0, &command[..])
        }
    };
    if unit.is_empty() || unit.len() > UNIT_MOST {
        return LENGTH;
    }
    let set = match content {
        Content::SetVr { value } => *value,
        _ => number,
    };
    if spacecraft > 1023 || channel > 63 || set > 255 {
        return SETTING;
    }
    let checked = HEADER_OCTETS + unit.len();
    let total = checked + CHECK_OCTETS;
    if output.len() < total {
        return ROOM;
    }
    let last = total - 1;
    output[0] = flags | (spacecraft >> 8) as u8;
    output[1] = spacecraft as u8;
    output[2] = (channel << 2) as u8 | (last >> 8) as u8;
    output[3] = last as u8;
    output[4] = number as u8;
    output[HEADER_OCTETS..checked].copy_from_slice(unit);
    let field = check(&output[..checked]);
    output[checked..total].copy_from_slice(&field.to_be_bytes());
    *count = total as u64;
    DONE
}

/// Reads a frame (document 01, Refusals: 4, 4, 10, 4, 5, 8, 6, 7, 9).
pub fn read(octets: &[u8], spacecraft: u32, channel: u32, check: impl Fn(&[u8]) -> u16) -> Read {
    let mut read = Read::refused(DONE);
    let (kind, value) = (&mut read.kind, &mut read.value);
    let lengths = (&mut read.total, &mut read.field);
    read.number = read_told(octets, spacecraft, channel, kind, value, lengths, check);
    read
}

#[inline(never)]
fn read_told(
    octets: &[u8],
    spacecraft: u32,
    channel: u32,
    kind: &mut u8,
    value: &mut u8,
    (total_told, field_told): (&mut u16, &mut u16),
    check: impl Fn(&[u8]) -> u16,
) -> u8 {
    (*kind, *value, *total_told, *field_told) = (0, 0, 0, 0);
    if octets.len() < 8 {
        return SHORT;
    }
    let total = usize::from(octets[2] & 0x03) << 8 | usize::from(octets[3]);
    let total = total + 1;
    if total < 8 {
        return SHORT;
    }
    if total > octets.len() {
        return SHORT;
    }
    if octets.len() - total > 6 {
        return FILL;
    }
    let (checked, field) = octets[..total].split_at(total - CHECK_OCTETS);
    if check(checked).to_be_bytes() != field {
        return CHECK;
    }
    // Version number, spare, and control command without bypass.
    if octets[0] & 0xCC != 0 || octets[0] & 0x30 == 0x10 {
        return HEADER;
    }
    // The sequence octet of a type-B frame, one with bypass, is zero.
    if octets[0] & 0x20 != 0 && octets[4] != 0 {
        return HEADER;
    }
    let addressed = u32::from(octets[0] & 0x03) << 8 | u32::from(octets[1]);
    if addressed != spacecraft || u32::from(octets[2] >> 2) != channel {
        return ADDRESS;
    }
    let unit = &checked[HEADER_OCTETS..];
    (*kind, *value) = match (octets[0] & 0x30, unit) {
        (0x00, _) => (AD, octets[4]),
        (0x20, _) => (BD, 0),
        (_, [0x00]) => (BC_UNLOCK, 0),
        (_, [0x82, 0x00, value]) => (BC_SET_VR, *value),
        _ => return COMMAND,
    };
    (*total_told, *field_told) = (total as u16, unit.len() as u16);
    DONE
}
