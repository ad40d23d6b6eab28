//! The TC Transfer Frame: primary header, data field, FECF (clause 6.2.1), written and
//! read by the rules of document 01, with document 02's orders 7 and 10.

use crate::bits::{self, Field};
use crate::fault::Fault;
use crate::fecf::{self, FECF_BITS};
use crate::output::{self, Written};
use crate::refusal::{ADDRESS, CHECK, COMMAND, DONE, FILL, HEADER, LENGTH, SETTING, SHORT};

/// The fields of the primary header (clauses 6.2.2.2 to 6.2.2.9).
pub const VERSION_NUMBER: Field = 0..=1;
pub const BYPASS_FLAG: Field = 2..=2;
pub const CONTROL_COMMAND_FLAG: Field = 3..=3;
pub const RESERVED_SPARE: Field = 4..=5;
pub const SPACECRAFT_IDENTIFIER: Field = 6..=15;
pub const VIRTUAL_CHANNEL_IDENTIFIER: Field = 16..=21;
pub const FRAME_LENGTH: Field = 22..=31;
pub const FRAME_SEQUENCE_NUMBER: Field = 32..=39;

const HEADER_BITS: usize = 40;

/// Clause 7.8.
const UNLOCK: [u8; 1] = [0b0000_0000];
const SET_VR: [u8; 2] = [0b1000_0010, 0b0000_0000];

/// Limits of a frame and of a unit, in octets (document 01, Limits; "Frames to 1,024 octets
/// (CLTU 1,186), so units to 1,017": document 02, order 7).
pub const FRAME_LEAST: usize = 8;
pub const FRAME_MOST: usize = 1024;
pub const UNIT_LEAST: usize = 1;
pub const UNIT_MOST: usize = 1017;

/// The limit of a frame before order 7.
const FORMER_FRAME_MOST: usize = 256;

/// Limits of an address (document 01, Limits).
pub const SPACECRAFT_MOST: u32 = 1023;
pub const CHANNEL_MOST: u32 = 63;

/// Sequence numbers are counted modulo 256 (document 01, Limits).
const NUMBER_MOST: u32 = 255;

/// So many octets may follow the frame (document 01, Refusals).
pub const FILL_MOST: usize = 6;

/// What a frame carries. A number can be beyond its limit, and is then not written.
#[derive(Clone, PartialEq, Eq, Debug)]
pub enum Content {
    Ad { number: u32, unit: Vec<u8> },
    Bd { unit: Vec<u8> },
    Unlock,
    SetVr { value: u32 },
}

impl Content {
    /// The Transfer Frame Data Field (clause 6.2.3).
    pub fn data(&self) -> Vec<u8> {
        match self {
            Content::Ad { unit, .. } | Content::Bd { unit } => unit.clone(),
            Content::Unlock => UNLOCK.to_vec(),
            Content::SetVr { value } => [&SET_VR[..], &[*value as u8]].concat(),
        }
    }

    /// The Bypass Flag, the Control Command Flag (Table 6-3) and N(S), which is zero in
    /// type-B frames (clause 6.2.2.9).
    fn flags_and_number(&self) -> (usize, usize, u32) {
        match self {
            Content::Ad { number, .. } => (0, 0, *number),
            Content::Bd { .. } => (1, 0, 0),
            Content::Unlock | Content::SetVr { .. } => (1, 1, 0),
        }
    }

    pub fn kind(&self) -> u8 {
        match self {
            Content::Ad { .. } => AD,
            Content::Bd { .. } => BD,
            Content::Unlock => BC_UNLOCK,
            Content::SetVr { .. } => BC_SET_VR,
        }
    }

    /// Its number or value is a sequence number (document 01, Refusals: 12).
    fn within_limits(&self) -> bool {
        match self {
            Content::Ad { number, .. } => *number <= NUMBER_MOST,
            Content::SetVr { value } => *value <= NUMBER_MOST,
            Content::Bd { .. } | Content::Unlock => true,
        }
    }
}

/// The kinds of a frame that is read or handed down.
pub const NONE: u8 = 0;
pub const AD: u8 = 1;
pub const BD: u8 = 2;
pub const BC_UNLOCK: u8 = 3;
pub const BC_SET_VR: u8 = 4;

/// The answer of reading. All but the number are zero after a refusal.
#[derive(Clone, Copy, PartialEq, Eq, Debug)]
pub struct Read {
    /// The number of document 01, Refusals.
    pub number: u8,
    /// AD, BD, Unlock or Set V(R).
    pub kind: u8,
    /// N(S) of an AD frame, the value of Set V(R), otherwise zero.
    pub value: u8,
    /// The octets of the frame.
    pub total: u16,
    /// The octets of its data field.
    pub field: u16,
}

impl Read {
    pub fn refused(number: u8) -> Read {
        Read {
            number,
            kind: 0,
            value: 0,
            total: 0,
            field: 0,
        }
    }
}

/// The frame, whatever its length, as long as each number has room in its field. Beyond the
/// limit the header has what ten bits hold of the length.
pub fn encode(spacecraft: u32, channel: u32, content: &Content, fault: Fault) -> Vec<u8> {
    let data = bits::from_octets(&content.data());
    let all_bits = HEADER_BITS + data.len() + FECF_BITS;
    let (bypass, control_command, number) = content.flags_and_number();

    let mut frame = vec![false; HEADER_BITS];
    bits::put(&mut frame, VERSION_NUMBER, 0b00);
    bits::put(&mut frame, BYPASS_FLAG, bypass);
    bits::put(&mut frame, CONTROL_COMMAND_FLAG, control_command);
    bits::put(&mut frame, RESERVED_SPARE, 0b00);
    bits::put(&mut frame, SPACECRAFT_IDENTIFIER, spacecraft as usize);
    bits::put(&mut frame, VIRTUAL_CHANNEL_IDENTIFIER, channel as usize);
    bits::put(&mut frame, FRAME_LENGTH, (all_bits / 8 - 1) % FRAME_MOST);
    bits::put(&mut frame, FRAME_SEQUENCE_NUMBER, number as usize);
    frame.extend(data);
    frame.extend(fecf::field(&frame, fault));
    bits::to_octets(&frame)
}

/// The unit's length is within its limits.
pub fn within_limits(unit: &[u8], fault: Fault) -> bool {
    let most = match fault {
        Fault::UnitOneMore => UNIT_MOST + 1,
        _ => UNIT_MOST,
    };
    (UNIT_LEAST..=most).contains(&unit.len())
}

/// Writes a frame (document 01, Refusals: 10, 12, 11).
pub fn write(
    spacecraft: u32,
    channel: u32,
    content: &Content,
    output: &mut [u8],
    fault: Fault,
) -> Written {
    if !within_limits(&content.data(), fault) {
        return Written::refused(LENGTH);
    }
    let addressed = spacecraft <= SPACECRAFT_MOST && channel <= CHANNEL_MOST;
    if !addressed || !content.within_limits() {
        return Written::refused(SETTING);
    }
    let frame = encode(spacecraft, channel, content, fault);
    output::write(&frame, output, fault)
}

/// Reads a frame (document 01, Refusals: 4, 4, 10, 4, 5, 8, 6, 7, 9). No header says over 1,024
/// octets in its ten bits, so 10 is never due (document 02, order 7).
pub fn read(octets: &[u8], spacecraft: u32, channel: u32, fault: Fault) -> Read {
    // Frame delimiting and fill removal (clause 6.6).
    if octets.len() < FRAME_LEAST || fault == Fault::FrameRefusesAll {
        return Read::refused(SHORT);
    }
    let candidate = bits::from_octets(octets);
    let total = bits::get(&candidate, FRAME_LENGTH) + 1;
    if total < FRAME_LEAST {
        return Read::refused(SHORT);
    }
    if fault == Fault::FrameFormerLimit && total > FORMER_FRAME_MOST {
        return Read::refused(LENGTH);
    }
    if total > octets.len() {
        return Read::refused(SHORT);
    }
    let fill_most = match fault {
        Fault::FrameFillSeven => 7,
        _ => FILL_MOST,
    };
    if octets.len() - total > fill_most {
        return Read::refused(FILL);
    }
    let frame = &candidate[..8 * total];

    let ours = bits::get(frame, SPACECRAFT_IDENTIFIER) == spacecraft as usize
        && bits::get(frame, VIRTUAL_CHANNEL_IDENTIFIER) == channel as usize;
    if fault == Fault::FrameAddressBeforeCheck && !ours {
        return Read::refused(ADDRESS);
    }

    // Frame error control (clause 6.7).
    if !fecf::is_right(frame, fault) {
        return Read::refused(CHECK);
    }

    // Frame header validation (clause 6.8).
    let version = bits::get(frame, VERSION_NUMBER);
    let spare = bits::get(frame, RESERVED_SPARE);
    if version != 0 || spare != 0 {
        return Read::refused(HEADER);
    }
    let bypass = bits::get(frame, BYPASS_FLAG);
    let control_command = bits::get(frame, CONTROL_COMMAND_FLAG);
    if (bypass, control_command) == (0, 1) {
        return Read::refused(HEADER);
    }
    let number = bits::get(frame, FRAME_SEQUENCE_NUMBER) as u8;
    // Document 02, order 10: the sequence octet of a type-B frame is zero.
    let zero_due = match fault {
        Fault::FrameNumberOfTypeBTaken => false,
        Fault::FrameNumberOfAdJudged => true,
        _ => bypass == 1,
    };
    if zero_due && number != 0 {
        return Read::refused(HEADER);
    }
    if !ours {
        return Read::refused(ADDRESS);
    }

    // The data field, which is a control command in BC frames (clause 7.8).
    let data = bits::to_octets(&frame[HEADER_BITS..frame.len() - FECF_BITS]);
    let (kind, value) = match (bypass, control_command) {
        (0, 0) => (AD, number),
        (1, 0) => (BD, 0),
        _ if data == UNLOCK => (BC_UNLOCK, 0),
        _ if data.len() == 3 && data[..2] == SET_VR => (BC_SET_VR, data[2]),
        _ => return Read::refused(COMMAND),
    };
    Read {
        number: DONE,
        kind,
        value,
        total: total as u16,
        field: data.len() as u16,
    }
}

#[cfg(test)]
mod tests {
    use super::*;
    use crate::refusal::ROOM;

    fn unit(length: usize) -> Vec<u8> {
        (0..length).map(|n| (37 * n + 11) as u8).collect()
    }

    /// A frame from its octets without FECF.
    fn with_fecf(octets: &[u8]) -> Vec<u8> {
        let message = bits::from_octets(octets);
        let field = fecf::field(&message, Fault::None);
        [octets, &bits::to_octets(&field)].concat()
    }

    fn done(kind: u8, value: u8, total: u16, field: u16) -> Read {
        Read {
            number: DONE,
            kind,
            value,
            total,
            field,
        }
    }

    // Document 01, Frame.
    #[test]
    fn three_frames() {
        let ad = Content::Ad {
            number: 255,
            unit: vec![0xAB],
        };
        let three: [(u32, u32, Content, &[u8], Read); 3] = [
            (
                1,
                0,
                Content::Unlock,
                &[0x30, 0x01, 0x00, 0x07, 0x00, 0x00],
                done(BC_UNLOCK, 0, 8, 1),
            ),
            (
                1,
                0,
                Content::SetVr { value: 5 },
                &[0x30, 0x01, 0x00, 0x09, 0x00, 0x82, 0x00, 0x05],
                done(BC_SET_VR, 5, 10, 3),
            ),
            (
                0x2A5,
                3,
                ad,
                &[0x02, 0xA5, 0x0C, 0x07, 0xFF, 0xAB],
                done(AD, 255, 8, 1),
            ),
        ];
        for (spacecraft, channel, content, octets, answer) in three {
            let frame = encode(spacecraft, channel, &content, Fault::None);
            assert_eq!(frame, with_fecf(octets));
            assert_eq!(read(&frame, spacecraft, channel, Fault::None), answer);
        }
    }

    #[test]
    fn what_is_written_is_read() {
        for length in (1..=300).chain(1000..=1017) {
            for (content, kind, value) in [
                (
                    Content::Ad {
                        number: length as u32 % 256,
                        unit: unit(length),
                    },
                    AD,
                    length as u8,
                ),
                (Content::Bd { unit: unit(length) }, BD, 0),
            ] {
                let mut output = vec![0xAA; length + 8];
                let answer = write(1023, 63, &content, &mut output, Fault::None);
                let count = length as u64 + 7;
                assert_eq!(
                    answer,
                    Written {
                        number: DONE,
                        count
                    }
                );
                assert_eq!(output.pop(), Some(0xAA));
                assert_eq!(output[5..5 + length], unit(length));
                for fill in 0..=7 {
                    let answer = read(&output, 1023, 63, Fault::None);
                    if fill <= 6 {
                        assert_eq!(answer, done(kind, value, count as u16, length as u16));
                    } else {
                        assert_eq!(answer, Read::refused(FILL));
                    }
                    output.push(0x55);
                }
            }
        }
    }

    #[test]
    fn writing_refuses() {
        for (spacecraft, channel, length, room, number) in [
            (1023, 63, 1, 8, DONE),
            (1023, 63, 249, 256, DONE),
            (1023, 63, 249, 255, ROOM),
            (1023, 63, 1017, 1024, DONE),
            (1023, 63, 1017, 1023, ROOM),
            (1024, 63, 1, 7, SETTING),
            (1023, 64, 1, 7, SETTING),
            (1024, 64, 0, 0, LENGTH),
            (0, 0, 1018, 1100, LENGTH),
        ] {
            let content = Content::Bd { unit: unit(length) };
            let mut output = vec![0xAA; room];
            let answer = write(spacecraft, channel, &content, &mut output, Fault::None);
            assert_eq!(answer.number, number);
            if number != DONE {
                assert_eq!(answer.count, 0);
                assert_eq!(output, vec![0xAA; room]);
            }
        }
    }

    // Document 01, Refusals: a sequence number is 0 to 255.
    #[test]
    fn writing_refuses_numbers() {
        for (value, number) in [
            (255, DONE),
            (256, SETTING),
            (65_536, SETTING),
            (u32::MAX, SETTING),
        ] {
            let ad = Content::Ad {
                number: value,
                unit: vec![7],
            };
            for content in [ad, Content::SetVr { value }] {
                let answer = write(1, 0, &content, &mut [0; 20], Fault::None);
                assert_eq!(answer.number, number);
            }
        }
    }

    // Each of these breaks one more rule than the one before it, an earlier one, with
    // the FECF right as long as it is not itself the one broken.
    #[test]
    fn the_order_of_the_checks() {
        let no_command = [0x30, 0x01, 0x00, 0x08, 0x00, 0x82, 0x00];
        let frame = with_fecf(&no_command);
        assert_eq!(read(&frame, 1, 0, Fault::None).number, COMMAND);
        assert_eq!(read(&frame, 2, 0, Fault::None).number, ADDRESS);
        assert_eq!(read(&frame, 1, 1, Fault::None).number, ADDRESS);

        for header in [0x70, 0xB0, 0xF0, 0x34, 0x38, 0x3C, 0x10] {
            let mut no_header = no_command;
            no_header[0] = header;
            let mut frame = with_fecf(&no_header);
            assert_eq!(read(&frame, 2, 0, Fault::None).number, HEADER);
            frame[8] ^= 1;
            assert_eq!(read(&frame, 2, 0, Fault::None).number, CHECK);
            frame.extend([0x55; 7]);
            assert_eq!(read(&frame, 2, 0, Fault::None).number, FILL);
            frame[3] = 0x10;
            assert_eq!(read(&frame, 2, 0, Fault::None).number, SHORT);
            frame[2] = 0x03;
            assert_eq!(read(&frame, 2, 0, Fault::None).number, SHORT);
            assert_eq!(read(&frame[..7], 2, 0, Fault::None).number, SHORT);
            frame[2] = 0;
            frame[3] = 0x06;
            assert_eq!(read(&frame, 2, 0, Fault::None).number, SHORT);
        }
    }

    // Document 02, order 7: "Refusal 10 moves to the new limits", which no header exceeds.
    #[test]
    fn no_length_is_refused_with_10() {
        for total in 1..=FRAME_MOST {
            let length = total - 1;
            let header = [0x20, 0x01, (length >> 8) as u8, length as u8, 0];
            let mut octets = with_fecf(&[&header[..], &unit(total.saturating_sub(7))].concat());
            let number = if total < 8 { SHORT } else { DONE };
            assert_eq!(read(&octets, 1, 0, Fault::None).number, number);
            octets.pop();
            assert_eq!(read(&octets, 1, 0, Fault::None).number, SHORT);
        }
    }

    // Document 01, Limits: an own address beyond the limits matches no frame.
    #[test]
    fn own_address_beyond_the_limits() {
        let frame = with_fecf(&[0x30, 0x01, 0x00, 0x07, 0x00, 0x00]);
        for spacecraft in (0..=65_536).step_by(1024) {
            for channel in (0..=256).step_by(64).chain([65_536, 1 << 31]) {
                let answer = read(&frame, spacecraft + 1, channel, Fault::None);
                let ours = (spacecraft, channel) == (0, 0);
                assert_eq!(answer.number, if ours { DONE } else { ADDRESS });
            }
        }
    }

    // Document 02, order 10: 6, judged where 6 was judged, behind 8 and before 7 and 9.
    #[test]
    fn number_of_type_b() {
        for number in 0..=255 {
            let bd = with_fecf(&[0x20, 0x01, 0x00, 0x07, number, 0x01]);
            let unlock = with_fecf(&[0x30, 0x01, 0x00, 0x07, number, 0x00]);
            let no_command = with_fecf(&[0x30, 0x01, 0x00, 0x07, number, 0x01]);
            for (mut frame, ours) in [(bd, DONE), (unlock, DONE), (no_command, COMMAND)] {
                for (spacecraft, zero) in [(1, ours), (2, ADDRESS)] {
                    let due = if number == 0 { zero } else { HEADER };
                    assert_eq!(read(&frame, spacecraft, 0, Fault::None).number, due);
                }
                frame[7] ^= 1;
                assert_eq!(read(&frame, 1, 0, Fault::None).number, CHECK);
            }
            let ad = with_fecf(&[0x00, 0x01, 0x00, 0x07, number, 0x01]);
            assert_eq!(read(&ad, 1, 0, Fault::None), done(AD, number, 8, 1));
        }
    }
}
