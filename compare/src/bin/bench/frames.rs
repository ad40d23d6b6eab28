//! Frames: the library beside the independent side, and beside the plain program.

use std::hint::black_box;

use independent::fault::Fault;
use independent::frame::{self, Content};
use independent::refusal::DONE;

use crate::measure::{measure_all, sample, samples, side, Row};
use crate::{library, plain_frame, CHANNEL, FRAME, SPACECRAFT, UNIT};

/// The library, and the plain program with each check.
pub const SIDES: [&str; 3] = ["Library", "Plain bit by bit", "Plain by table"];
pub const PLAIN: usize = 2;

fn ad_content(number: u8, unit: usize) -> Content {
    Content::Ad {
        number: number.into(),
        unit: sample(number as usize, unit),
    }
}

pub fn ad_frame(number: u8, unit: usize) -> Vec<u8> {
    let content = ad_content(number, unit);
    frame::encode(SPACECRAFT, CHANNEL, &content, Fault::None)
}

fn ad_contents(unit: usize) -> Vec<Content> {
    samples(|number| ad_content(number as u8, unit))
}

fn ad_frames(unit: usize) -> Vec<Vec<u8>> {
    let frames = samples(|number| ad_frame(number as u8, unit));
    for frame in &frames {
        assert!(frame::read(frame, SPACECRAFT, CHANNEL, Fault::None).number == DONE);
    }
    frames
}

/// The address, which no side may take for a constant.
fn address() -> [u32; 2] {
    black_box([SPACECRAFT, CHANNEL])
}

pub fn write() -> Row<2> {
    let contents = ad_contents(UNIT);
    let library = side(&contents, FRAME, |content, output| {
        library::frame_write(SPACECRAFT, CHANNEL, content, output)
    });
    let independent = side(&contents, FRAME, |content, output| {
        frame::write(SPACECRAFT, CHANNEL, content, output, Fault::None)
    });
    measure_all("frame write, 256 octets", [library, independent])
}

pub fn read() -> Row<2> {
    let frames = ad_frames(UNIT);
    assert!(frames[0].len() == FRAME);
    let library = side(&frames, 0, |frame, _| {
        library::frame_read(frame, SPACECRAFT, CHANNEL)
    });
    let independent = side(&frames, 0, |frame, _| {
        frame::read(frame, SPACECRAFT, CHANNEL, Fault::None)
    });
    measure_all("frame read, 256 octets", [library, independent])
}

pub fn write_beside_plain(unit: usize) -> Row<3> {
    let contents = ad_contents(unit);
    let octets = ad_frame(0, unit).len();
    let [spacecraft, channel] = address();
    let (by_bit, by_table) = (plain_frame::bit_by_bit, plain_frame::by_table);
    let sides = [
        side(&contents, octets, move |content, output| {
            library::frame_write(spacecraft, channel, content, output)
        }),
        side(&contents, octets, move |content, output| {
            plain_frame::write(spacecraft, channel, content, output, by_bit)
        }),
        side(&contents, octets, move |content, output| {
            plain_frame::write(spacecraft, channel, content, output, by_table)
        }),
    ];
    measure_all(&format!("frame write, {octets} octets"), sides)
}

pub fn read_beside_plain(unit: usize) -> Row<3> {
    let frames = ad_frames(unit);
    let [spacecraft, channel] = address();
    let (by_bit, by_table) = (plain_frame::bit_by_bit, plain_frame::by_table);
    let sides = [
        side(&frames, 0, move |frame, _| {
            library::frame_read(frame, spacecraft, channel)
        }),
        side(&frames, 0, move |frame, _| {
            plain_frame::read(frame, spacecraft, channel, by_bit)
        }),
        side(&frames, 0, move |frame, _| {
            plain_frame::read(frame, spacecraft, channel, by_table)
        }),
    ];
    measure_all(&format!("frame read, {} octets", frames[0].len()), sides)
}

/// The plain program leaves no check out: frames of each kind, with any one bit changed,
/// before or after the check is made, and of lengths around their own.
pub fn check_plain_read() {
    let unit = sample(0, 3);
    let contents = [
        Content::Ad {
            number: 9,
            unit: unit.clone(),
        },
        Content::Bd { unit },
        Content::Unlock,
        Content::SetVr { value: 5 },
    ];
    for content in contents {
        let frame = frame::encode(SPACECRAFT, CHANNEL, &content, Fault::None);
        let checked = frame.len() - 2;
        for bit in 0..8 * frame.len() {
            let mut changed = frame.clone();
            changed[bit / 8] ^= 0x80 >> (bit % 8);
            let mut made = changed.clone();
            let check = plain_frame::by_table(&made[..checked]);
            made[checked..].copy_from_slice(&check.to_be_bytes());
            for mut octets in [changed, made] {
                octets.extend([0; 8]);
                for length in 0..=octets.len() {
                    let octets = &octets[..length];
                    let read = frame::read(octets, SPACECRAFT, CHANNEL, Fault::None);
                    let by_bit = plain_frame::bit_by_bit;
                    assert!(plain_frame::read(octets, SPACECRAFT, CHANNEL, by_bit) == read);
                    let by_table = plain_frame::by_table;
                    assert!(plain_frame::read(octets, SPACECRAFT, CHANNEL, by_table) == read);
                }
            }
        }
    }
}
