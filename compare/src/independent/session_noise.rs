//! Octets that are no frame for a session's receiver, octets that are no word for its sender,
//! damage to a frame, and fill behind one. Some of the octets are not refused, and some of the
//! fill is: these must be nothing.

use std::collections::BTreeSet;

use crate::bits::{self, Field};
use crate::clcw;
use crate::cltu;
use crate::fault::Fault;
use crate::fecf::{self, FECF_BITS};
use crate::frame::{
    self, Content, BYPASS_FLAG, CONTROL_COMMAND_FLAG, FILL_MOST, FRAME_LEAST, FRAME_LENGTH,
    FRAME_MOST, FRAME_SEQUENCE_NUMBER, RESERVED_SPARE, VERSION_NUMBER,
};
use crate::session::{inverted, Session};
use crate::session_random::{between, Draw};

/// The longest octets that come as noise, and as words.
const NOISE_MOST: usize = 300;
const WORD_NOISE_MOST: usize = 40;

/// The most octets behind a frame.
const TOO_MUCH_FILL_MOST: usize = 20;

fn octets(draw: Draw, count: usize) -> Vec<u8> {
    (0..count).map(|_| draw(256) as u8).collect()
}

/// Octets for the receiver.
pub fn noise(draw: Draw, session: &Session) -> Vec<u8> {
    let (spacecraft, channel) = (session.sender.spacecraft, session.sender.channel);
    match draw(12) {
        0 => {
            let count = draw(NOISE_MOST + 1);
            octets(draw, count)
        }
        1 | 2 => {
            let frame = under_way_or_new(draw, session);
            let places = damage(draw, frame.len());
            inverted(&frame, &places)
        }
        3 => {
            let content = content(draw, session);
            let other = (spacecraft + 1 + draw(1023) as u32) % 1024;
            frame::encode(other, channel, &content, Fault::None)
        }
        4 => {
            let content = content(draw, session);
            let other = (channel + 1 + draw(63) as u32) % 64;
            frame::encode(spacecraft, other, &content, Fault::None)
        }
        5 => wrong_check(draw, session),
        6 => {
            let mut frame = under_way_or_new(draw, session);
            frame.truncate(draw(frame.len()));
            frame
        }
        7 => {
            let count = draw(8);
            octets(draw, count)
        }
        8 => too_much_fill(draw, session),
        9 => wrong_header(draw, session),
        10 => too_short(draw, session),
        // A frame that is not refused, or as a BC frame: most have the number of an AD frame,
        // others carry no command.
        _ => {
            let frame = under_way_or_new(draw, session);
            let (bypass, command) = ((BYPASS_FLAG, 1), (CONTROL_COMMAND_FLAG, 1));
            match draw(3) {
                0 => frame,
                1 => changed(frame, &[bypass, command]),
                _ => changed(frame, &[bypass, command, (FRAME_SEQUENCE_NUMBER, 0)]),
            }
        }
    }
}

/// One or more bits of so many octets, in half of the cases a few.
pub fn damage(draw: Draw, octets: usize) -> Vec<usize> {
    let all = 8 * octets;
    let most = match draw(4) {
        0 => 1,
        1 => 3.min(all),
        2 => 16.min(all),
        _ => all,
    };
    let count = between(draw, 1, most);
    let places: BTreeSet<usize> = (0..count).map(|_| draw(all)).collect();
    places.into_iter().collect()
}

/// Octets behind a frame: those of a CLTU (clause 8.6), or any. Some are more than fill can be.
pub fn fill(draw: Draw) -> Vec<u8> {
    let count = match draw(8) {
        0 => between(draw, FILL_MOST + 1, TOO_MUCH_FILL_MOST),
        _ => between(draw, 0, FILL_MOST),
    };
    match draw(2) {
        0 => vec![cltu::FILL; count],
        _ => octets(draw, count),
    }
}

/// Octets for the sender, with those that must be nothing: an invalid word, or one of its own
/// channel.
pub fn word_noise(draw: Draw, session: &Session) -> Vec<u8> {
    let own = session.sender.channel;
    match draw(8) {
        0 => {
            let count = between(draw, 5, WORD_NOISE_MOST);
            octets(draw, count)
        }
        1 => {
            let count = draw(4);
            octets(draw, count)
        }
        2 => {
            let mut word = word(draw, own);
            match draw(2) {
                0 => word.truncate(3),
                _ => word.push(0),
            }
            word
        }
        3 => word(draw, own),
        4 => octets(draw, 4),
        _ => {
            let other = (own + 1 + draw(63) as u32) % 64;
            word(draw, other)
        }
    }
}

/// A valid word with any flags, counter and report value.
fn word(draw: Draw, channel: u32) -> Vec<u8> {
    let report = clcw::Report {
        channel,
        lockout: draw(2) as u32,
        wait: draw(2) as u32,
        retransmit: draw(2) as u32,
        counter: draw(4) as u32,
        value: draw(256) as u32,
    };
    bits::to_octets(&clcw::encode(&report, Fault::None))
}

/// What a frame carries that would harm: most often the number expected, or a command.
fn content(draw: Draw, session: &Session) -> Content {
    let count = between(draw, 1, 12);
    match draw(6) {
        0 => Content::Bd {
            unit: octets(draw, count),
        },
        1 => Content::Unlock,
        2 => Content::SetVr {
            value: draw(256) as u32,
        },
        3 => Content::Ad {
            number: draw(256) as u32,
            unit: octets(draw, count),
        },
        _ => Content::Ad {
            number: session.receiver.v_r.into(),
            unit: octets(draw, count),
        },
    }
}

fn under_way_or_new(draw: Draw, session: &Session) -> Vec<u8> {
    match session.frames.len() {
        count if count > 0 && draw(3) > 0 => session.frames[draw(count)].clone(),
        _ => {
            let content = content(draw, session);
            let (spacecraft, channel) = (session.sender.spacecraft, session.sender.channel);
            frame::encode(spacecraft, channel, &content, Fault::None)
        }
    }
}

/// The frame with the FECF of these fields' new values.
fn changed(octets: Vec<u8>, fields: &[(Field, usize)]) -> Vec<u8> {
    let mut frame = bits::from_octets(&octets);
    for (field, value) in fields {
        bits::put(&mut frame, field.clone(), *value);
    }
    frame.truncate(frame.len() - FECF_BITS);
    frame.extend(fecf::field(&frame, Fault::None));
    bits::to_octets(&frame)
}

fn wrong_check(draw: Draw, session: &Session) -> Vec<u8> {
    let mut frame = under_way_or_new(draw, session);
    let last = frame.len() - 1;
    frame[last] ^= between(draw, 1, 255) as u8;
    frame[last - 1] ^= draw(256) as u8;
    frame
}

fn wrong_header(draw: Draw, session: &Session) -> Vec<u8> {
    let frame = under_way_or_new(draw, session);
    match draw(4) {
        0 => changed(frame, &[(VERSION_NUMBER, between(draw, 1, 3))]),
        1 => changed(frame, &[(RESERVED_SPARE, between(draw, 1, 3))]),
        2 => changed(frame, &[(BYPASS_FLAG, 0), (CONTROL_COMMAND_FLAG, 1)]),
        // A type-B frame, most often BD, with a sequence octet that is not zero.
        _ => {
            let number = (FRAME_SEQUENCE_NUMBER, between(draw, 1, 255));
            changed(frame, &[(BYPASS_FLAG, 1), number])
        }
    }
}

fn too_much_fill(draw: Draw, session: &Session) -> Vec<u8> {
    let mut frame = under_way_or_new(draw, session);
    let fill = between(draw, FILL_MOST + 1, TOO_MUCH_FILL_MOST);
    frame.extend(octets(draw, fill));
    frame
}

/// Its header says more octets than there are, or fewer than a frame has.
fn too_short(draw: Draw, session: &Session) -> Vec<u8> {
    let frame = under_way_or_new(draw, session);
    let total = match draw(2) {
        0 if frame.len() < FRAME_MOST => between(draw, frame.len() + 1, FRAME_MOST),
        _ => between(draw, 1, FRAME_LEAST - 1),
    };
    changed(frame, &[(FRAME_LENGTH, total - 1)])
}
