//! The library's receiver, and what it must be after an event.

use super::{compare_numbers, compare_octets};
use crate::inputs::farm1_frames::Start;
use crate::library::{self, Received};
use crate::octets::{self, CHANNEL_MOST, RECEIVER_STATE, SPACECRAFT_MOST};
use independent::farm1::{Event, Farm1};
use independent::frame::{AD, BD};
use independent::output::Written;
use independent::refusal::{DONE, ROOM, SETTING};
use independent::session::{self, Carried};

/// The octets of the primary header, of a control word.
const HEADER: u64 = 5;
const WORD: usize = 4;

/// The octets of a receiver's state.
pub fn state(farm: &Farm1, spacecraft: u32, channel: u32) -> Vec<u8> {
    octets::receiver_state(farm, spacecraft, channel).to_vec()
}

/// A new receiver of the library, compared with the independent one. Both must refuse it
/// alike, or both give it: no receiver where they refuse, or differ.
pub fn start(start: &Start, before: Vec<u8>) -> (u8, Option<Farm1>, Vec<String>) {
    let (spacecraft, channel) = (start.spacecraft, start.channel);
    let mut after = before.clone();
    let number = library::receiver_new(spacecraft, channel, start.variables, &mut after);
    let [window, v_r, buffers] = start.variables.map(|number| number as usize);
    let started = match spacecraft <= SPACECRAFT_MOST && channel <= CHANNEL_MOST {
        true => Farm1::start(window, v_r, buffers),
        false => Err(SETTING),
    };
    let started = started.and_then(|farm| match before.len() < RECEIVER_STATE {
        true => Err(ROOM),
        false => Ok(farm),
    });
    let mut expected = before;
    if let Ok(farm) = &started {
        expected[..RECEIVER_STATE].copy_from_slice(&state(farm, spacecraft, channel));
    }
    let mut differences = Vec::new();
    let expected_number = started.err().unwrap_or(DONE);
    compare_numbers(number, expected_number, &mut differences);
    compare_octets("state", &after, &expected, &mut differences);
    let farm = started.ok().filter(|_| differences.is_empty());
    (number, farm, differences)
}

/// The event's number, 0 for none.
pub fn event_number(event: Option<Event>) -> u8 {
    event.map_or(0, |event| event as u8 + 1)
}

/// What is said of a frame that is read with this number.
pub fn expected_frame(number: u8, received: &session::Received) -> Received {
    said(number, received.event.ok(), &received.accepted)
}

/// The same, by its event and the unit accepted.
pub fn said(number: u8, event: Option<Event>, accepted: &Option<Carried>) -> Received {
    let (unit, first, count) = match accepted {
        None => (0, 0, 0),
        Some(Carried { kind: AD, data, .. }) => (1, HEADER, data.len()),
        Some(Carried { kind: BD, data, .. }) => (2, HEADER, data.len()),
        Some(other) => unreachable!("{other:?} is no unit"),
    };
    Received {
        number,
        event: event_number(event),
        unit,
        first,
        count: count as u64,
    }
}

/// The number and the event of a release.
pub fn expected_release(received: &session::Received) -> (u8, u8) {
    let number = match received.event {
        Ok(_) => DONE,
        Err(refusal) => refusal,
    };
    (number, event_number(received.event.ok()))
}

/// Nothing is said where the octets are no state.
pub const NOTHING_RECEIVED: Received = Received {
    number: SETTING,
    event: 0,
    unit: 0,
    first: 0,
    count: 0,
};

/// A frame comes to the library's receiver; its state is compared with the expected one.
pub fn frame(
    state: &mut [u8],
    octets: &[u8],
    expected: &Received,
    expected_state: &[u8],
) -> Vec<String> {
    let mut frame = octets.to_vec();
    let received = library::receiver_frame(state, &mut frame);
    let mut differences = Vec::new();
    if received != *expected {
        differences.push(format!("frame: {received:?}, not {expected:?}"));
    }
    if frame != octets {
        differences.push("the frame is changed".to_string());
    }
    compare_octets("state", state, expected_state, &mut differences);
    differences
}

pub fn release(state: &mut [u8], expected: (u8, u8), expected_state: &[u8]) -> Vec<String> {
    let released = library::receiver_release(state);
    let mut differences = Vec::new();
    if released != expected {
        differences.push(format!("release: {released:?}, not {expected:?}"));
    }
    compare_octets("state", state, expected_state, &mut differences);
    differences
}

/// The control word, written into the output where it has room, or refused.
pub fn word(
    state: &mut [u8],
    mut output: Vec<u8>,
    expected: Result<&[u8], u8>,
) -> (Vec<u8>, Vec<String>) {
    let (state_before, mut output_after) = (state.to_vec(), output.clone());
    let written = library::receiver_word(state, &mut output);
    let expected = match expected {
        Ok(word) if output.len() >= WORD => {
            output_after[..WORD].copy_from_slice(word);
            Written {
                number: DONE,
                count: WORD as u64,
            }
        }
        Ok(_) => Written::refused(ROOM),
        Err(refusal) => Written::refused(refusal),
    };
    let mut differences = Vec::new();
    if written != expected {
        differences.push(format!("word: {written:?}, not {expected:?}"));
    }
    compare_octets("state", state, &state_before, &mut differences);
    compare_octets("output", &output, &output_after, &mut differences);
    (output, differences)
}
