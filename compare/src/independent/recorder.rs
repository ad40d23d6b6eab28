//! The recorder of a session: it keeps the AD frames of the last units sent, and puts one of
//! them into the frame channel again.

use std::collections::VecDeque;

use crate::bits;
use crate::fault::Fault;
use crate::fop1;
use crate::frame::{BYPASS_FLAG, CONTROL_COMMAND_FLAG, FRAME_SEQUENCE_NUMBER};
use crate::session::{Event, Settings};
use crate::session_random::ROOM_MOST;

/// The octets of the primary header.
const HEADER: usize = 5;

/// The greatest NW, and one more for a recorder that reaches too far.
const KEPT_MOST: usize = 128;

#[derive(Clone, PartialEq, Eq, Debug)]
pub struct Recorder {
    /// n: the number of the first unit.
    first: u8,
    /// So many units back it may reach: NW.
    pub reach: usize,
    /// The count of the units sent.
    pub sent: usize,
    /// The frames of the last of them, the newest last.
    frames: VecDeque<Vec<u8>>,
}

/// The frame is type AD by its header (Table 6-3).
pub fn is_ad(octets: &[u8]) -> bool {
    let header = bits::from_octets(&octets[..HEADER]);
    bits::get(&header, BYPASS_FLAG) == 0 && bits::get(&header, CONTROL_COMMAND_FLAG) == 0
}

impl Recorder {
    pub fn new(first: usize, reach: usize) -> Recorder {
        Recorder {
            first: first as u8,
            reach,
            sent: 0,
            frames: VecDeque::new(),
        }
    }

    /// A frame is handed down. It is of a unit sent where it is AD and its N(S) is n plus the
    /// count sent before (document 01, The session).
    pub fn record(&mut self, octets: &[u8]) {
        let header = bits::from_octets(&octets[..HEADER]);
        let number = bits::get(&header, FRAME_SEQUENCE_NUMBER);
        if !is_ad(octets) || number != (self.first as usize + self.sent) % 256 {
            return;
        }
        self.sent += 1;
        self.frames.push_back(octets.to_vec());
        if self.frames.len() > KEPT_MOST {
            self.frames.pop_front();
        }
    }

    /// The AD frame of the unit at this place of those sent, if it is one of the last NW.
    pub fn again(&self, place: usize, fault: Fault) -> Option<Vec<u8>> {
        let reach = match fault {
            Fault::SessionRecorderOneMore => self.reach + 1,
            _ => self.reach,
        };
        if place >= self.sent || self.sent - place > reach {
            return None;
        }
        let from_the_end = self.sent - place;
        Some(self.frames[self.frames.len() - from_the_end].clone())
    }
}

/// A session at K 1 and NW 1, in which the recorder puts the unit before the last into its
/// channel again: one that reaches NW + 1 locks the receiver out at the last event.
pub fn one_more_than_nw() -> (Settings, Vec<Event>) {
    let settings = Settings {
        spacecraft: 1,
        channel: 0,
        number: 255,
        k: 1,
        t1_initial: 1,
        transmission_limit: 5,
        timeout_type: 0,
        window: 2,
        buffers: 2,
    };
    let room = ROOM_MOST;
    let request = |octet| Event::AdRequest {
        unit: vec![octet],
        room,
    };
    let accept = Event::Lower {
        response: fop1::Event::AdAccept,
        room,
    };
    let events = vec![
        request(0),
        request(1),
        accept,
        Event::Frame,
        Event::Report,
        Event::Word { room },
        Event::Frame,
        Event::FrameAgain { place: 0 },
        Event::Frame,
    ];
    (settings, events)
}
