//! The session (document 01): a sender and a receiver, linked by two channels that may
//! lose but never alter or reorder. Beyond document 01, a frame or a word may stay when it is
//! delivered, a recorder may repeat a frame, fill may stand behind a frame, and noise may come
//! to either end.

use std::collections::VecDeque;

use crate::bits;
use crate::clcw;
use crate::farm1::{self, Arrival, Farm1, Variables};
use crate::fault::Fault;
use crate::fop1::{self, Answer, Sender};
use crate::frame;
use crate::recorder::{is_ad, Recorder};
use crate::refusal::{ADDRESS, DONE, LENGTH, SETTING};
use crate::table_7_8::State;

/// The octets of the primary header.
const HEADER: usize = 5;

/// Four octets that are no valid CLCW: its type is not zero.
pub const INVALID_WORD: [u8; 4] = [0x80, 0, 0, 0];

/// What is given at the start.
#[derive(Clone, Copy, PartialEq, Eq, Debug)]
pub struct Settings {
    pub spacecraft: usize,
    pub channel: usize,
    /// n: V(S), NN(R) and V(R) at the start.
    pub number: usize,
    pub k: usize,
    pub t1_initial: usize,
    pub transmission_limit: usize,
    pub timeout_type: usize,
    /// W of the receiver.
    pub window: usize,
    /// Its buffers for AD units.
    pub buffers: usize,
}

/// The events. Those of the sender have the room lent for a frame.
#[derive(Clone, PartialEq, Eq, Debug)]
pub enum Event {
    AdRequest {
        unit: Vec<u8>,
        room: usize,
    },
    BdRequest {
        unit: Vec<u8>,
        room: usize,
    },
    Tick {
        room: usize,
    },
    /// One of the six answers of the lower layer.
    Lower {
        response: fop1::Event,
        room: usize,
    },
    Terminate,
    /// Directive 6 with any value (document 02, order 9).
    Resume {
        value: usize,
    },
    /// The oldest word comes to the sender.
    Word {
        room: usize,
    },
    /// The oldest frame comes to the receiver.
    Frame,
    Release,
    /// The receiver's control word enters its channel.
    Report,
    FrameLost,
    WordLost,
    /// The oldest frame comes to the receiver with these octets behind it and stays as it is,
    /// if it is an AD frame and its reader does not refuse it.
    FrameStays {
        fill: Vec<u8>,
    },
    /// The oldest word comes to the sender and stays.
    WordStays {
        room: usize,
    },
    /// The recorder puts the AD frame of the unit at this place of those sent into its
    /// channel again, if it is one of the last NW.
    FrameAgain {
        place: usize,
    },
    /// Octets come to the receiver, if its reader refuses them.
    Noise {
        octets: Vec<u8>,
    },
    /// Octets come to the sender, if it refuses them with 7 or 10.
    WordNoise {
        octets: Vec<u8>,
        room: usize,
    },
    /// The oldest frame, with these bits of it inverted, comes to the receiver in its place,
    /// if its reader refuses it.
    FrameDamaged {
        bits: Vec<usize>,
    },
    /// The oldest frame comes to the receiver with these octets behind it, as the fill of its
    /// last codeblock, if its reader does not refuse it.
    FrameFilled {
        fill: Vec<u8>,
    },
}

/// A frame as it is read: its kind, its N(S) and its data field.
#[derive(Clone, PartialEq, Eq, Debug)]
pub struct Carried {
    pub kind: u8,
    pub value: u8,
    pub data: Vec<u8>,
}

/// What an event gave: all of it is seen from outside.
#[derive(Clone, PartialEq, Eq, Debug, Default)]
pub struct Outcome {
    /// The word that came to the sender.
    pub word: Option<Vec<u8>>,
    pub sender: Option<Answer>,
    /// The frame that came to the receiver.
    pub frame: Option<Vec<u8>>,
    pub receiver: Option<Received>,
    /// The word that the receiver made.
    pub report: Option<Vec<u8>>,
    /// The frame that the recorder put into its channel.
    pub again: Option<Vec<u8>>,
}

/// The answer of the receiver.
#[derive(Clone, PartialEq, Eq, Debug)]
pub struct Received {
    /// The event of Table 7-9, or refusal 13.
    pub event: Result<farm1::Event, u8>,
    /// The state after it.
    pub state: farm1::State,
    /// The unit accepted: of an AD frame answered E1 in Open, of any BD frame.
    pub accepted: Option<Carried>,
}

#[derive(Clone, PartialEq, Eq, Debug)]
pub struct Session {
    pub sender: Sender,
    pub receiver: Farm1,
    pub frames: VecDeque<Vec<u8>>,
    pub words: VecDeque<Vec<u8>>,
    pub recorder: Recorder,
}

/// The octets with these bits inverted, counted round their length.
pub fn inverted(octets: &[u8], places: &[usize]) -> Vec<u8> {
    let mut all = bits::from_octets(octets);
    let count = all.len();
    for place in places {
        all[place % count] ^= true;
    }
    bits::to_octets(&all)
}

/// Reads a frame as its receiver does.
pub fn carried(octets: &[u8], spacecraft: u32, channel: u32) -> Option<Carried> {
    read_as(octets, spacecraft, channel).ok()
}

/// The same, with the refusal where it is refused.
pub fn read_as(octets: &[u8], spacecraft: u32, channel: u32) -> Result<Carried, u8> {
    let read = frame::read(octets, spacecraft, channel, Fault::None);
    if read.number != DONE {
        return Err(read.number);
    }
    Ok(Carried {
        kind: read.kind,
        value: read.value,
        data: octets[HEADER..HEADER + read.field as usize].to_vec(),
    })
}

impl Carried {
    /// What it is to FARM-1.
    pub fn arrival(&self) -> Arrival {
        match self.kind {
            frame::AD => Arrival::Ad(self.value),
            frame::BD => Arrival::Bd,
            frame::BC_UNLOCK => Arrival::Unlock,
            _ => Arrival::SetVr(self.value),
        }
    }
}

impl Received {
    /// A frame comes to a receiver of this address.
    pub fn frame(
        receiver: &mut Farm1,
        octets: &[u8],
        (spacecraft, channel): (u32, u32),
        fault: Fault,
    ) -> Received {
        let carried = carried(octets, spacecraft, channel);
        let arrival = carried
            .as_ref()
            .map_or(Arrival::InvalidFrame, Carried::arrival);
        let open = receiver.state == farm1::State::Open;
        let event = receiver.take(arrival, fault);
        let accepted = match event {
            Ok(farm1::Event::E1) if open => carried,
            Ok(farm1::Event::E6) => carried,
            _ => None,
        };
        Received {
            event,
            state: receiver.state,
            accepted,
        }
    }

    /// A buffer of a receiver is released.
    pub fn release(receiver: &mut Farm1, fault: Fault) -> Received {
        let event = receiver.take(Arrival::Release, fault);
        Received {
            event,
            state: receiver.state,
            accepted: None,
        }
    }
}

/// The control word of a receiver on this channel (E11 of Table 7-9).
pub fn word_of(receiver: &Variables, channel: u32) -> Vec<u8> {
    let report = clcw::Report {
        channel,
        lockout: receiver.lockout_flag.into(),
        wait: receiver.wait_flag.into(),
        retransmit: receiver.retransmit_flag.into(),
        counter: receiver.farm_b_counter.into(),
        value: receiver.v_r.into(),
    };
    bits::to_octets(&clcw::encode(&report, Fault::None))
}

impl Session {
    /// Synchronised and active, the channels empty; refusal 12 where a setting is
    /// outside its limit or K above PW.
    pub fn start(settings: &Settings) -> Result<Session, u8> {
        let of_sender = fop1::Settings {
            spacecraft: settings.spacecraft,
            channel: settings.channel,
            v_s: settings.number,
            nn_r: settings.number,
            k: settings.k,
            t1_initial: settings.t1_initial,
            transmission_limit: settings.transmission_limit,
            timeout_type: settings.timeout_type,
        };
        let mut sender = Sender::start(&of_sender, usize::MAX)?;
        let receiver = Farm1::start(settings.window, settings.number, settings.buffers)?;
        if settings.k > receiver.half_window() {
            return Err(SETTING);
        }
        let initiate = fop1::Event::Directive {
            number: 1,
            value: 0,
        };
        sender.take(&initiate, 0, Fault::None);
        Ok(Session {
            sender,
            receiver,
            frames: VecDeque::new(),
            words: VecDeque::new(),
            recorder: Recorder::new(settings.number, receiver.half_window()),
        })
    }

    /// At rest: Active, the queues and channels empty, the lower layer ready, the timer
    /// stopped, the receiver Open without flags, a buffer free.
    pub fn at_rest(&self) -> bool {
        let (sender, receiver) = (&self.sender, &self.receiver);
        sender.state == State::S1
            && sender.sent_queue.is_empty()
            && sender.wait_queue.is_none()
            && sender.ad_out_ready
            && sender.timer == 0
            && self.frames.is_empty()
            && self.words.is_empty()
            && receiver.state == farm1::State::Open
            && !receiver.lockout_flag
            && !receiver.wait_flag
            && !receiver.retransmit_flag
            && receiver.buffer_free()
    }

    /// No AD frame is under way.
    pub fn no_ad_frame(&self) -> bool {
        !self.frames.iter().any(|octets| is_ad(octets))
    }

    /// The number with which the receiver's reader refuses the octets, if it does.
    pub fn refusal_of_frame(&self, octets: &[u8]) -> Option<u8> {
        let (spacecraft, channel) = (self.sender.spacecraft, self.sender.channel);
        let number = frame::read(octets, spacecraft, channel, Fault::None).number;
        (number != DONE).then_some(number)
    }

    /// The octets are refused as another channel's word, or by their length.
    pub fn refuses_word(&self, octets: &[u8]) -> bool {
        let number = clcw::read(octets, self.sender.channel, Fault::None).number;
        [ADDRESS, LENGTH].contains(&number)
    }

    /// What the event brings to the sender, with the room lent.
    pub fn to_sender(&self, event: &Event) -> Option<(fop1::Event, usize)> {
        let directive = |number, value| fop1::Event::Directive { number, value };
        Some(match event {
            Event::AdRequest { unit, room } => (fop1::Event::AdRequest(unit.clone()), *room),
            Event::BdRequest { unit, room } => (fop1::Event::BdRequest(unit.clone()), *room),
            Event::Tick { room } => (fop1::Event::Tick, *room),
            Event::Lower { response, room } => (response.clone(), *room),
            Event::Terminate => (directive(5, 0), 0),
            Event::Resume { value } => (directive(6, *value), 0),
            Event::Word { room } | Event::WordStays { room } => {
                let word = self.words.front()?.clone();
                (fop1::Event::ControlWord(word), *room)
            }
            Event::WordNoise { octets, room } if self.refuses_word(octets) => {
                (fop1::Event::ControlWord(octets.clone()), *room)
            }
            _ => return None,
        })
    }

    pub fn step(&mut self, event: &Event, fault: Fault) -> Outcome {
        if let Some((taken, room)) = self.to_sender(event) {
            return self.send(event, taken, room, fault);
        }
        match event {
            Event::Frame => match self.frames.pop_front().or_else(|| self.late_frame(fault)) {
                Some(octets) => self.arrive(octets, fault),
                None => Outcome::default(),
            },
            Event::FrameStays { fill } => match self.frames.front() {
                Some(octets) if is_ad(octets) || fault == Fault::SessionBdFrameStays => {
                    self.filled(fill, fault).unwrap_or_default()
                }
                _ => Outcome::default(),
            },
            Event::FrameAgain { place } => self.put_again(*place, fault),
            Event::Noise { octets } => self.noise(octets.clone(), fault),
            Event::FrameDamaged { bits } => self.damaged(bits, fault),
            Event::FrameFilled { fill } => match self.filled(fill, fault) {
                Some(outcome) => {
                    self.frames.pop_front();
                    outcome
                }
                None => Outcome::default(),
            },
            Event::Release => self.release(fault),
            Event::Report => self.report(),
            Event::FrameLost => {
                self.frames.pop_front();
                Outcome::default()
            }
            Event::WordLost => {
                self.words.pop_front();
                Outcome::default()
            }
            // No word is under way, or the sender does not refuse the octets.
            _ => Outcome::default(),
        }
    }

    /// What comes to the sender. A frame handed down enters its channel; a word is lost where
    /// the sender refuses it.
    fn send(&mut self, event: &Event, taken: fop1::Event, room: usize, fault: Fault) -> Outcome {
        let taken = match event {
            Event::WordNoise { .. } if fault == Fault::SessionWordNoiseAlerts => {
                fop1::Event::ControlWord(INVALID_WORD.to_vec())
            }
            _ => taken,
        };
        match event {
            Event::Word { .. } => {
                self.words.pop_front();
            }
            Event::WordStays { .. } if fault == Fault::SessionWordStaysTwice => {
                self.sender.take(&taken, room, fault);
            }
            _ => (),
        }
        let answer = self.sender.take(&taken, room, fault);
        if let Some(octets) = &answer.frame {
            self.recorder.record(octets);
            self.frames.push_back(octets.clone());
        }
        Outcome {
            word: match taken {
                fop1::Event::ControlWord(word) => Some(word),
                _ => None,
            },
            sender: Some(answer),
            ..Outcome::default()
        }
    }

    /// Octets come to the receiver.
    fn arrive(&mut self, octets: Vec<u8>, fault: Fault) -> Outcome {
        let address = (self.sender.spacecraft, self.sender.channel);
        let received = Received::frame(&mut self.receiver, &octets, address, fault);
        Outcome {
            frame: Some(octets),
            receiver: Some(received),
            ..Outcome::default()
        }
    }

    /// Nothing without a fault.
    fn late_frame(&self, fault: Fault) -> Option<Vec<u8>> {
        if fault != Fault::SessionLateFrame || self.sender.state != State::S6 {
            return None;
        }
        let not_accepted = fop1::distance(self.sender.v_s, self.receiver.v_r);
        let place = self.recorder.sent.checked_sub(not_accepted.into())?;
        self.recorder.again(place, fault)
    }

    fn put_again(&mut self, place: usize, fault: Fault) -> Outcome {
        let again = self.recorder.again(place, fault);
        self.frames.extend(again.clone());
        Outcome {
            again,
            ..Outcome::default()
        }
    }

    fn noise(&mut self, octets: Vec<u8>, fault: Fault) -> Outcome {
        if self.refusal_of_frame(&octets).is_none() {
            return Outcome::default();
        }
        if fault == Fault::SessionNoiseMovesVr {
            self.receiver.v_r = self.receiver.beyond_v_r(1);
        }
        self.arrive(octets, fault)
    }

    fn damaged(&mut self, places: &[usize], fault: Fault) -> Outcome {
        let Some(sent) = self.frames.front() else {
            return Outcome::default();
        };
        let octets = inverted(sent, places);
        if self.refusal_of_frame(&octets).is_none() {
            return Outcome::default();
        }
        let sent = self.frames.pop_front();
        match sent {
            Some(sent) if fault == Fault::SessionDamagedFrameTaken => self.arrive(sent, fault),
            _ => self.arrive(octets, fault),
        }
    }

    /// The oldest frame comes to the receiver with these octets behind it, unless its reader
    /// refuses it. It is still under way.
    fn filled(&mut self, fill: &[u8], fault: Fault) -> Option<Outcome> {
        let octets = [self.frames.front()?, fill].concat();
        if self.refusal_of_frame(&octets).is_some() {
            return None;
        }
        let mut outcome = self.arrive(octets, fault);
        if fault == Fault::SessionFillCounts {
            let received = outcome.receiver.as_mut();
            if let Some(unit) = received.and_then(|received| received.accepted.as_mut()) {
                unit.data.extend(fill);
            }
        }
        Some(outcome)
    }

    fn release(&mut self, fault: Fault) -> Outcome {
        Outcome {
            receiver: Some(Received::release(&mut self.receiver, fault)),
            ..Outcome::default()
        }
    }

    fn report(&mut self) -> Outcome {
        let word = word_of(&self.receiver, self.sender.channel);
        self.words.push_back(word.clone());
        Outcome {
            report: Some(word),
            ..Outcome::default()
        }
    }
}

#[cfg(test)]
#[path = "session_tests.rs"]
mod tests;
