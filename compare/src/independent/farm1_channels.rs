//! FARM-1 of up to eight virtual channels that share a pool of AD buffers (document 02, order 8).

use crate::bits;
use crate::farm1::{Arrival, Event, State, Variables, COUNTER_VALUES};
use crate::fault::Fault;
use crate::frame::{CHANNEL_MOST, SPACECRAFT_MOST, VIRTUAL_CHANNEL_IDENTIFIER};
use crate::output::{self, Written};
use crate::refusal::{ADDRESS, COMMAND, DONE, RELEASE, ROOM, SETTING};
use crate::session::{read_as, word_of, Carried};

/// Up to eight channels; 1 to 16 AD buffers.
pub const CHANNELS_MOST: usize = 8;
pub const POOL_MOST: u32 = 16;

/// A pool of the single receiver has 8 buffers at the most (document 01, Limits).
const FORMER_POOL_MOST: u32 = 8;

/// The octets of a control word.
const WORD: usize = 4;

/// A channel's record: its variables, and the AD units that it holds in the pool.
#[derive(Clone, Copy, PartialEq, Eq, Debug)]
pub struct Record {
    pub channel: u8,
    pub held: u8,
    pub variables: Variables,
}

impl Record {
    /// A channel at its start, which holds none, or refusal 12.
    pub fn start(channel: u32, window: u32, v_r: u32) -> Result<Record, u8> {
        let variables = Variables::start(window as usize, v_r as usize)?;
        if channel > CHANNEL_MOST {
            return Err(SETTING);
        }
        Ok(Record {
            channel: channel as u8,
            held: 0,
            variables,
        })
    }

    /// Its settings are within document 01's limits, and its flags are such as the cells of
    /// Table 7-9 leave in its state.
    fn is_well_formed(&self) -> bool {
        let of = &self.variables;
        let flags_hold = match of.state {
            State::Open => !of.lockout_flag && !of.wait_flag,
            State::Wait => !of.lockout_flag && of.wait_flag && of.retransmit_flag,
            // E5 in Wait keeps both flags, a release clears the Wait_Flag alone.
            State::Lockout => of.lockout_flag && (of.retransmit_flag || !of.wait_flag),
        };
        let (channel, window, v_r) = (self.channel, of.window, of.v_r);
        Record::start(channel.into(), window.into(), v_r.into()).is_ok()
            && flags_hold
            && of.farm_b_counter < COUNTER_VALUES
    }

    fn waits(&self) -> bool {
        self.variables.state == State::Wait
    }
}

/// What is refused with 12 before all else. The last two are of records lent as octets.
#[derive(Clone, Copy, PartialEq, Eq, Debug)]
pub enum Cause {
    Spacecraft,
    Pool,
    OverEight,
    TwoForOne,
    MoreHeld,
    IllFormed,
    NoRecord,
    NotWhole,
}

pub const CAUSES: [Cause; 8] = [
    Cause::Spacecraft,
    Cause::Pool,
    Cause::OverEight,
    Cause::TwoForOne,
    Cause::MoreHeld,
    Cause::IllFormed,
    Cause::NoRecord,
    Cause::NotWhole,
];

/// What a frame or a release came to.
#[derive(Clone, PartialEq, Eq, Debug)]
pub struct Turn {
    /// The number of document 01, Refusals.
    pub number: u8,
    /// None where it is no event.
    pub event: Option<Event>,
    /// The channel that the event is of.
    pub channel: Option<u8>,
    /// The unit accepted: of an AD frame answered E1 in Open, of any BD frame.
    pub accepted: Option<Carried>,
}

impl Turn {
    /// Refused, and no event.
    pub fn refused(number: u8) -> Turn {
        Turn {
            number,
            event: None,
            channel: None,
            accepted: None,
        }
    }

    fn refused_frame(number: u8) -> Turn {
        Turn {
            event: Some(Event::E9),
            ..Turn::refused(number)
        }
    }

    fn done(event: Event, channel: u8, accepted: Option<Carried>) -> Turn {
        Turn {
            number: DONE,
            event: Some(event),
            channel: Some(channel),
            accepted,
        }
    }
}

/// The receiver.
#[derive(Clone, PartialEq, Eq, Debug)]
pub struct Channels {
    pub spacecraft: u32,
    /// The AD buffers that all channels share.
    pub pool: u32,
    pub records: Vec<Record>,
}

impl Channels {
    /// The AD units that all channels hold.
    pub fn held(&self) -> usize {
        self.records.iter().map(|one| usize::from(one.held)).sum()
    }

    /// A buffer of the pool is free.
    pub fn has_room(&self) -> bool {
        self.held() < self.pool as usize
    }

    /// The same for the channel at this place, with the faults of it.
    fn has_room_for(&self, place: usize, fault: Fault) -> bool {
        let held = match fault {
            Fault::ChannelsPoolCountedTwice => 2 * self.held(),
            Fault::ChannelsPoolOfEach => self.records[place].held.into(),
            _ => self.held(),
        };
        held < self.pool as usize
    }

    /// All that 12 is given for.
    pub fn causes(&self, fault: Fault) -> Vec<Cause> {
        let given = CAUSES.into_iter();
        given.filter(|cause| self.is_given(*cause, fault)).collect()
    }

    fn is_given(&self, cause: Cause, fault: Fault) -> bool {
        let records = &self.records;
        match cause {
            Cause::Spacecraft => {
                self.spacecraft > SPACECRAFT_MOST && fault != Fault::ChannelsSpacecraftUnjudged
            }
            Cause::Pool if fault == Fault::ChannelsPoolLimitOfEight => {
                !(1..=FORMER_POOL_MOST).contains(&self.pool)
            }
            Cause::Pool => !(1..=POOL_MOST).contains(&self.pool),
            Cause::OverEight => match fault {
                Fault::ChannelsNineTaken => records.len() > CHANNELS_MOST + 1,
                Fault::ChannelsNoneRefused => !(1..=CHANNELS_MOST).contains(&records.len()),
                _ => records.len() > CHANNELS_MOST,
            },
            Cause::TwoForOne => self.has_two_for_one() && fault != Fault::ChannelsTwoForOneTaken,
            Cause::MoreHeld => {
                self.held() > self.pool as usize && fault != Fault::ChannelsMoreHeldTaken
            }
            Cause::IllFormed => {
                let waits_refused = fault == Fault::ChannelsWaitWithRoomRefused && self.has_room();
                let is_ill = |one: &Record| !one.is_well_formed() || (waits_refused && one.waits());
                records.iter().any(is_ill)
            }
            // Records are records, however they are lent.
            Cause::NoRecord | Cause::NotWhole => false,
        }
    }

    fn has_two_for_one(&self) -> bool {
        let numbers: Vec<u8> = self.records.iter().map(|one| one.channel).collect();
        (0..numbers.len()).any(|place| numbers[..place].contains(&numbers[place]))
    }

    fn is_refused(&self, fault: Fault) -> bool {
        !self.causes(fault).is_empty()
    }

    /// Where the channel's record stands, if it has one.
    pub fn place(&self, channel: u32) -> Option<usize> {
        let mut records = self.records.iter();
        records.position(|one| u32::from(one.channel) == channel)
    }

    /// The record of the channel named, or refusal 7.
    fn named(&self, channel: u32, fault: Fault) -> Result<usize, u8> {
        let channel = match fault {
            Fault::ChannelsNumberCut => channel % (CHANNEL_MOST + 1),
            _ => channel,
        };
        let absent = match fault {
            Fault::ChannelsAbsentIsSetting => SETTING,
            _ => ADDRESS,
        };
        self.place(channel).ok_or(absent)
    }

    /// A frame comes.
    pub fn frame(&mut self, octets: &[u8], fault: Fault) -> Turn {
        let read = self.read(octets, fault);
        let told_first = fault == Fault::ChannelsFrameReadFirst && read.is_err();
        if self.is_refused(fault) && !told_first {
            return Turn::refused(SETTING);
        }
        match read {
            Ok((place, carried)) => self.arrive(place, carried, fault),
            Err(COMMAND) if fault == Fault::ChannelsBadCommandTold => Turn {
                channel: Some(channel_of(octets) as u8),
                ..Turn::refused_frame(COMMAND)
            },
            Err(number) => Turn::refused_frame(number),
        }
    }

    /// Reads a frame: 7 where its channel has no record, judged where the address is, before 9
    /// and after all others (document 01, Refusals).
    fn read(&self, octets: &[u8], fault: Fault) -> Result<(usize, Carried), u8> {
        let channel = channel_of(octets);
        let place = self.place(channel);
        if fault == Fault::ChannelsAddressFirst && place.is_none() {
            return Err(ADDRESS);
        }
        match (read_as(octets, self.spacecraft, channel), place) {
            (Ok(_) | Err(COMMAND), None) => Err(ADDRESS),
            (Ok(carried), Some(place)) => Ok((place, carried)),
            (Err(number), _) => Err(number),
        }
    }

    /// The event of what arrives for the channel at this place. In Wait an expected frame is E2,
    /// with a free buffer too.
    fn event(&self, place: usize, arrival: Arrival, fault: Fault) -> Event {
        let record = &self.records[place];
        let waits = record.waits() && fault != Fault::ChannelsAcceptedInWait;
        match arrival {
            Arrival::Ad(n_s) => {
                let free = !waits && self.has_room_for(place, fault);
                record.variables.event_of_type_ad(n_s, free, fault)
            }
            other => other.event_alone(),
        }
    }

    /// A frame arrives for the channel at this place.
    fn arrive(&mut self, place: usize, carried: Carried, fault: Fault) -> Turn {
        let arrival = carried.arrival();
        let event = self.event(place, arrival, fault);
        self.spoil_frame(place, event, fault);
        let accepted = self.accepts(place, event, fault);
        let record = &mut self.records[place];
        // E1 takes a buffer (document 01, FARM-1).
        if event == Event::E1 && accepted {
            record.held += 1;
        }
        record.variables.act(event, arrival.value(), fault);
        Turn::done(event, record.channel, accepted.then_some(carried))
    }

    fn accepts(&self, place: usize, event: Event, fault: Fault) -> bool {
        match event {
            Event::E1 => self.records[place].variables.state == State::Open,
            Event::E6 => self.has_room() || fault != Fault::ChannelsBdReadsPool,
            _ => false,
        }
    }

    /// A release that names a channel.
    pub fn release(&mut self, channel: u32, fault: Fault) -> Turn {
        if self.is_refused(fault) {
            return Turn::refused(SETTING);
        }
        let place = match self.named(channel, fault) {
            Ok(place) => place,
            Err(number) => return Turn::refused(number),
        };
        let gives_back = self.records[place].held > 0;
        if gives_back {
            self.records[place].held -= 1;
        } else if !self.opens_alone(place, fault) {
            return Turn::refused(RELEASE);
        }
        let record = &mut self.records[place];
        record.variables.act(Event::E10, 0, fault);
        let channel = record.channel;
        self.spoil_release(gives_back, fault);
        Turn::done(Event::E10, channel, None)
    }

    /// A release that names a channel that holds none is E10 in Wait while the pool has room.
    fn opens_alone(&self, place: usize, fault: Fault) -> bool {
        let (waits, room) = (self.records[place].waits(), self.has_room_for(place, fault));
        match fault {
            Fault::ChannelsReleaseInWaitRefused => false,
            Fault::ChannelsReleaseWithoutRoom => waits,
            Fault::ChannelsReleaseOfNoneDone => room,
            _ => waits && room,
        }
    }

    /// The control word of a channel: 12, 7, 11 (document 01, the sender's order).
    pub fn word(&self, channel: u32, output: &mut [u8], fault: Fault) -> Written {
        if self.is_refused(fault) {
            return Written::refused(SETTING);
        }
        let word = match self.named(channel, fault) {
            Ok(place) => {
                let record = &self.records[place];
                word_of(&record.variables, record.channel.into())
            }
            Err(_) if fault == Fault::ChannelsAbsentWordZero => vec![0; WORD],
            Err(_) if fault == Fault::ChannelsRoomBeforeAddress && output.len() < WORD => {
                return Written::refused(ROOM)
            }
            Err(number) => return Written::refused(number),
        };
        output::write(&word, output, Fault::None)
    }

    /// The faults of a frame, before its cell of Table 7-9.
    fn spoil_frame(&mut self, place: usize, event: Event, fault: Fault) {
        let record = &mut self.records[place];
        let (state, v_r) = (record.variables.state, record.variables.v_r);
        match (fault, event, state) {
            (Fault::ChannelsAcceptedInWait, Event::E1, State::Wait) => {
                record.variables.act(Event::E10, 0, Fault::None);
            }
            (Fault::ChannelsLockoutTakesBuffer, Event::E1, State::Lockout) => record.held += 1,
            (Fault::ChannelsUnlockGivesBack, Event::E7, State::Wait) => {
                record.held = record.held.saturating_sub(1);
            }
            (Fault::ChannelsNeighbourWritten, ..) => {
                if let Some(neighbour) = self.records.get_mut(place + 1) {
                    neighbour.variables.v_r = v_r;
                }
            }
            _ => (),
        }
    }

    /// The faults of a release that is done.
    fn spoil_release(&mut self, gives_back: bool, fault: Fault) {
        let mut records = self.records.iter_mut();
        match fault {
            Fault::ChannelsReleaseOpensAll => {
                let waiting = records.filter(|one| one.waits());
                waiting.for_each(|one| one.variables.act(Event::E10, 0, Fault::None));
            }
            Fault::ChannelsReleaseOfNoneLowers if !gives_back => {
                if let Some(holder) = records.find(|one| one.held > 0) {
                    holder.held -= 1;
                }
            }
            _ => (),
        }
    }
}

/// The Virtual Channel Identifier of octets that arrive as a frame; one of too few octets is
/// refused whatever it is.
fn channel_of(octets: &[u8]) -> u32 {
    match octets.get(..3) {
        Some(first) => bits::get(&bits::from_octets(first), VIRTUAL_CHANNEL_IDENTIFIER) as u32,
        None => 0,
    }
}

#[cfg(test)]
#[path = "farm1_channels_tests.rs"]
mod tests;
