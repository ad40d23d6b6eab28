//! What the calls of a receiver of several channels must meet.

use super::channels_end::Answer;
use super::{refusal, Counts};
use crate::inputs::farm1_channels::{Call, Lent};
use crate::table_octets::RECORD;
use independent::farm1::{Event, State, EVENTS, STATES};
use independent::farm1_channels::{
    Cause, Channels, Record, Turn, CAUSES, CHANNELS_MOST, POOL_MOST,
};
use independent::fault::Fault;
use independent::frame::{self, AD, BD, CHANNEL_MOST, UNIT_MOST};
use independent::refusal::{
    ADDRESS, CHECK, COMMAND, DONE, FILL, HEADER, RELEASE, ROOM, SETTING, SHORT,
};

/// Each function with its refusals.
const FUNCTIONS: [(&str, &[u8]); 4] = [
    ("new", &[DONE, ROOM, SETTING]),
    (
        "frame",
        &[DONE, SHORT, FILL, HEADER, ADDRESS, CHECK, COMMAND, SETTING],
    ),
    ("release", &[DONE, ADDRESS, SETTING, RELEASE]),
    ("word", &[DONE, ADDRESS, ROOM, SETTING]),
];

/// The report is E11 of Table 7-9.
const REPORT: &str = "E11";

/// An octet, two octets, and the longest input of document 01.
const OCTET_MOST: u32 = 255;
const TWO_OCTETS_MOST: u32 = 65_535;
const INPUT_MOST: usize = 4096;

const SITUATIONS: [&str; 41] = [
    "no record",
    "one record",
    "eight records",
    "nine records",
    "more than nine records",
    "more than 255 records",
    "pool 0",
    "pool 16 full",
    "pool 17",
    "pool above an octet",
    "pool above two octets",
    "spacecraft above two octets",
    "frame without records",
    "AD unit",
    "BD unit",
    "unit of 1017 octets",
    "empty frame",
    "frame over 4096 octets",
    "bad command to a channel",
    "bad command to no channel",
    "release above 63",
    "release above two octets",
    "word above 63",
    "word above two octets",
    "E2 in Wait with a free buffer",
    "E2 in Wait with no free buffer",
    "E2 in Open, the pool full by others alone",
    "E2 in Lockout",
    "E1 in Lockout",
    "E6 with no free buffer",
    "E10 in Wait with none held",
    "E10 in Wait with units held",
    "E10 while others wait",
    "release 13 in Wait with no free buffer",
    "release 13 in Open with a free buffer",
    "release 13 in Open with no free buffer",
    "release 13 in Lockout",
    "three channels in Wait",
    "three channels in Lockout",
    "a channel in each state",
    "eight channels hold units",
];

pub struct Met {
    /// By number alone.
    refusals: Counts,
    functions: Counts,
    /// By what alone 12 is given for.
    causes: Counts,
    /// Event and state before it.
    cells: Counts,
    /// Event and place of the record.
    places: Counts,
    situations: Counts,
}

/// All events that are of a channel.
fn events() -> Vec<String> {
    let of_channel = EVENTS.iter().filter(|event| **event != Event::E9);
    let mut events: Vec<String> = of_channel.map(|event| format!("{event:?}")).collect();
    events.push(REPORT.to_string());
    events
}

/// E1 in Wait is not applicable.
fn cells() -> Vec<String> {
    let states = STATES.map(State::number);
    let cells = events()
        .into_iter()
        .flat_map(|event| states.map(|state| format!("{event} {state}")));
    cells.filter(|cell| cell != "E1 S2").collect()
}

fn places() -> Vec<String> {
    let events = events().into_iter();
    let places =
        events.flat_map(|event| (0..CHANNELS_MOST).map(move |n| format!("{event} at {n}")));
    places.collect()
}

fn causes() -> Vec<String> {
    let functions = FUNCTIONS[1..].iter();
    let causes = functions.flat_map(|(name, _)| CAUSES.map(|cause| cause_of(name, cause)));
    causes.collect()
}

fn cause_of(function: &str, cause: Cause) -> String {
    format!("{function} {cause:?}")
}

fn numbered(function: &str, number: u8) -> String {
    format!("{function} {number}")
}

fn function(call: &Call) -> &'static str {
    match call {
        Call::Frame(_) => "frame",
        Call::Release(_) => "release",
        Call::Word(..) => "word",
    }
}

impl Met {
    pub fn new() -> Met {
        let of_functions = FUNCTIONS.iter().flat_map(|(name, numbers)| {
            let numbers = numbers.iter();
            numbers.map(|number| numbered(name, *number))
        });
        let mut numbers: Vec<u8> = FUNCTIONS.iter().flat_map(|one| one.1.to_vec()).collect();
        numbers.sort();
        numbers.dedup();
        let situations = SITUATIONS.iter().map(|name| name.to_string());
        Met {
            refusals: Counts::new("refusals", numbers.into_iter().map(refusal)),
            functions: Counts::new("functions", of_functions),
            causes: Counts::new("causes of 12, each alone", causes().into_iter()),
            cells: Counts::new("cells", cells().into_iter()),
            places: Counts::new("events by place", places().into_iter()),
            situations: Counts::new("situations", situations),
        }
    }

    pub fn counts(self) -> Vec<Counts> {
        vec![
            self.refusals,
            self.functions,
            self.causes,
            self.cells,
            self.places,
            self.situations,
        ]
    }

    fn number(&mut self, function: &str, number: u8) {
        self.refusals.meet(&refusal(number));
        self.functions.meet(&numbered(function, number));
    }

    /// A new record is answered.
    pub fn start(&mut self, number: u8) {
        self.number("new", number);
    }

    /// A call is answered, of a receiver as it was before it.
    pub fn call(
        &mut self,
        before: &Channels,
        causes: &[Cause],
        lent: &Lent,
        call: &Call,
        answer: &Answer,
    ) {
        self.number(function(call), answer.number());
        self.lent(lent);
        if let [cause] = causes {
            self.causes.meet(&cause_of(function(call), *cause));
        }
        if !causes.is_empty() {
            return;
        }
        self.receiver(before);
        match (call, answer) {
            (Call::Frame(octets), Answer::Turn(turn)) => self.frame(before, octets, turn),
            (Call::Release(channel), Answer::Turn(turn)) => self.release(before, *channel, turn),
            (Call::Word(channel, _), _) => self.word(before, *channel, answer.number()),
            _ => (),
        }
    }

    /// Meets those of the situations that are given.
    fn meet_those(&mut self, given: &[(bool, &str)]) {
        for (is_given, name) in given {
            if *is_given {
                self.situations.meet(name);
            }
        }
    }

    fn lent(&mut self, lent: &Lent) {
        let records = lent.table.len() / RECORD;
        self.meet_those(&[
            (lent.table.is_empty(), "no record"),
            (records == 1, "one record"),
            (records == CHANNELS_MOST, "eight records"),
            (records == CHANNELS_MOST + 1, "nine records"),
            (records > CHANNELS_MOST + 1, "more than nine records"),
            (records > OCTET_MOST as usize, "more than 255 records"),
            (lent.pool == 0, "pool 0"),
            (lent.pool == POOL_MOST + 1, "pool 17"),
            (lent.pool > OCTET_MOST, "pool above an octet"),
            (lent.pool > TWO_OCTETS_MOST, "pool above two octets"),
            (
                lent.spacecraft > TWO_OCTETS_MOST,
                "spacecraft above two octets",
            ),
        ]);
    }

    fn receiver(&mut self, of: &Channels) {
        let in_state = |state: State| {
            let states = of.records.iter().map(|one| one.variables.state);
            states.filter(|other| *other == state).count()
        };
        let each = STATES.iter().all(|state| in_state(*state) > 0);
        let holding = of.records.iter().filter(|one| one.held > 0).count();
        self.meet_those(&[
            (of.pool == POOL_MOST && !of.has_room(), "pool 16 full"),
            (in_state(State::Wait) >= 3, "three channels in Wait"),
            (in_state(State::Lockout) >= 3, "three channels in Lockout"),
            (each, "a channel in each state"),
            (holding == CHANNELS_MOST, "eight channels hold units"),
        ]);
    }

    /// An event of the channel at this place.
    fn event(&mut self, before: &Channels, place: usize, event: &str) {
        let state = before.records[place].variables.state.number();
        self.cells.meet(&format!("{event} {state}"));
        self.places.meet(&format!("{event} at {place}"));
    }

    fn frame(&mut self, before: &Channels, octets: &[u8], turn: &Turn) {
        let unit = |kind: u8| turn.accepted.as_ref().is_some_and(|unit| unit.kind == kind);
        let octets_of_unit = turn.accepted.as_ref().map_or(0, |unit| unit.data.len());
        let own = octets.get(2).map_or(0, |third| u32::from(third >> 2));
        let read = || frame::read(octets, before.spacecraft, own, Fault::None).number;
        let bad_command = turn.number == ADDRESS && read() == COMMAND;
        self.meet_those(&[
            (
                before.records.is_empty() && turn.number == ADDRESS,
                "frame without records",
            ),
            (unit(AD), "AD unit"),
            (unit(BD), "BD unit"),
            (octets_of_unit == UNIT_MOST, "unit of 1017 octets"),
            (octets.is_empty(), "empty frame"),
            (octets.len() > INPUT_MOST, "frame over 4096 octets"),
            (turn.number == COMMAND, "bad command to a channel"),
            (bad_command, "bad command to no channel"),
        ]);
        let place = turn
            .channel
            .and_then(|channel| before.place(channel.into()));
        if let (Some(place), Some(event)) = (place, turn.event) {
            self.event(before, place, &format!("{event:?}"));
            self.frame_of(before, &before.records[place], event);
        }
    }

    /// A frame that is an event of this record.
    fn frame_of(&mut self, before: &Channels, record: &Record, event: Event) {
        let (state, free) = (record.variables.state, before.has_room());
        let at = |wanted: Event, of: State| event == wanted && state == of;
        let alone = at(Event::E2, State::Open) && record.held == 0;
        self.meet_those(&[
            (
                at(Event::E2, State::Wait) && free,
                "E2 in Wait with a free buffer",
            ),
            (
                at(Event::E2, State::Wait) && !free,
                "E2 in Wait with no free buffer",
            ),
            (alone, "E2 in Open, the pool full by others alone"),
            (at(Event::E2, State::Lockout), "E2 in Lockout"),
            (at(Event::E1, State::Lockout), "E1 in Lockout"),
            (event == Event::E6 && !free, "E6 with no free buffer"),
        ]);
    }

    fn release(&mut self, before: &Channels, channel: u32, turn: &Turn) {
        self.meet_those(&[
            (channel > CHANNEL_MOST, "release above 63"),
            (channel > TWO_OCTETS_MOST, "release above two octets"),
        ]);
        let Some(place) = before.place(channel) else {
            return;
        };
        let record = &before.records[place];
        let (state, held, free) = (record.variables.state, record.held, before.has_room());
        let (done, none) = (turn.number == DONE, turn.number == RELEASE);
        let mut others = before
            .records
            .iter()
            .filter(|one| one.channel != record.channel);
        let others_wait = others.any(|one| one.variables.state == State::Wait);
        let waits = state == State::Wait;
        if done {
            self.event(before, place, "E10");
        }
        self.meet_those(&[
            (done && waits && held == 0, "E10 in Wait with none held"),
            (done && waits && held > 0, "E10 in Wait with units held"),
            (done && others_wait, "E10 while others wait"),
            (
                none && waits && !free,
                "release 13 in Wait with no free buffer",
            ),
            (
                none && state == State::Open && free,
                "release 13 in Open with a free buffer",
            ),
            (
                none && state == State::Open && !free,
                "release 13 in Open with no free buffer",
            ),
            (none && state == State::Lockout, "release 13 in Lockout"),
        ]);
    }

    fn word(&mut self, before: &Channels, channel: u32, number: u8) {
        self.meet_those(&[
            (channel > CHANNEL_MOST, "word above 63"),
            (channel > TWO_OCTETS_MOST, "word above two octets"),
        ]);
        if let (Some(place), DONE) = (before.place(channel), number) {
            self.event(before, place, REPORT);
        }
    }
}
