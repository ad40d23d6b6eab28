//! Random runs of a receiver.

use super::{compare_runs, damage, receiver_end, refusal, Counts, Report};
use crate::check::Tally;
use crate::inputs::farm1_frames::{self as inputs, Start};
use crate::octets::{no_receiver_state, RECEIVER_STATE};
use crate::random::Random;
use crate::settings::Settings;
use independent::farm1::{self, Farm1, EVENTS, STATES};
use independent::fault::Fault;
use independent::frame::{self, UNIT_MOST};
use independent::refusal::{
    ADDRESS, CHECK, COMMAND, DONE, FILL, HEADER, RELEASE, ROOM, SETTING, SHORT,
};
use independent::session::{word_of, Received};

const REFUSALS: [u8; 10] = [
    DONE, SHORT, FILL, HEADER, ADDRESS, CHECK, COMMAND, ROOM, SETTING, RELEASE,
];

const KINDS: [&str; 9] = [
    "new",
    "new refused",
    "frame",
    "release",
    "word",
    "AD unit",
    "BD unit",
    "unit of 1017 octets",
    "no state",
];

/// Both receivers, and their address.
struct Pair {
    state: Vec<u8>,
    farm: Farm1,
    spacecraft: u32,
    channel: u32,
}

struct Met {
    kinds: Counts,
    refusals: Counts,
    cells: Counts,
}

impl Met {
    fn new() -> Met {
        let cells = EVENTS.iter().flat_map(|event| {
            let possible = STATES
                .iter()
                .filter(move |state| *event != farm1::Event::E1 || **state != farm1::State::Wait);
            possible.map(move |state| format!("{event:?} {}", state.number()))
        });
        let kinds = KINDS.iter().map(|name| name.to_string());
        Met {
            kinds: Counts::new("kinds", kinds),
            refusals: Counts::new("refusals", REFUSALS.iter().map(|number| refusal(*number))),
            cells: Counts::new("cells", cells),
        }
    }
}

pub fn compare(settings: &Settings) -> Report {
    let mut met = Met::new();
    let mut fixed = inputs::fixed_starts().into_iter();
    let (tally, runs) = compare_runs(settings, |random, tally| {
        let (of_receiver, octets) = match fixed.next() {
            Some(fixed) => (fixed, RECEIVER_STATE),
            None => (inputs::start(random), room(random)),
        };
        let state = random.octets(octets);
        let Some(pair) = start(of_receiver, state, tally, &mut met) else {
            return false;
        };
        run(pair, settings, random, tally, &mut met);
        true
    });
    Report {
        tally,
        runs,
        counts: vec![met.kinds, met.refusals, met.cells],
    }
}

/// The octets that are lent for a new state.
fn room(random: &mut Random) -> usize {
    match random.below(12) {
        0 => random.below(RECEIVER_STATE),
        1 => random.between(RECEIVER_STATE, RECEIVER_STATE + 20),
        _ => RECEIVER_STATE,
    }
}

/// A new receiver, where it is not refused.
fn start(start: Start, state: Vec<u8>, tally: &mut Tally, met: &mut Met) -> Option<Pair> {
    let (number, farm, differences) = receiver_end::start(&start, state);
    met.refusals.meet(&refusal(number));
    met.kinds
        .meet(if number == DONE { "new" } else { "new refused" });
    tally.compared(differences.is_empty(), || {
        format!("  new: {start:?}\n  {}\n", differences.join("\n  "))
    });
    let farm = farm?;
    Some(Pair {
        state: receiver_end::state(&farm, start.spacecraft, start.channel),
        farm,
        spacecraft: start.spacecraft,
        channel: start.channel,
    })
}

/// The events of a receiver until they are enough, or differ.
fn run(mut pair: Pair, settings: &Settings, random: &mut Random, tally: &mut Tally, met: &mut Met) {
    let harm = *random.pick(&[4, 30, 300]);
    for n in 0..random.between(50, 800) {
        if tally.inputs >= settings.count {
            return;
        }
        let before = pair.farm;
        let differences = match random.below(20) {
            0..=10 => pair.frame(random, harm, settings.fault, met),
            11..=15 => pair.release(settings.fault, met),
            16..=18 => pair.word(random, met),
            _ => pair.no_state(random, met),
        };
        tally.compared(differences.is_empty(), || {
            format!(
                "  event {n} of the run, address {} {}, before it {before:?}\n  {}\n",
                pair.spacecraft,
                pair.channel,
                differences.join("\n  ")
            )
        });
        if !differences.is_empty() {
            return;
        }
    }
}

impl Pair {
    fn expected_state(&self) -> Vec<u8> {
        receiver_end::state(&self.farm, self.spacecraft, self.channel)
    }

    fn meet_cell(&self, event: Result<farm1::Event, u8>, before: farm1::State, met: &mut Met) {
        if let Ok(event) = event {
            met.cells.meet(&format!("{event:?} {}", before.number()));
        }
    }

    fn frame(
        &mut self,
        random: &mut Random,
        harm: usize,
        fault: Fault,
        met: &mut Met,
    ) -> Vec<String> {
        let octets = inputs::frame(random, harm, &self.farm, self.spacecraft, self.channel);
        let before = self.farm.state;
        let address = (self.spacecraft, self.channel);
        let number = frame::read(&octets, address.0, address.1, Fault::None).number;
        let received = Received::frame(&mut self.farm, &octets, address, fault);
        let expected = receiver_end::expected_frame(number, &received);
        met.kinds.meet("frame");
        met.refusals.meet(&refusal(number));
        match expected.unit {
            1 => met.kinds.meet("AD unit"),
            2 => met.kinds.meet("BD unit"),
            _ => (),
        }
        if expected.count as usize == UNIT_MOST {
            met.kinds.meet("unit of 1017 octets");
        }
        self.meet_cell(received.event, before, met);
        let state = self.expected_state();
        receiver_end::frame(&mut self.state, &octets, &expected, &state)
    }

    fn release(&mut self, fault: Fault, met: &mut Met) -> Vec<String> {
        let before = self.farm.state;
        let received = Received::release(&mut self.farm, fault);
        let expected = receiver_end::expected_release(&received);
        met.kinds.meet("release");
        met.refusals.meet(&refusal(expected.0));
        self.meet_cell(received.event, before, met);
        let state = self.expected_state();
        receiver_end::release(&mut self.state, expected, &state)
    }

    fn word(&mut self, random: &mut Random, met: &mut Met) -> Vec<String> {
        let room = random.between(0, 8);
        let output = random.octets(room);
        met.kinds.meet("word");
        met.refusals
            .meet(&refusal(if room < 4 { ROOM } else { DONE }));
        let word = word_of(&self.farm, self.channel);
        receiver_end::word(&mut self.state, output, Ok(&word)).1
    }

    /// A call with octets that are no state. Octets that perhaps are one are passed over.
    fn no_state(&mut self, random: &mut Random, met: &mut Met) -> Vec<String> {
        let mut state = self.state.clone();
        damage(random, &mut state);
        if !no_receiver_state(&state) {
            return Vec::new();
        }
        met.kinds.meet("no state");
        met.refusals.meet(&refusal(SETTING));
        let before = state.clone();
        match random.below(3) {
            0 => {
                let octets = inputs::frame(random, 8, &self.farm, self.spacecraft, self.channel);
                let nothing = &receiver_end::NOTHING_RECEIVED;
                receiver_end::frame(&mut state, &octets, nothing, &before)
            }
            1 => receiver_end::release(&mut state, (SETTING, 0), &before),
            _ => {
                let room = random.between(0, 8);
                let output = random.octets(room);
                receiver_end::word(&mut state, output, Err(SETTING)).1
            }
        }
    }
}
