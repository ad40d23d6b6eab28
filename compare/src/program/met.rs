//! What the runs without a difference met: events, states and flags, at each window.

use independent::farm1::{Arrival, Event, Farm1, State, EVENTS, STATES};
use independent::fault::Fault;
use independent::program::{Answer, Cause, CAUSES};
use std::collections::{BTreeMap, BTreeSet};

/// Lockout, wait and retransmit.
type Flags = [bool; 3];

/// A cell of Table 7-9, with the flags: the event, and what stood before and after it.
type Step = (Event, State, Flags, State, Flags);

fn step(event: Event, before: &Farm1, after: &Farm1) -> Step {
    (
        event,
        before.state,
        flags(before),
        after.state,
        flags(after),
    )
}

fn flags(farm: &Farm1) -> Flags {
    [farm.lockout_flag, farm.wait_flag, farm.retransmit_flag]
}

/// How often each was met.
pub struct Met {
    /// By window.
    steps: BTreeMap<(u8, Step), u64>,
    /// By window, state before and d, of the type-AD frames.
    distances: BTreeSet<(u8, State, usize)>,
    /// Runs with so many buffers.
    buffers: [u64; 9],
    causes: [u64; CAUSES.len()],
    /// Frames accepted at V(R) = 255.
    wraps: u64,
}

impl Met {
    pub fn new() -> Met {
        Met {
            steps: BTreeMap::new(),
            distances: BTreeSet::new(),
            buffers: [0; 9],
            causes: [0; CAUSES.len()],
            wraps: 0,
        }
    }

    /// The answers of one run.
    pub fn take(&mut self, answers: &[Answer]) {
        let mut farm = None;
        for answer in answers {
            match answer {
                Answer::Set(start) => {
                    self.buffers[start.buffers as usize] += 1;
                    farm = Some(*start);
                }
                Answer::Row(arrival, event, after) => {
                    if let Some(before) = farm {
                        self.take_row(&before, *arrival, *event, after);
                    }
                    farm = Some(*after);
                }
                Answer::Refused(cause) => self.causes[place_of(*cause)] += 1,
            }
        }
    }

    fn take_row(&mut self, before: &Farm1, arrival: Arrival, event: Event, after: &Farm1) {
        let key = (before.window, step(event, before, after));
        *self.steps.entry(key).or_insert(0) += 1;
        if let Arrival::Ad(n_s) = arrival {
            self.distances
                .insert((before.window, before.state, before.distance(n_s)));
        }
        if (event, before.state, before.v_r) == (Event::E1, State::Open, 255) {
            self.wraps += 1;
        }
    }

    /// How often each event met each state, and what else was met.
    pub fn report(&self) {
        for event in EVENTS {
            print!("program {event:?}:");
            for before in STATES {
                for after in STATES {
                    let times = self.times(event, before, after);
                    if times > 0 {
                        print!(" {} to {} {times};", before.number(), after.number());
                    }
                }
            }
            println!();
        }
        print!("program refused:");
        for cause in CAUSES {
            print!(" {cause:?} {};", self.causes[place_of(cause)]);
        }
        println!();
        print!("program runs by buffers:");
        for times in &self.buffers[1..] {
            print!(" {times}");
        }
        println!("; V(R) wrapped {} times", self.wraps);
    }

    fn times(&self, event: Event, before: State, after: State) -> u64 {
        let mut times = 0;
        for ((_, step), count) in &self.steps {
            if (step.0, step.1, step.3) == (event, before, after) {
                times += count;
            }
        }
        times
    }

    /// What is possible and was never met, as a number; each step and each distance
    /// counts at each window.
    pub fn never(&self) -> usize {
        let mut never = 0;
        let mut cells = BTreeSet::new();
        let mut cells_met = BTreeSet::new();
        let mut possible_steps = 0;
        let mut steps_met = 0;
        for window in (2..=254).step_by(2) {
            for step in possible(window) {
                let cell = (step.0, step.1, step.3);
                cells.insert(cell);
                possible_steps += 1;
                if self.steps.contains_key(&(window as u8, step)) {
                    cells_met.insert(cell);
                    steps_met += 1;
                }
            }
        }
        let possible_distances = 127 * STATES.len() * 256;
        println!(
            "program met: {} of {} cells of table 7-9; {steps_met} of {possible_steps} with flags \
             and window; {} of {possible_distances} distances with state and window",
            cells_met.len(),
            cells.len(),
            self.distances.len()
        );
        never += possible_steps - steps_met;
        never += possible_distances - self.distances.len();
        never += self.buffers[1..]
            .iter()
            .filter(|times| **times == 0)
            .count();
        never += self.causes.iter().filter(|times| **times == 0).count();
        never + (self.wraps == 0) as usize
    }
}

fn place_of(cause: Cause) -> usize {
    let place = CAUSES.iter().position(|other| *other == cause);
    place.expect("all causes are listed")
}

/// Every step that FARM-1 can make at a window, found by trying all that can arrive at
/// all it can come to. V(R) and the counter decide none of them.
fn possible(window: usize) -> BTreeSet<Step> {
    let mut arrivals = vec![
        Arrival::Bd,
        Arrival::Unlock,
        Arrival::SetVr(0),
        Arrival::InvalidFrame,
        Arrival::Release,
    ];
    arrivals.extend((0..=255).map(Arrival::Ad));

    let mut steps = BTreeSet::new();
    let mut seen = vec![Farm1::start(window, 0, 8).expect("a good window")];
    let mut next = 0;
    while next < seen.len() {
        let before = seen[next];
        next += 1;
        for arrival in &arrivals {
            let mut after = before;
            if let Ok(event) = after.take(*arrival, Fault::None) {
                steps.insert(step(event, &before, &after));
            }
            after.v_r = 0;
            after.farm_b_counter = 0;
            if !seen.contains(&after) {
                seen.push(after);
            }
        }
    }
    steps
}
