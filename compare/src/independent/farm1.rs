//! FARM-1 (clauses 7.2.3 and 7.9.3, Table 7-9), by the rules of document 01.

use crate::fault::Fault;
use crate::refusal::{RELEASE, SETTING};
use std::ops::{Deref, DerefMut};

/// Document 01, Limits.
const WINDOW_LEAST: usize = 2;
const WINDOW_MOST: usize = 254;
const V_R_MOST: usize = 255;
const BUFFERS_LEAST: usize = 1;
const BUFFERS_MOST: usize = 8;

/// Sequence numbers are counted modulo 256, the counter modulo 4 (document 01, Limits).
const SEQUENCE_NUMBERS: usize = 256;
pub const COUNTER_VALUES: u8 = 4;

/// The state (clause 7.2.3.2).
#[derive(Clone, Copy, PartialEq, Eq, PartialOrd, Ord, Debug)]
pub enum State {
    Open,
    Wait,
    Lockout,
}

pub const STATES: [State; 3] = [State::Open, State::Wait, State::Lockout];

impl State {
    /// The State Number of Table 7-9.
    pub fn number(self) -> &'static str {
        match self {
            State::Open => "S1",
            State::Wait => "S2",
            State::Lockout => "S3",
        }
    }
}

/// The events of Table 7-9 but E11, the report.
#[derive(Clone, Copy, PartialEq, Eq, PartialOrd, Ord, Debug)]
pub enum Event {
    E1,
    E2,
    E3,
    E4,
    E5,
    E6,
    E7,
    E8,
    E9,
    E10,
}

pub const EVENTS: [Event; 10] = [
    Event::E1,
    Event::E2,
    Event::E3,
    Event::E4,
    Event::E5,
    Event::E6,
    Event::E7,
    Event::E8,
    Event::E9,
    Event::E10,
];

/// What comes to FARM-1.
#[derive(Clone, Copy, PartialEq, Eq, Debug)]
pub enum Arrival {
    /// A valid type-AD frame with its N(S).
    Ad(u8),
    Bd,
    Unlock,
    /// Set V(R) with its value V*(R).
    SetVr(u8),
    InvalidFrame,
    /// The buffer release signal.
    Release,
}

impl Arrival {
    /// The event of one that is the same whatever the variables are.
    pub fn event_alone(self) -> Event {
        match self {
            Arrival::Bd => Event::E6,
            Arrival::Unlock => Event::E7,
            Arrival::SetVr(_) => Event::E8,
            Arrival::InvalidFrame => Event::E9,
            Arrival::Ad(_) | Arrival::Release => unreachable!("the variables tell it"),
        }
    }

    /// V*(R) of Set V(R), otherwise zero.
    pub fn value(self) -> u8 {
        match self {
            Arrival::SetVr(value) => value,
            _ => 0,
        }
    }
}

/// The variables (clause 7.2.3).
#[derive(Clone, Copy, PartialEq, Eq, Debug)]
pub struct Variables {
    pub state: State,
    pub lockout_flag: bool,
    pub wait_flag: bool,
    pub retransmit_flag: bool,
    pub v_r: u8,
    pub farm_b_counter: u8,
    /// FARM_Sliding_Window_Width, W.
    pub window: u8,
}

/// FARM-1 with its buffers for AD units, and those taken of them (document 01, FARM-1).
#[derive(Clone, Copy, PartialEq, Eq, Debug)]
pub struct Farm1 {
    pub variables: Variables,
    pub buffers: u8,
    pub taken: u8,
}

/// Its variables are read as its own.
impl Deref for Farm1 {
    type Target = Variables;

    fn deref(&self) -> &Variables {
        &self.variables
    }
}

impl DerefMut for Farm1 {
    fn deref_mut(&mut self) -> &mut Variables {
        &mut self.variables
    }
}

impl Farm1 {
    /// FARM-1 at its start, or refusal 12 (document 01, Limits and FARM-1).
    pub fn start(window: usize, v_r: usize, buffers: usize) -> Result<Farm1, u8> {
        if !(BUFFERS_LEAST..=BUFFERS_MOST).contains(&buffers) {
            return Err(SETTING);
        }
        Ok(Farm1 {
            variables: Variables::start(window, v_r)?,
            buffers: buffers as u8,
            taken: 0,
        })
    }

    /// A buffer is available for a type-AD frame.
    pub fn buffer_free(&self) -> bool {
        self.taken < self.buffers
    }

    /// Takes what arrives, and says which event it is. A release when no buffer is
    /// taken is refusal 13 and changes nothing.
    pub fn take(&mut self, arrival: Arrival, fault: Fault) -> Result<Event, u8> {
        let event = match arrival {
            Arrival::Ad(n_s) => self.event_of_type_ad(n_s, self.buffer_free(), fault),
            Arrival::Release => {
                if self.taken == 0 {
                    return Err(RELEASE);
                }
                self.taken -= 1;
                Event::E10
            }
            other => other.event_alone(),
        };
        // E1 takes a buffer (document 01, FARM-1).
        if event == Event::E1 && self.state == State::Open {
            self.taken += 1;
        }
        self.act(event, arrival.value(), fault);
        Ok(event)
    }
}

impl Variables {
    /// Those of FARM-1 at its start, or refusal 12 (document 01, Limits and FARM-1).
    pub fn start(window: usize, v_r: usize) -> Result<Variables, u8> {
        let within_limits =
            (WINDOW_LEAST..=WINDOW_MOST).contains(&window) && window % 2 == 0 && v_r <= V_R_MOST;
        if !within_limits {
            return Err(SETTING);
        }
        Ok(Variables {
            state: State::Open,
            lockout_flag: false,
            wait_flag: false,
            retransmit_flag: false,
            v_r: v_r as u8,
            farm_b_counter: 0,
            window: window as u8,
        })
    }

    /// The sequence number so far beyond V(R), modulo 256.
    pub fn beyond_v_r(&self, distance: usize) -> u8 {
        ((self.v_r as usize + distance) % SEQUENCE_NUMBERS) as u8
    }

    /// d = N(S) - V(R), modulo 256.
    pub fn distance(&self, n_s: u8) -> usize {
        (SEQUENCE_NUMBERS + n_s as usize - self.v_r as usize) % SEQUENCE_NUMBERS
    }

    /// PW, which is NW too (clause 7.2.3.8.2).
    pub fn half_window(&self) -> usize {
        self.window as usize / 2
    }

    /// Document 01, FARM-1.
    pub fn event_of_type_ad(&self, n_s: u8, buffer_free: bool, fault: Fault) -> Event {
        let (pw, nw) = (self.half_window(), self.half_window());
        let d = self.distance(n_s);
        if d == 0 {
            return if buffer_free { Event::E1 } else { Event::E2 };
        }
        if fault == Fault::FarmPlainNumbers {
            return plain_event(n_s as i32, self.v_r as i32, pw as i32, nw as i32);
        }
        let positive_end = match fault {
            Fault::FarmWindowOneWider => pw,
            _ => pw - 1,
        };
        if d <= positive_end {
            Event::E3
        } else if d >= SEQUENCE_NUMBERS - nw {
            Event::E4
        } else {
            Event::E5
        }
    }

    /// The actions of an event and the next state. The value is V*(R).
    pub fn act(&mut self, event: Event, value: u8, fault: Fault) {
        self.state = self.cell(event, value, fault);
    }

    /// A cell of Table 7-9: its actions, and the next state. The value is V*(R).
    fn cell(&mut self, event: Event, value: u8, fault: Fault) -> State {
        match (event, self.state) {
            (Event::E1, State::Open) => {
                self.v_r = self.beyond_v_r(1);
                self.retransmit_flag = false;
                State::Open
            }
            (Event::E1, State::Wait) => unreachable!("not applicable"),
            (Event::E1, State::Lockout) => State::Lockout,

            (Event::E2, State::Open) => {
                self.retransmit_flag = true;
                self.wait_flag = true;
                State::Wait
            }
            (Event::E2, State::Wait) => State::Wait,
            (Event::E2, State::Lockout) => State::Lockout,

            (Event::E3, State::Open) => {
                self.retransmit_flag = true;
                State::Open
            }
            (Event::E3, State::Wait) => State::Wait,
            (Event::E3, State::Lockout) => State::Lockout,

            (Event::E4, State::Open) => State::Open,
            (Event::E4, State::Wait) => State::Wait,
            (Event::E4, State::Lockout) => State::Lockout,

            (Event::E5, State::Open | State::Wait) => {
                self.lockout_flag = true;
                State::Lockout
            }
            (Event::E5, State::Lockout) => State::Lockout,

            (Event::E6, state) => {
                self.increment_counter(fault);
                state
            }

            (Event::E7, State::Open) => {
                self.increment_counter(fault);
                self.retransmit_flag = false;
                State::Open
            }
            (Event::E7, State::Wait) => {
                self.increment_counter(fault);
                self.retransmit_flag = false;
                self.wait_flag = false;
                State::Open
            }
            (Event::E7, State::Lockout) => {
                self.increment_counter(fault);
                self.retransmit_flag = false;
                self.wait_flag = false;
                self.lockout_flag = false;
                State::Open
            }

            (Event::E8, State::Open) => {
                self.increment_counter(fault);
                self.retransmit_flag = false;
                self.v_r = value;
                State::Open
            }
            (Event::E8, State::Wait) => {
                self.increment_counter(fault);
                self.retransmit_flag = false;
                self.wait_flag = false;
                self.v_r = value;
                State::Open
            }
            (Event::E8, State::Lockout) => {
                self.increment_counter(fault);
                if fault == Fault::FarmSetVrLeavesLockout {
                    self.retransmit_flag = false;
                    self.wait_flag = false;
                    self.lockout_flag = false;
                    self.v_r = value;
                    return State::Open;
                }
                State::Lockout
            }

            (Event::E9, state) => state,

            (Event::E10, State::Open) => {
                self.release_clears_retransmit(fault);
                State::Open
            }
            (Event::E10, State::Wait) => {
                self.release_clears_retransmit(fault);
                self.wait_flag = false;
                State::Open
            }
            (Event::E10, State::Lockout) => {
                self.release_clears_retransmit(fault);
                self.wait_flag = false;
                State::Lockout
            }
        }
    }

    fn increment_counter(&mut self, fault: Fault) {
        if fault == Fault::FarmCounterStuck && self.farm_b_counter == COUNTER_VALUES - 1 {
            return;
        }
        self.farm_b_counter = (self.farm_b_counter + 1) % COUNTER_VALUES;
    }

    fn release_clears_retransmit(&mut self, fault: Fault) {
        if fault == Fault::FarmReleaseClearsRetransmit {
            self.retransmit_flag = false;
        }
    }
}

/// Table 7-9 read without modulo 256, for a number that is not V(R).
fn plain_event(n_s: i32, v_r: i32, pw: i32, nw: i32) -> Event {
    if n_s > v_r && n_s < v_r + pw {
        Event::E3
    } else if n_s < v_r && n_s >= v_r - nw {
        Event::E4
    } else {
        Event::E5
    }
}

#[cfg(test)]
mod tests {
    use super::*;

    fn started(window: usize, v_r: usize, buffers: usize) -> Farm1 {
        Farm1::start(window, v_r, buffers).unwrap()
    }

    fn event(farm: &Farm1, arrival: Arrival) -> Event {
        take(&mut farm.clone(), arrival)
    }

    /// The numbers whose frames are this event.
    fn numbers(farm: &Farm1, wanted: Event) -> Vec<u8> {
        let is_wanted = |n_s: &u8| event(farm, Arrival::Ad(*n_s)) == wanted;
        (0..=255).filter(is_wanted).collect()
    }

    /// What is seen: state, V(R), flags lockout, wait and retransmit, counter.
    fn seen(farm: &Farm1) -> (State, u8, [bool; 3], u8) {
        let flags = [farm.lockout_flag, farm.wait_flag, farm.retransmit_flag];
        (farm.state, farm.v_r, flags, farm.farm_b_counter)
    }

    fn take(farm: &mut Farm1, arrival: Arrival) -> Event {
        farm.take(arrival, Fault::None).unwrap()
    }

    // Document 01, FARM-1: W = 20, V(R) = 250.
    #[test]
    fn window_of_twenty() {
        let farm = started(20, 250, 1);
        assert_eq!(numbers(&farm, Event::E1), [250]);
        let positive: Vec<u8> = (0..=3).chain(251..=255).collect();
        assert_eq!(numbers(&farm, Event::E3), positive);
        let negative: Vec<u8> = (240..=249).collect();
        assert_eq!(numbers(&farm, Event::E4), negative);
        let lockout: Vec<u8> = (4..=239).collect();
        assert_eq!(numbers(&farm, Event::E5), lockout);
    }

    // Document 01, FARM-1: at W = 2 nothing is E3, at W = 254 only d = 127 and 128 are E5.
    #[test]
    fn least_and_greatest_window() {
        for v_r in 0..=255 {
            let farm = started(2, v_r, 1);
            assert_eq!(numbers(&farm, Event::E3), []);
            assert_eq!(numbers(&farm, Event::E4), [farm.beyond_v_r(255)]);
            assert_eq!(numbers(&farm, Event::E5).len(), 254);
            let farm = started(254, v_r, 1);
            let mut lockout = [farm.beyond_v_r(127), farm.beyond_v_r(128)];
            lockout.sort();
            assert_eq!(numbers(&farm, Event::E5), lockout);
            assert_eq!(numbers(&farm, Event::E3).len(), 126);
            assert_eq!(numbers(&farm, Event::E4).len(), 127);
        }
    }

    // Clause 7.2.3.8: the lockout area has a width of 256 - W.
    #[test]
    fn widths() {
        for window in (2..=254).step_by(2) {
            for v_r in [0, 1, 100, 250, 255] {
                let farm = started(window, v_r, 8);
                assert_eq!(numbers(&farm, Event::E1).len(), 1);
                assert_eq!(numbers(&farm, Event::E3).len(), window / 2 - 1);
                assert_eq!(numbers(&farm, Event::E4).len(), window / 2);
                assert_eq!(numbers(&farm, Event::E5).len(), 256 - window);
            }
        }
    }

    // Document 01, Tempting mistakes.
    #[test]
    fn tempting_mistakes() {
        let farm = started(20, 250, 1);
        assert_eq!(event(&farm, Arrival::Ad(2)), Event::E3);
        assert_eq!(event(&farm, Arrival::Ad(4)), Event::E5);

        let mut farm = started(20, 250, 1);
        take(&mut farm, Arrival::Ad(250));
        take(&mut farm, Arrival::Ad(251));
        assert_eq!(seen(&farm), (State::Wait, 251, [false, true, true], 0));
        assert_eq!(take(&mut farm, Arrival::Release), Event::E10);
        assert_eq!(seen(&farm), (State::Open, 251, [false, false, true], 0));

        take(&mut farm, Arrival::Ad(100));
        assert_eq!(seen(&farm), (State::Lockout, 251, [true, false, true], 0));
        assert_eq!(take(&mut farm, Arrival::SetVr(5)), Event::E8);
        assert_eq!(seen(&farm), (State::Lockout, 251, [true, false, true], 1));
    }

    // Document 01, FARM-1: E5 in Wait keeps the wait flag; in Lockout a release clears it.
    #[test]
    fn lockout_from_wait() {
        let mut farm = started(20, 0, 1);
        take(&mut farm, Arrival::Ad(0));
        assert_eq!(take(&mut farm, Arrival::Ad(1)), Event::E2);
        assert_eq!(take(&mut farm, Arrival::Ad(128)), Event::E5);
        assert_eq!(seen(&farm), (State::Lockout, 1, [true, true, true], 0));
        assert_eq!(take(&mut farm, Arrival::Release), Event::E10);
        assert_eq!(seen(&farm), (State::Lockout, 1, [true, false, true], 0));

        // A frame that is E1 in Lockout is discarded, and takes no buffer.
        assert_eq!(take(&mut farm, Arrival::Ad(1)), Event::E1);
        assert_eq!(seen(&farm), (State::Lockout, 1, [true, false, true], 0));
        assert_eq!(farm.take(Arrival::Release, Fault::None), Err(RELEASE));
        assert_eq!(take(&mut farm, Arrival::Unlock), Event::E7);
        assert_eq!(seen(&farm), (State::Open, 1, [false; 3], 1));
    }

    // Document 01, FARM-1: Unlock in Wait opens without freeing a buffer, and so does
    // Set V(R).
    #[test]
    fn commands_in_wait_free_no_buffer() {
        for command in [Arrival::Unlock, Arrival::SetVr(7)] {
            let mut farm = started(20, 6, 1);
            take(&mut farm, Arrival::Ad(6));
            take(&mut farm, Arrival::Ad(7));
            take(&mut farm, command);
            assert_eq!(seen(&farm), (State::Open, 7, [false; 3], 1));
            assert_eq!(take(&mut farm, Arrival::Ad(7)), Event::E2);
            assert_eq!(seen(&farm), (State::Wait, 7, [false, true, true], 1));
        }
    }

    // Document 01, Limits: modulo 256, and modulo 4.
    #[test]
    fn numbers_wrap() {
        let mut farm = started(2, 255, 8);
        assert_eq!(take(&mut farm, Arrival::Ad(255)), Event::E1);
        assert_eq!(farm.v_r, 0);
        for counter in [1, 2, 3, 0, 1] {
            take(&mut farm, Arrival::Bd);
            assert_eq!(farm.farm_b_counter, counter);
        }
    }

    // Document 01, Refusals: 13 where none is taken, and nothing is changed.
    #[test]
    fn releases() {
        for buffers in 1..=8 {
            let mut farm = started(20, 0, buffers);
            assert_eq!(farm.take(Arrival::Release, Fault::None), Err(RELEASE));
            for n_s in 0..buffers {
                assert_eq!(take(&mut farm, Arrival::Ad(n_s as u8)), Event::E1);
            }
            assert_eq!(take(&mut farm, Arrival::Ad(buffers as u8)), Event::E2);
            for _ in 0..buffers {
                assert_eq!(take(&mut farm, Arrival::Release), Event::E10);
            }
            let before = farm;
            assert_eq!(farm.take(Arrival::Release, Fault::None), Err(RELEASE));
            assert_eq!(farm, before);
        }
    }

    // Document 01, Limits.
    #[test]
    fn settings() {
        for window in 0..=300 {
            let good = window % 2 == 0 && window >= 2 && window <= 254;
            assert_eq!(Farm1::start(window, 0, 1).is_ok(), good);
        }
        for v_r in 0..=300 {
            assert_eq!(Farm1::start(20, v_r, 1).is_ok(), v_r <= 255);
        }
        for buffers in 0..=300 {
            let good = buffers >= 1 && buffers <= 8;
            assert_eq!(Farm1::start(20, 0, buffers).is_ok(), good);
        }
    }
}
