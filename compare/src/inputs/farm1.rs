//! Inputs to the program of FARM-1 that steer it, line by line, from state to state.

use crate::random::Random;
use independent::farm1::{Arrival, Farm1, State};
use independent::fault::Fault;

/// Outside the window at every W, since PW and NW are at most 127.
const LOCKING_DISTANCE: usize = 128;

/// A text, and FARM-1 after its lines.
pub struct Steered {
    pub text: Vec<u8>,
    farm: Farm1,
    lines: usize,
}

impl Steered {
    /// Begins with a good SET.
    pub fn set(window: usize, v_r: usize, buffers: usize) -> Steered {
        Steered {
            text: format!("SET\t{window}\t{v_r}\t{buffers}\n").into_bytes(),
            farm: Farm1::start(window, v_r, buffers).expect("a good SET"),
            lines: 1,
        }
    }

    fn send(&mut self, arrival: Arrival) {
        let line = match arrival {
            Arrival::Ad(n_s) => format!("AD\t{n_s}\n"),
            Arrival::Bd => String::from("BD\n"),
            Arrival::Unlock => String::from("UNLOCK\n"),
            Arrival::SetVr(value) => format!("SETVR\t{value}\n"),
            Arrival::InvalidFrame => String::from("BAD\n"),
            Arrival::Release => String::from("FREE\n"),
        };
        self.text.extend(line.as_bytes());
        self.lines += 1;
        // A release may be refused, which changes nothing.
        let _ = self.farm.take(arrival, Fault::None);
    }

    fn send_at_distance(&mut self, distance: usize) {
        self.send(Arrival::Ad(self.farm.beyond_v_r(distance)));
    }

    /// A line that is refused, without its newline.
    fn send_refused(&mut self, line: &[u8]) {
        self.text.extend(line);
        self.text.push(b'\n');
        self.lines += 1;
    }

    fn is_at(&self, place: &Place, v_r: u8) -> bool {
        let buffers = if place.full {
            !self.farm.buffer_free()
        } else {
            self.farm.buffer_free() && self.farm.taken > 0
        };
        self.farm.state == place.state
            && self.farm.wait_flag == place.wait_flag
            && self.farm.retransmit_flag == place.retransmit_flag
            && self.farm.v_r == v_r
            && buffers
    }

    /// Brings FARM-1 to a place, with this V(R).
    fn bring(&mut self, place: &Place, v_r: u8) {
        if self.is_at(place, v_r) {
            return;
        }
        if self.farm.state != State::Open || self.farm.retransmit_flag {
            self.send(Arrival::Unlock);
        }
        if self.farm.taken == 0 {
            self.send_at_distance(0);
        }
        let through_wait = place.wait_flag || (place.retransmit_flag && !place.full);
        if place.full || through_wait {
            while self.farm.buffer_free() {
                self.send_at_distance(0);
            }
        } else if !self.farm.buffer_free() {
            self.send(Arrival::Release);
        }
        if self.farm.v_r != v_r {
            self.send(Arrival::SetVr(v_r));
        }
        if through_wait {
            self.send_at_distance(0);
            if !place.wait_flag {
                self.send(Arrival::Release);
            }
        } else if place.retransmit_flag {
            self.send_at_distance(1);
        }
        if place.state == State::Lockout {
            self.send_at_distance(LOCKING_DISTANCE);
        }
        assert!(self.is_at(place, v_r), "{:?}", self.farm);
    }
}

/// State, flags and buffers: all are taken, or one is taken and one is free.
struct Place {
    state: State,
    wait_flag: bool,
    retransmit_flag: bool,
    full: bool,
}

const fn place(state: State, wait_flag: bool, retransmit_flag: bool, full: bool) -> Place {
    Place {
        state,
        wait_flag,
        retransmit_flag,
        full,
    }
}

/// All that FARM-1 can come to.
const PLACES: [Place; 10] = [
    place(State::Open, false, false, false),
    place(State::Open, false, false, true),
    place(State::Open, false, true, false),
    place(State::Open, false, true, true),
    place(State::Wait, true, true, true),
    place(State::Lockout, false, false, false),
    place(State::Lockout, false, false, true),
    place(State::Lockout, false, true, false),
    place(State::Lockout, false, true, true),
    place(State::Lockout, true, true, true),
];

/// At W = 2 nothing is E3, without which the Retransmit_Flag is never set with all
/// buffers taken, but in Wait and after it.
fn within_reach(place: &Place, window: usize) -> bool {
    window > 2 || !place.retransmit_flag || !place.full || place.wait_flag
}

/// The places whose frames are sent with every number: one in each state, which one in
/// Lockout changes with the window.
fn all_numbers_at(window: usize) -> [&'static Place; 3] {
    let lockout = match window / 2 % 3 {
        0 => &PLACES[9],
        1 => &PLACES[5],
        _ => &PLACES[7],
    };
    [&PLACES[0], &PLACES[4], lockout]
}

/// All 256 numbers in each state, and every event at each place.
pub fn window(window: usize) -> Vec<u8> {
    let half = window / 2;
    let mut steered = Steered::set(window, (window * 37 + 11) % 256, 8);

    for (turn, place) in all_numbers_at(window).into_iter().enumerate() {
        let v_r = [250, window * 91 % 256, 255 - half][turn] as u8;
        for n_s in 0..=255 {
            steered.bring(place, v_r);
            steered.send(Arrival::Ad(n_s));
        }
    }

    for (turn, place) in PLACES.iter().enumerate() {
        if !within_reach(place, window) {
            continue;
        }
        let v_r = (window + 29 * turn) as u8;
        let edges = [0, 1, half - 1, half, 127, 128, 255 - half, 256 - half, 255];
        for distance in edges {
            steered.bring(place, v_r);
            steered.send_at_distance(distance);
        }
        for arrival in [
            Arrival::Bd,
            Arrival::Unlock,
            Arrival::SetVr(v_r),
            Arrival::SetVr(255 - v_r),
            Arrival::InvalidFrame,
            Arrival::Release,
        ] {
            steered.bring(place, v_r);
            steered.send(arrival);
        }
        steered.bring(place, v_r);
        for line in ["", "AD\t256", "SETVR", "SET\t4\t0\t1", &"X".repeat(64)] {
            steered.send_refused(line.as_bytes());
        }
        steered.send(Arrival::InvalidFrame);
        // The last release is refused.
        for _ in 0..=steered.farm.taken {
            steered.send(Arrival::Release);
        }
    }
    steered.text
}

/// Every N(S) at every V(R), in Lockout, where the event is told and nothing changes.
pub fn all_pairs(window: usize) -> Vec<u8> {
    let mut steered = Steered::set(window, 0, 1);
    for v_r in 0..=255 {
        steered.send(Arrival::SetVr(v_r));
        steered.send_at_distance(LOCKING_DISTANCE);
        for n_s in 0..=255 {
            steered.send(Arrival::Ad(n_s));
        }
        steered.send(Arrival::Unlock);
    }
    steered.text
}

/// The shares of the lines of a random run for a while: the next frame, a release, any
/// other line.
type Shares = [usize; 3];

const SHARES: [Shares; 5] = [[10, 9, 1], [12, 4, 4], [4, 8, 8], [3, 1, 16], [0, 0, 20]];

/// A good SET.
pub fn any_set(random: &mut Random) -> Steered {
    let window = match random.below(4) {
        0 => *random.pick(&[2, 4, 6, 20, 128, 250, 252, 254]),
        _ => 2 * random.between(1, 127),
    };
    let v_r = match random.below(4) {
        0 => *random.pick(&[0, 1, 9, 10, 99, 100, 127, 128, 250, 255]),
        _ => random.between(0, 255),
    };
    Steered::set(window, v_r, random.between(1, 8))
}

/// So many lines, the SET included, at random.
pub fn random_lines(lines: usize, random: &mut Random) -> Vec<u8> {
    let mut steered = any_set(random);
    while steered.lines < lines {
        let shares = *random.pick(&SHARES);
        let until = lines.min(steered.lines + random.between(20, 400));
        while steered.lines < until {
            random_line(&mut steered, shares, random);
        }
    }
    steered.text
}

fn random_line(steered: &mut Steered, [next, release, other]: Shares, random: &mut Random) {
    if steered.farm.state == State::Lockout && random.once_in(6) {
        return steered.send(Arrival::Unlock);
    }
    let turn = random.below(next + release + other);
    if turn >= next + release {
        return other_line(steered, random);
    }
    // A release that is refused comes now and then only.
    if turn >= next && (steered.farm.taken > 0 || random.once_in(10)) {
        steered.send(Arrival::Release);
    } else {
        steered.send_at_distance(0);
    }
}

fn other_line(steered: &mut Steered, random: &mut Random) {
    match random.below(32) {
        0..=15 => {
            let distance = any_distance(steered.farm.half_window(), random);
            steered.send_at_distance(distance);
        }
        16..=18 => steered.send(Arrival::Bd),
        19..=21 => steered.send(Arrival::Unlock),
        22..=23 => {
            let value = any_value(&steered.farm, random);
            steered.send(Arrival::SetVr(value));
        }
        24..=26 => steered.send(Arrival::InvalidFrame),
        27..=30 => steered.send(Arrival::Release),
        _ => {
            let line = *random.pick(&[
                "",
                "AD",
                "AD\t",
                "AD\t256",
                "AD\t00",
                "BD\t",
                "UNLOCK\t0",
                "SETVR",
                "SETVR\t01",
                "BAD\r",
                "free",
                "SET\t20\t250\t1",
                "REFUSED",
            ]);
            steered.send_refused(line.as_bytes());
        }
    }
}

/// Near V(R), at an edge of the window, or any.
fn any_distance(half: usize, random: &mut Random) -> usize {
    match random.below(8) {
        0..=2 => *random.pick(&[1, 1, 2, 3, 253, 254, 255, 255]),
        3 => *random.pick(&[half - 1, half, half + 1]),
        4 => *random.pick(&[255 - half, 256 - half, 257 - half]),
        5 => *random.pick(&[126, 127, 128, 129]),
        _ => random.between(0, 255),
    }
}

/// V(R) itself, near the wrap, or any.
fn any_value(farm: &Farm1, random: &mut Random) -> u8 {
    match random.below(4) {
        0 => farm.v_r,
        1 => random.between(248, 255) as u8,
        _ => random.number() as u8,
    }
}
