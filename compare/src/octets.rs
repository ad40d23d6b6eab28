//! The octets that cross the boundary: the state of a sender, its answer, its store, and
//! the state of a receiver. Numbers of two octets have the most significant first.

use independent::farm1::{self, Farm1, Variables};
use independent::fault::Fault;
use independent::fop1::{
    Answer, Response, Run, Sender, K_MOST, SUSPEND_STATE_MOST, TIMEOUT_TYPE_MOST, UNIT_MOST,
};
use independent::frame::{self, Content};
use independent::ledger::Held;
use independent::table_7_8::{Reason, State, STATES};

pub const SENDER_STATE: usize = LENGTHS + 2 * PLACES;
pub const ANSWER: usize = 18;
pub const RECEIVER_STATE: usize = 12;

const SENDER_MARK: u8 = 0x53;
const RECEIVER_MARK: u8 = 0x52;
const RECEIVER_LAYOUT: u8 = 1;
const SENDER_LAYOUT: u8 = 2;

/// The former layout of a sender's state, of 32 units sent and one waiting, whose store had another
/// stride: refused with 12.
const FORMER_LAYOUT: u8 = 1;
const FORMER_SENDER_STATE: usize = LENGTHS + 2 * 33;

/// The units of the longest store: 127 sent, one waiting.
const PLACES: usize = K_MOST + 1;
/// Where the lengths of these begin in the state.
pub const LENGTHS: usize = 22;
const RESPONSES: usize = 4;

/// Document 01, Limits.
pub const SPACECRAFT_MOST: u32 = 1023;
pub const CHANNEL_MOST: u32 = 63;
const BUFFERS_MOST: u8 = 8;

/// A sender's variables, settings and queues.
#[derive(Clone, PartialEq, Eq, Debug)]
pub struct SenderState {
    pub state: u8,
    pub k: u8,
    pub t1_initial: u16,
    pub transmission_limit: u8,
    pub timeout_type: u8,
    pub spacecraft: u16,
    pub channel: u8,
    pub v_s: u8,
    pub nn_r: u8,
    pub timer: u16,
    pub transmission_count: u8,
    pub ad_out_ready: bool,
    pub bc_out_ready: bool,
    pub bd_out_ready: bool,
    pub suspend_state: u8,
    /// The marks of the units sent, the oldest first.
    pub marks: Vec<bool>,
    pub waiting: bool,
    /// The type-BC frame: 0 none, 1 Unlock, 2 Set V(R), and its value.
    pub control: (u8, u8),
    pub control_marked: bool,
    /// The lengths of the units sent and waiting.
    pub lengths: Vec<u16>,
}

fn two(octets: &[u8], place: usize) -> u16 {
    u16::from_be_bytes([octets[place], octets[place + 1]])
}

impl SenderState {
    /// The state of the independent sender.
    pub fn of(sender: &Sender) -> SenderState {
        let mut marks = Vec::new();
        let mut control = (0, 0);
        let mut control_marked = false;
        for frame in &sender.sent_queue {
            match frame.content {
                Content::Ad { .. } => marks.push(frame.to_be_retransmitted),
                Content::Unlock => control = (1, 0),
                Content::SetVr { value } => control = (2, value as u8),
                Content::Bd { .. } => unreachable!("no copy of a type-BD frame is kept"),
            }
            control_marked |= frame.number().is_none() && frame.to_be_retransmitted;
        }
        let lengths = sender.stored().into_iter().map(|unit| unit.len() as u16);
        SenderState {
            state: sender.state.number(),
            k: sender.k,
            t1_initial: sender.t1_initial,
            transmission_limit: sender.transmission_limit,
            timeout_type: sender.timeout_type,
            spacecraft: sender.spacecraft as u16,
            channel: sender.channel as u8,
            v_s: sender.v_s,
            nn_r: sender.nn_r,
            timer: sender.timer,
            transmission_count: sender.transmission_count,
            ad_out_ready: sender.ad_out_ready,
            bc_out_ready: sender.bc_out_ready,
            bd_out_ready: sender.bd_out_ready,
            suspend_state: sender.suspend_state,
            marks,
            waiting: sender.wait_queue.is_some(),
            control,
            control_marked,
            lengths: lengths.collect(),
        }
    }

    /// Reads a state back; none where the octets are not laid out as one. Each octet is
    /// read but the lengths of places that hold no unit.
    pub fn read(octets: &[u8]) -> Option<SenderState> {
        let laid_out = octets.len() == SENDER_STATE
            && octets[0] == SENDER_MARK
            && octets[1] == SENDER_LAYOUT
            && (1..=6).contains(&octets[2])
            && octets[16] < 32
            && octets[18] as usize <= K_MOST
            && octets[19] <= octets[18]
            && octets[20] <= 2
            && (octets[20] == 2 || octets[21] == 0);
        if !laid_out {
            return None;
        }
        let flag = |weight| octets[16] & weight != 0;
        let (sent, marked) = (octets[18] as usize, octets[19] as usize);
        let held = sent + flag(8) as usize;
        let lengths = (0..held).map(|place| two(octets, LENGTHS + 2 * place));
        Some(SenderState {
            state: octets[2],
            k: octets[3],
            t1_initial: two(octets, 4),
            transmission_limit: octets[6],
            timeout_type: octets[7],
            spacecraft: two(octets, 8),
            channel: octets[10],
            v_s: octets[11],
            nn_r: octets[12],
            timer: two(octets, 13),
            transmission_count: octets[15],
            ad_out_ready: flag(1),
            bc_out_ready: flag(2),
            bd_out_ready: flag(4),
            suspend_state: octets[17],
            marks: (0..sent).map(|place| place >= sent - marked).collect(),
            waiting: flag(8),
            control: (octets[20], octets[21]),
            control_marked: flag(16),
            lengths: lengths.collect(),
        })
    }

    fn within_limits(&self) -> bool {
        (1..=K_MOST).contains(&(self.k as usize))
            && self.t1_initial >= 1
            && self.transmission_limit >= 1
            && usize::from(self.timeout_type) <= TIMEOUT_TYPE_MOST
            && u32::from(self.spacecraft) <= SPACECRAFT_MOST
            && u32::from(self.channel) <= CHANNEL_MOST
    }

    /// No more units are sent than V(S) - NN(R) and the largest K.
    fn numbers_hold(&self) -> bool {
        let unacknowledged = self.v_s.wrapping_sub(self.nn_r) as usize;
        self.marks.len() <= K_MOST
            && self.marks.len() <= unacknowledged
            && self.transmission_count >= 1
            && !self.lengths.contains(&0)
    }

    /// Only Initial is suspended (clause 7.2.2), and there the timer is stopped. Units are sent or
    /// waiting in S1 to S3, or where a suspension left these; a type-BC frame is on the Sent_Queue
    /// in S5 and nowhere else.
    fn state_holds(&self, fault: Fault) -> bool {
        let suspended = self.suspend_state > 0;
        let initial = self.state == State::S6.number();
        let held_by = if suspended {
            self.suspend_state
        } else {
            self.state
        };
        let serving = (State::S1.number()..=State::S3.number()).contains(&held_by)
            || (suspended && fault == Fault::SuspendedUnitsTaken);
        let with_command = self.state == State::S5.number();
        self.suspend_state <= SUSPEND_STATE_MOST
            && (!suspended || (initial && fault != Fault::SuspendedStateRefused))
            && (self.timer == 0 || !initial)
            && (serving || self.lengths.is_empty())
            && (self.control.0 != 0) == with_command
    }

    /// The octets of the state, zero the lengths of places that hold no unit.
    pub fn octets(&self) -> Vec<u8> {
        let mut octets = vec![0; SENDER_STATE];
        let marked = self.marks.iter().filter(|mark| **mark).count();
        let flags = [
            self.ad_out_ready,
            self.bc_out_ready,
            self.bd_out_ready,
            self.waiting,
            self.control_marked,
        ];
        let flags = flags
            .iter()
            .rev()
            .fold(0, |all, flag| 2 * all + *flag as u8);
        let [t1_high, t1_low] = self.t1_initial.to_be_bytes();
        let [spacecraft_high, spacecraft_low] = self.spacecraft.to_be_bytes();
        let [timer_high, timer_low] = self.timer.to_be_bytes();
        let first = [
            SENDER_MARK,
            SENDER_LAYOUT,
            self.state,
            self.k,
            t1_high,
            t1_low,
            self.transmission_limit,
            self.timeout_type,
            spacecraft_high,
            spacecraft_low,
            self.channel,
            self.v_s,
            self.nn_r,
            timer_high,
            timer_low,
            self.transmission_count,
            flags,
            self.suspend_state,
            self.marks.len() as u8,
            marked as u8,
            self.control.0,
            self.control.1,
        ];
        octets[..LENGTHS].copy_from_slice(&first);
        for (place, length) in self.lengths.iter().enumerate() {
            let place = LENGTHS + 2 * place;
            octets[place..place + 2].copy_from_slice(&length.to_be_bytes());
        }
        octets
    }
}

/// The octets of a sender's state with the number of the former layout, and cut to its length or
/// whole.
pub fn in_former_layout(octets: &[u8], cut: bool) -> Vec<u8> {
    let length = if cut {
        FORMER_SENDER_STATE
    } else {
        SENDER_STATE
    };
    let mut octets = octets[..length].to_vec();
    octets[1] = FORMER_LAYOUT;
    octets
}

/// The octets have the number of the former layout.
pub fn is_former_layout(octets: &[u8]) -> bool {
    octets.len() > 1 && octets[1] == FORMER_LAYOUT
}

/// Octets that no sender's state has.
pub fn no_sender_state(octets: &[u8], fault: Fault) -> bool {
    if fault == Fault::FormerLayoutTaken && is_former_layout(octets) {
        return false;
    }
    match SenderState::read(octets) {
        None => true,
        Some(state) => {
            let lengths = (0..PLACES).map(|place| two(octets, LENGTHS + 2 * place));
            let too_long = lengths.max() > Some(UNIT_MOST as u16);
            too_long || !state.within_limits() || !state.numbers_hold() || !state.state_holds(fault)
        }
    }
}

/// Puts the units of the independent sender at their places of a store.
pub fn put_stored(sender: &Sender, store: &mut [u8]) {
    for (place, unit) in sender.stored().iter().enumerate() {
        let first = place * UNIT_MOST;
        store[first..first + unit.len()].copy_from_slice(unit);
    }
}

/// The units that a state and its store hold: those on the Sent_Queue, the oldest first, their
/// numbers the last before V(S), and behind them the one waiting. None where the octets are not laid
/// out as a state, or the store is shorter than the units.
pub fn held<'a>(state: &[u8], store: &'a [u8]) -> Option<Held<'a>> {
    let state = SenderState::read(state)?;
    let sent = state.marks.len();
    let mut units = Vec::new();
    for (place, length) in state.lengths.iter().enumerate() {
        let first = place * UNIT_MOST;
        units.push(store.get(first..first + usize::from(*length))?);
    }
    let waiting = units.split_off(sent);
    let first = state.v_s.wrapping_sub(sent as u8);
    let numbers = (0..sent).map(|place| first.wrapping_add(place as u8));
    Some(Held {
        outstanding: numbers.zip(units).collect(),
        waiting,
    })
}

/// By number, from 1 on.
const RESPONSE_NUMBERS: [Response; 8] = [
    Response::AdAccept,
    Response::AdReject,
    Response::BdAccept,
    Response::BdReject,
    Response::DirectiveAccept,
    Response::DirectiveReject,
    Response::DirectivePositiveConfirm,
    Response::DirectiveNegativeConfirm,
];

/// By number, from 1 on; 0 is none.
const ALERT_NUMBERS: [Reason; 8] = [
    Reason::Synch,
    Reason::Clcw,
    Reason::Limit,
    Reason::NnR,
    Reason::Lockout,
    Reason::T1,
    Reason::Term,
    Reason::Llif,
];

/// The number of one of a list, from 1 on.
fn number_of<T: PartialEq>(list: &[T], one: &T) -> u8 {
    let place = list.iter().position(|other| other == one);
    1 + place.expect("each has its number") as u8
}

/// The one of a list that has the number, from 1 on.
fn numbered<T: Copy>(list: &[T], number: u8) -> Option<T> {
    let place = usize::from(number).checked_sub(1)?;
    list.get(place).copied()
}

/// The octets of an answer.
pub fn answer(answer: &Answer) -> [u8; ANSWER] {
    let frame = answer.frame.as_ref().map_or(0, Vec::len) as u16;
    let mut octets = [0; ANSWER];
    octets[0] = answer.refusal;
    octets[1] = answer.row;
    octets[2] = answer.state.number();
    octets[3..5].copy_from_slice(&frame.to_be_bytes());
    octets[5] = answer.abort as u8;
    octets[6] = answer
        .alert
        .map_or(0, |alert| number_of(&ALERT_NUMBERS, &alert));
    octets[7] = answer.suspend as u8;
    octets[8] = answer.responses.len() as u8;
    assert!(answer.responses.len() <= RESPONSES);
    for (place, response) in answer.responses.iter().enumerate() {
        octets[9 + place] = number_of(&RESPONSE_NUMBERS, response);
    }
    octets[13] = answer.confirmed.first;
    octets[14] = answer.confirmed.count;
    octets[15] = answer.denied.first;
    octets[16] = answer.denied.count;
    octets[17] = answer.kind;
    octets
}

/// Reads an answer back, with the frame handed down at the front of the output; none where the
/// octets are not laid out as one.
pub fn read_answer(octets: &[u8], output: &[u8]) -> Option<Answer> {
    let octets = octets.get(..ANSWER)?;
    let (given, rest) = octets[9..13].split_at_checked(octets[8].into())?;
    let flags_hold = octets[5] <= 1 && octets[7] <= 1;
    if !flags_hold || rest.iter().any(|octet| *octet != 0) {
        return None;
    }
    let responses = given
        .iter()
        .map(|number| numbered(&RESPONSE_NUMBERS, *number));
    let frame = match (two(octets, 3), octets[17]) {
        (0, frame::NONE) => None,
        (0, _) | (_, frame::NONE) => return None,
        (length, frame::AD..=frame::BC_SET_VR) => Some(output.get(..length.into())?.to_vec()),
        _ => return None,
    };
    Some(Answer {
        refusal: octets[0],
        row: octets[1],
        state: numbered(&STATES, octets[2])?,
        frame,
        kind: octets[17],
        abort: octets[5] == 1,
        responses: responses.collect::<Option<Vec<Response>>>()?,
        alert: match octets[6] {
            0 => None,
            number => Some(numbered(&ALERT_NUMBERS, number)?),
        },
        suspend: octets[7] == 1,
        confirmed: Run {
            first: octets[13],
            count: octets[14],
        },
        denied: Run {
            first: octets[15],
            count: octets[16],
        },
    })
}

/// The number of a receiver's state.
pub fn state_number(state: farm1::State) -> u8 {
    match state {
        farm1::State::Open => 1,
        farm1::State::Wait => 2,
        farm1::State::Lockout => 3,
    }
}

/// The flags of a receiver's state in one octet.
pub fn flags(of: &Variables) -> u8 {
    4 * of.lockout_flag as u8 + 2 * of.wait_flag as u8 + of.retransmit_flag as u8
}

/// The octets of a receiver's state.
pub fn receiver_state(farm: &Farm1, spacecraft: u32, channel: u32) -> [u8; RECEIVER_STATE] {
    let [high, low] = (spacecraft as u16).to_be_bytes();
    [
        RECEIVER_MARK,
        RECEIVER_LAYOUT,
        state_number(farm.state),
        high,
        low,
        channel as u8,
        farm.window,
        farm.buffers,
        farm.taken,
        farm.v_r,
        flags(farm),
        farm.farm_b_counter,
    ]
}

/// Octets that no receiver's state has.
pub fn no_receiver_state(octets: &[u8]) -> bool {
    if octets.len() != RECEIVER_STATE {
        return true;
    }
    let (window, buffers, taken) = (octets[6], octets[7], octets[8]);
    let flag = |weight| octets[10] & weight != 0;
    let (lockout, wait, retransmit) = (flag(4), flag(2), flag(1));
    let flags_hold = match octets[2] {
        1 => !lockout && !wait,
        2 => !lockout && wait && retransmit,
        3 => lockout && (retransmit || !wait),
        _ => false,
    };
    let holds = octets[0] == RECEIVER_MARK
        && octets[1] == RECEIVER_LAYOUT
        && u32::from(two(octets, 3)) <= SPACECRAFT_MOST
        && u32::from(octets[5]) <= CHANNEL_MOST
        && (2..=254).contains(&window)
        && window % 2 == 0
        && (1..=BUFFERS_MOST).contains(&buffers)
        && taken <= buffers
        && (taken == buffers || !wait)
        && octets[10] < 8
        && flags_hold
        && octets[11] < 4;
    !holds
}

#[cfg(test)]
mod tests {
    use super::*;
    use independent::fop1::{store, Event, Settings};
    use independent::frame::FRAME_MOST;

    const DIRECTIVE: fn(usize, usize) -> Event = |number, value| Event::Directive { number, value };

    fn started() -> Sender {
        let settings = Settings {
            spacecraft: 0x2A5,
            channel: 3,
            v_s: 255,
            nn_r: 255,
            k: 2,
            t1_initial: 0x1234,
            transmission_limit: 5,
            timeout_type: 0,
        };
        Sender::start(&settings, store(2, 0)).unwrap()
    }

    /// Takes an event with room, and answers its octets.
    fn take(sender: &mut Sender, event: Event) -> [u8; ANSWER] {
        answer(&sender.take(&event, FRAME_MOST, Fault::None))
    }

    /// The first octets of a state, the others zero.
    fn whole(first: &[u8]) -> Vec<u8> {
        let mut octets = first.to_vec();
        octets.resize(SENDER_STATE, 0);
        octets
    }

    #[test]
    fn state_at_the_start() {
        let octets = whole(&[
            0x53, 2, 6, 2, 0x12, 0x34, 5, 0, 0x02, 0xA5, 3, 255, 255, 0, 0, 1, 7, 0, 0, 0, 0, 0,
        ]);
        assert_eq!(
            SenderState::read(&octets),
            Some(SenderState::of(&started()))
        );
        assert_eq!(SenderState::of(&started()).octets(), octets);
        assert!(!no_sender_state(&octets, Fault::None));
    }

    // Two units of 3 and 1,017 octets sent and resent in part, one of 1 octet waiting.
    #[test]
    fn state_with_units() {
        let mut sender = started();
        take(&mut sender, DIRECTIVE(1, 0));
        let sent = take(&mut sender, Event::AdRequest(vec![7; 3]));
        assert_eq!(
            sent,
            [0, 19, 1, 0, 10, 0, 0, 0, 1, 1, 0, 0, 0, 0, 0, 0, 0, 1]
        );
        take(&mut sender, Event::AdRequest(vec![8; UNIT_MOST]));
        let sent = take(&mut sender, Event::AdAccept);
        assert_eq!(
            sent,
            [0, 41, 1, 4, 0, 0, 0, 0, 1, 1, 0, 0, 0, 0, 0, 0, 0, 1]
        );
        take(&mut sender, Event::AdRequest(vec![9]));
        take(&mut sender, Event::AdAccept);
        let resent = take(&mut sender, Event::ControlWord(vec![1, 0x0C, 8, 255]));
        assert_eq!(
            resent,
            [0, 10, 2, 0, 10, 1, 0, 0, 0, 0, 0, 0, 0, 0, 0, 0, 0, 1]
        );
        let octets = whole(&[
            0x53, 2, 2, 2, 0x12, 0x34, 5, 0, 0x02, 0xA5, 3, 1, 255, 0x12, 0x34, 2, 14, 0, 2, 1, 0,
            0, 0, 3, 3, 249, 0, 1,
        ]);
        let state = SenderState::of(&sender);
        assert_eq!(state.octets(), octets);
        assert_eq!(SenderState::read(&octets), Some(state.clone()));
        assert_eq!(state.marks, [false, true]);
        assert!(!no_sender_state(&octets, Fault::None));
        let mut store = vec![0; sender.store()];
        put_stored(&sender, &mut store);
        assert_eq!(store[..5], [7, 7, 7, 0, 0]);
        let next = [&[0][..], &[8; UNIT_MOST], &[9, 0]].concat();
        assert_eq!(store[UNIT_MOST - 1..2 * UNIT_MOST + 2], next);

        let ended = take(&mut sender, DIRECTIVE(5, 0));
        assert_eq!(
            ended,
            [0, 29, 6, 0, 0, 0, 7, 0, 3, 5, 2, 7, 0, 0, 0, 255, 2, 0]
        );
    }

    /// The answer's octets read back.
    fn reads_back(given: &Answer) -> bool {
        let octets = answer(given);
        let output = given.frame.clone().unwrap_or_default();
        read_answer(&octets, &output).as_ref() == Some(given)
    }

    #[test]
    fn answers_read_back() {
        let mut sender = started();
        let events = [
            DIRECTIVE(4, 200),
            Event::BcAccept,
            Event::ControlWord(vec![1, 0x0C, 0, 200]),
            Event::AdRequest(vec![7; 3]),
            Event::BdRequest(vec![7; UNIT_MOST]),
            Event::AdAccept,
            Event::AdRequest(vec![8]),
            Event::AdRequest(vec![9]),
            Event::AdRequest(Vec::new()),
            Event::AdAccept,
            Event::ControlWord(vec![1, 0x0C, 8, 201]),
            DIRECTIVE(12, 0),
            DIRECTIVE(5, 0),
        ];
        let mut given = Vec::new();
        for event in &events {
            let answer = sender.take(event, FRAME_MOST, Fault::None);
            assert!(reads_back(&answer), "{answer:?}");
            given.push(answer);
        }
        let (aborts, ends) = (&given[10], &given[12]);
        assert!(aborts.abort && aborts.confirmed.count == 1 && ends.denied.count == 1);
        let octets = answer(aborts);
        let output = aborts.frame.clone().unwrap();
        assert_eq!(read_answer(&octets[..ANSWER - 1], &output), None);
        assert_eq!(read_answer(&octets, &output[1..]), None);
        let bad_octets = [
            [(2, 0), (2, 7), (4, 0), (5, 2), (6, 9)],
            [(7, 2), (8, 1), (8, 5), (9, 1), (17, 5)],
        ];
        for (place, octet) in bad_octets.into_iter().flatten() {
            let mut octets = octets;
            octets[place] = octet;
            assert_eq!(read_answer(&octets, &output), None, "{place} {octet}");
        }
        for (place, reason) in ALERT_NUMBERS.iter().enumerate() {
            let mut octets = octets;
            octets[6] = place as u8 + 1;
            let read = read_answer(&octets, &output).unwrap();
            assert_eq!((read.alert, answer(&read)), (Some(*reason), octets));
        }
    }

    // Three units of 3, 1,017 and 1 octets, the last one waiting, V(S) 1.
    #[test]
    fn held_by_state_and_store() {
        let mut state = whole(&[
            0x53, 2, 1, 2, 0x12, 0x34, 5, 0, 0x02, 0xA5, 3, 1, 255, 0x12, 0x34, 1, 14, 0, 2, 0, 0,
            0, 0, 3, 3, 249, 0, 1,
        ]);
        let mut store = vec![0; 2 * UNIT_MOST + 1];
        store[..3].copy_from_slice(&[7; 3]);
        store[UNIT_MOST..2 * UNIT_MOST].copy_from_slice(&[8; UNIT_MOST]);
        store[2 * UNIT_MOST] = 9;
        let units = Held {
            outstanding: vec![(255, &[7; 3]), (0, &[8; UNIT_MOST])],
            waiting: vec![&[9]],
        };
        assert_eq!(held(&state, &store), Some(units));
        assert_eq!(held(&state, &store[..2 * UNIT_MOST]), None);
        assert_eq!(held(&state[1..], &store), None);
        state[16] -= 8;
        let sent = held(&state, &store).unwrap();
        assert_eq!((sent.outstanding.len(), sent.waiting.len()), (2, 0));
        let none = SenderState::of(&started()).octets();
        let nothing = held(&none, &[]).unwrap();
        assert!(nothing.outstanding.is_empty() && nothing.waiting.is_empty());
    }

    #[test]
    fn state_with_a_command() {
        let mut sender = started();
        let sent = take(&mut sender, DIRECTIVE(4, 200));
        assert_eq!(
            sent,
            [0, 27, 5, 0, 10, 0, 0, 0, 1, 5, 0, 0, 0, 0, 0, 0, 0, 4]
        );
        let mut octets = whole(&[
            0x53, 2, 5, 2, 0x12, 0x34, 5, 0, 0x02, 0xA5, 3, 200, 200, 0x12, 0x34, 1, 5, 0, 0, 0, 2,
            200,
        ]);
        let state = SenderState::of(&sender);
        assert_eq!(state.octets(), octets);
        assert_eq!(SenderState::read(&octets), Some(state));
        let bad_octets = [
            [(0, 0x52), (1, 1), (2, 0), (2, 7), (3, 0), (3, 128)],
            [(6, 0), (8, 4), (10, 64), (16, 64), (16, 32), (18, 1)],
            [(7, 2), (15, 0), (17, 1), (19, 1), (20, 3), (22, 4)],
            [(2, 1), (2, 6), (7, 255), (17, 4), (20, 0), (16, 13)],
        ];
        for (place, octet) in bad_octets.into_iter().flatten() {
            let good = std::mem::replace(&mut octets[place], octet);
            assert!(no_sender_state(&octets, Fault::None));
            octets[place] = good;
        }
        assert!(!no_sender_state(&octets, Fault::None));
        assert!(no_sender_state(&octets[..SENDER_STATE - 1], Fault::None));
        assert_eq!(SENDER_STATE, 278);
        for cut in [true, false] {
            let former = in_former_layout(&octets, cut);
            assert!(no_sender_state(&former, Fault::None) && is_former_layout(&former));
        }
        // Any two numbers are a sender's.
        octets[11] = 233;
        assert!(!no_sender_state(&octets, Fault::None));
    }

    // One unit of 3 octets sent and to be sent again, one of 1 octet waiting; suspended in S1.
    #[test]
    fn state_of_a_suspended_sender() {
        let mut sender = started();
        take(&mut sender, DIRECTIVE(8, 1));
        take(&mut sender, DIRECTIVE(9, 1));
        take(&mut sender, DIRECTIVE(10, 2));
        assert_eq!(take(&mut sender, DIRECTIVE(11, 1))[..2], [0, 39]);
        take(&mut sender, DIRECTIVE(1, 0));
        take(&mut sender, Event::AdRequest(vec![7; 3]));
        take(&mut sender, Event::AdRequest(vec![9]));
        assert_eq!(take(&mut sender, Event::Tick)[..3], [0, 104, 1]);
        let suspended = take(&mut sender, Event::Tick);
        assert_eq!(
            suspended,
            [0, 18, 6, 0, 0, 0, 0, 1, 0, 0, 0, 0, 0, 0, 0, 0, 0, 0]
        );
        let octets = whole(&[
            0x53, 2, 6, 1, 0, 1, 2, 1, 0x02, 0xA5, 3, 0, 255, 0, 0, 2, 14, 1, 1, 1, 0, 0, 0, 3, 0,
            1,
        ]);
        assert_eq!(SenderState::of(&sender).octets(), octets);
        assert!(no_sender_state(&octets, Fault::SuspendedStateRefused));
        let is_state = |places: &[(usize, u8)]| {
            let mut octets = octets.clone();
            for (place, octet) in places {
                octets[*place] = *octet;
            }
            !no_sender_state(&octets, Fault::None)
        };
        // As it is, in S2 and S3, with Timeout_Type 0, with one unit alone, with nothing.
        let (none_sent, none_waiting) = ([(18, 0), (19, 0)], (16, 6));
        let [sent, marked] = none_sent;
        for places in [
            &[][..],
            &[(17, 2)],
            &[(17, 3)],
            &[(7, 0)],
            &[none_waiting],
            &none_sent,
            &[sent, marked, none_waiting],
            &[sent, marked, none_waiting, (17, 4)],
            &[sent, marked, none_waiting, (17, 0)],
        ] {
            assert!(is_state(places), "{places:?}");
        }
        // Suspend_State over 4, not 0 outside S6, 4 with a unit sent or waiting, a running timer in
        // S6, units in S6 without a suspension, a type-BC frame, Timeout_Type 2.
        for places in [
            &[(17, 5)][..],
            &[(17, 255)],
            &[(2, 1)],
            &[(2, 2), (17, 2)],
            &[(2, 1), (17, 3)],
            &[sent, marked, none_waiting, (17, 4), (2, 4)],
            &[sent, marked, none_waiting, (2, 5), (20, 1)],
            &[(17, 4), none_waiting],
            &[(17, 4), sent, marked],
            &[(14, 1)],
            &[(13, 1)],
            &[sent, marked, none_waiting, (17, 0), (14, 1)],
            &[(17, 0), none_waiting],
            &[(17, 0), sent, marked],
            &[(20, 1)],
            &[(7, 2)],
        ] {
            assert!(!is_state(places), "{places:?}");
        }
    }

    #[test]
    fn state_of_a_receiver() {
        let mut farm = Farm1::start(20, 250, 1).unwrap();
        farm.take(farm1::Arrival::Ad(250), Fault::None).unwrap();
        farm.take(farm1::Arrival::Ad(251), Fault::None).unwrap();
        farm.take(farm1::Arrival::Bd, Fault::None).unwrap();
        let mut octets = receiver_state(&farm, 0x2A5, 3);
        assert_eq!(octets, [0x52, 1, 2, 0x02, 0xA5, 3, 20, 1, 1, 251, 3, 1]);
        assert!(!no_receiver_state(&octets));
        octets[8] = 0;
        assert!(no_receiver_state(&octets));
    }
}
