//! The library's sender: its state, its store, and what it must be after an event.

use super::{compare_numbers, compare_octets};
use crate::library::{self, SenderEvent, SenderMemory, SenderSettings};
use crate::octets::{self, no_sender_state, SenderState, ANSWER, SENDER_STATE};
use crate::random::Random;
use independent::fault::Fault;
use independent::fop1::{self, Answer, Sender, UNIT_MOST};
use independent::refusal::{DONE, ROOM, SETTING};

/// Between the events. Of the store only the octets that the state needs are kept: what a host
/// has behind them may change.
#[derive(Clone)]
pub struct SenderEnd {
    pub state: Vec<u8>,
    pub store: Vec<u8>,
}

/// A call of the library: the memory before and after it, and its number.
pub struct Call {
    pub event: SenderEvent,
    event_after: SenderEvent,
    pub before: SenderMemory,
    pub after: SenderMemory,
    pub number: u8,
}

/// What the call must give. Without an answer nothing may change.
pub struct Expected {
    pub number: u8,
    pub answer: Option<Answer>,
}

/// The event of the independent sender, none for a number that the lower layer has not.
pub fn independent_event(event: &SenderEvent) -> Option<fop1::Event> {
    Some(match event {
        SenderEvent::RequestAd(unit) => fop1::Event::AdRequest(unit.clone()),
        SenderEvent::RequestBd(unit) => fop1::Event::BdRequest(unit.clone()),
        SenderEvent::Directive { number, value } => fop1::Event::Directive {
            number: *number as usize,
            value: *value as usize,
        },
        SenderEvent::Tick => fop1::Event::Tick,
        SenderEvent::LowerLayer(1) => fop1::Event::AdAccept,
        SenderEvent::LowerLayer(2) => fop1::Event::AdReject,
        SenderEvent::LowerLayer(3) => fop1::Event::BcAccept,
        SenderEvent::LowerLayer(4) => fop1::Event::BcReject,
        SenderEvent::LowerLayer(5) => fop1::Event::BdAccept,
        SenderEvent::LowerLayer(6) => fop1::Event::BdReject,
        SenderEvent::LowerLayer(_) => return None,
        SenderEvent::ControlWord(word) => fop1::Event::ControlWord(word.clone()),
    })
}

/// A new sender of the library, compared with the independent one. Both must refuse it
/// alike, or both give it: no sender where they refuse, or differ.
pub fn start(
    settings: &SenderSettings,
    store: Vec<u8>,
    state: Vec<u8>,
) -> (u8, Option<(SenderEnd, Sender)>, Vec<String>) {
    let mut after = SenderEnd {
        state: state.clone(),
        store: store.clone(),
    };
    let number = library::sender_new(settings, &mut after.store, &mut after.state);
    let started = Sender::start(&settings.independent(), store.len());
    let expected = match &started {
        Err(refusal) => *refusal,
        Ok(_) if state.len() < SENDER_STATE => ROOM,
        Ok(_) => DONE,
    };
    let mut differences = Vec::new();
    compare_numbers(number, expected, &mut differences);
    compare_octets("store", &after.store, &store, &mut differences);
    let sender = match started {
        Ok(sender) if expected == DONE => sender,
        _ => {
            compare_octets("state", &after.state, &state, &mut differences);
            return (number, None, differences);
        }
    };
    compare_state(&sender, &after.state, &state, &mut differences);
    after.state.truncate(SENDER_STATE);
    after.store.truncate(sender.store());
    let pair = differences.is_empty().then_some((after, sender));
    (number, pair, differences)
}

impl SenderEnd {
    /// What is lent for an event, with so long a store, output and answer.
    pub fn memory(&self, random: &mut Random, [store, output, answer]: [usize; 3]) -> SenderMemory {
        let kept = self.store.len().min(store);
        let mut lent = self.store[..kept].to_vec();
        lent.extend(random.octets(store - kept));
        SenderMemory {
            state: self.state.clone(),
            store: lent,
            output: random.octets(output),
            answer: random.octets(answer),
        }
    }

    /// The state becomes that after the call, and the store the octets that the sender needs after
    /// it. Where the call is refused nothing changes.
    pub fn keep(&mut self, call: Call, sender: &Sender) {
        if call.number == DONE {
            self.state = call.after.state;
            self.store = call.after.store;
            self.store.truncate(sender.store());
        }
    }
}

pub fn call(event: &SenderEvent, memory: SenderMemory) -> Call {
    let mut event_after = event.clone();
    let mut after = memory.clone();
    let number = library::sender_event(&mut event_after, &mut after);
    Call {
        event: event.clone(),
        event_after,
        before: memory,
        after,
        number,
    }
}

impl Call {
    /// What must come of a call that doesn't reach the sender: 12 for a number that the
    /// lower layer has not and for octets that are no state, 11 for the answer's room.
    pub fn refused_at_once(&self, fault: Fault) -> Option<Expected> {
        let unknown = independent_event(&self.event).is_none();
        let number = if unknown || no_sender_state(&self.before.state, fault) {
            SETTING
        } else if self.before.answer.len() < ANSWER {
            ROOM
        } else {
            return None;
        };
        Some(Expected {
            number,
            answer: None,
        })
    }

    /// The differences from what is expected, with the independent sender after the
    /// event.
    pub fn differences(&self, expected: &Expected, sender: &Sender) -> Vec<String> {
        let mut differences = Vec::new();
        let (before, after) = (&self.before, &self.after);
        compare_numbers(self.number, expected.number, &mut differences);
        if !differences.is_empty() {
            return differences;
        }
        if self.event != self.event_after {
            differences.push("the input is changed".to_string());
        }
        let mut answer = before.answer.clone();
        let mut output = before.output.clone();
        if let Some(expected) = &expected.answer {
            answer[..ANSWER].copy_from_slice(&octets::answer(expected));
            if let Some(frame) = &expected.frame {
                output[..frame.len()].copy_from_slice(frame);
            }
        }
        compare_octets("answer", &after.answer, &answer, &mut differences);
        compare_octets("output", &after.output, &output, &mut differences);
        if expected.number == DONE {
            compare_state(sender, &after.state, &before.state, &mut differences);
            let run = expected.answer.as_ref().map(|answer| answer.confirmed);
            let confirmed = run.map_or(0, |run| usize::from(run.count));
            compare_store(sender, confirmed, (before, after), &mut differences);
        } else {
            compare_octets("state", &after.state, &before.state, &mut differences);
            compare_octets("store", &after.store, &before.store, &mut differences);
        }
        differences
    }

    /// The frame handed down, as the answer's octets say.
    pub fn frame(&self) -> Option<Vec<u8>> {
        let answer = &self.after.answer;
        match u16::from_be_bytes([answer[3], answer[4]]) as usize {
            0 => None,
            octets => Some(self.after.output[..octets].to_vec()),
        }
    }

    pub fn show(&self, expected: &Expected, before: &Sender) -> String {
        let (lent, answer) = (&self.before, &self.after.answer);
        format!(
            "  event: {:?}\n  lent: state {}, store {}, output {}, answer {}\n  before: {:?}\n  expected: {}, {:?}\n  library: {}, answer {:?}\n  library's state: {:?}\n",
            self.event,
            lent.state.len(),
            lent.store.len(),
            lent.output.len(),
            lent.answer.len(),
            SenderState::of(before),
            expected.number,
            expected.answer,
            self.number,
            &answer[..answer.len().min(ANSWER)],
            SenderState::read(&self.after.state),
        )
    }
}

/// The state's octets, read back; those behind it untouched.
fn compare_state(sender: &Sender, after: &[u8], before: &[u8], differences: &mut Vec<String>) {
    let state = SenderState::read(&after[..SENDER_STATE]);
    let expected = SenderState::of(sender);
    if state.as_ref() != Some(&expected) {
        differences.push(format!(
            "state: library {state:?}\n      independent {expected:?}"
        ));
    }
    if after[SENDER_STATE..] != before[SENDER_STATE..] {
        differences.push("octets behind the state are changed".to_string());
    }
}

/// The store after an event that confirms so many units. Of the units that were held the others move
/// down, the oldest first, and of each only its own octets; a unit that is added stands at its place.
/// Every other octet is as it was.
fn compare_store(
    sender: &Sender,
    confirmed: usize,
    (before, after): (&SenderMemory, &SenderMemory),
    differences: &mut Vec<String>,
) {
    let held = SenderState::read(&before.state[..SENDER_STATE]).map(|state| state.lengths);
    let held = held.unwrap_or_default();
    // Behind the places of both nothing is expected to change.
    let places = held.len().max(sender.stored().len()) * UNIT_MOST;
    let (front, behind) = before.store.split_at(places);
    let mut expected = front.to_vec();
    for (place, length) in held.iter().skip(confirmed).enumerate() {
        let unit = (place + confirmed) * UNIT_MOST;
        expected.copy_within(unit..unit + usize::from(*length), place * UNIT_MOST);
    }
    octets::put_stored(sender, &mut expected);
    let (front, behind_after) = after.store.split_at(places);
    compare_octets("store", front, &expected, differences);
    compare_octets("store behind the units", behind_after, behind, differences);
}
