//! The ledger of a run from a fresh sender, kept from the octets that the library answers with, or
//! those of a sender with a fault in its place.

use super::sender_end::{independent_event, Call, SenderEnd};
use crate::library::SenderMemory;
use crate::octets::{self, held, put_stored, read_answer, SenderState, ANSWER};
use independent::fault::Fault;
use independent::fop1::{Event, Sender};
use independent::ledger::{Held, Ledger};
use independent::refusal::DONE;
use independent::session_check::Claim;
use independent::stand_in::StandIn;

pub struct Account {
    pub ledger: Ledger,
    stand_in: Option<StandIn>,
}

impl Account {
    /// Of a fresh sender.
    pub fn of(sender: &Sender, fault: Fault) -> Account {
        Account {
            ledger: Ledger::fresh(sender.spacecraft, sender.channel),
            stand_in: StandIn::of(sender, fault),
        }
    }

    /// Takes an event that was given what the last left, with the library's memory between the
    /// events before it, and checks the claims, with the independent sender after it.
    pub fn check(&mut self, call: &Call, end: &SenderEnd, sender: &Sender) -> Claim {
        let event = independent_event(&call.event);
        // Otherwise the number alone is answered (include/pondreszi.h).
        let judged = event.as_ref();
        let judged = judged.filter(|_| call.before.answer.len() >= ANSWER);
        let stood_in = self.stand_in.as_mut();
        let stood_in = stood_in.map(|stand_in| memory_of(stand_in, judged, call));
        let (number, after) = match &stood_in {
            Some((number, memory)) => (*number, memory),
            None => (call.number, &call.after),
        };
        let answer = match judged {
            None => None,
            Some(_) => {
                let answer = read_answer(&after.answer, &after.output);
                Some(answer.ok_or("the octets are an answer's")?)
            }
        };
        self.ledger.take(event.as_ref(), number, answer.as_ref())?;
        // What the library was lent with an event that it refused is not what is kept.
        let (state, store) = match stood_in.is_some() || number == DONE {
            true => (&after.state, &after.store),
            false => (&end.state, &end.store),
        };
        let by_state = held(state, store).ok_or("state and store hold units")?;
        self.ledger.check(&by_state, &Held::by_queues(sender))
    }
}

/// The number and the octets that a sender in the library's place gives.
fn memory_of(stand_in: &mut StandIn, judged: Option<&Event>, call: &Call) -> (u8, SenderMemory) {
    let (lent, room) = (call.before.store.len(), call.before.output.len());
    let answer = judged.map(|event| stand_in.take(event, lent, room));
    let number = answer.as_ref().map_or(call.number, |answer| answer.refusal);
    let sender = &stand_in.sender;
    let mut store = vec![0; sender.store()];
    put_stored(sender, &mut store);
    let memory = SenderMemory {
        state: SenderState::of(sender).octets(),
        store,
        answer: answer.iter().flat_map(octets::answer).collect(),
        output: answer.and_then(|answer| answer.frame).unwrap_or_default(),
    };
    (number, memory)
}
