//! Senders that give a wrong account of their AD units (document 02, order 11), in all else as
//! Table 7-8 says. Each takes the library's place, so that the ledger alone can find it.

use crate::fault::{Fault, LEDGER_FAULTS};
use crate::fop1::{Answer, Event, Response, Run, Sender};

pub struct StandIn {
    pub sender: Sender,
    /// The last run of confirmed units.
    confirmed: Run,
    fault: Fault,
}

impl StandIn {
    /// None where the fault is none of these.
    pub fn of(sender: &Sender, fault: Fault) -> Option<StandIn> {
        let is_one = LEDGER_FAULTS.iter().any(|one| one.1 == fault);
        is_one.then(|| StandIn {
            sender: sender.clone(),
            confirmed: Run::default(),
            fault,
        })
    }

    /// Takes an event with so long a store and so much room for a frame lent.
    pub fn take(&mut self, event: &Event, lent: usize, room: usize) -> Answer {
        let waiting = self.sender.wait_queue.clone();
        let sender = &mut self.sender;
        let mut answer = sender.take_with_store(event, lent, room, Fault::None);
        match self.fault {
            Fault::LedgerKeepsWaiting if answer.alert.is_some() => {
                sender.wait_queue = waiting;
                answer.responses.retain(|one| *one != Response::AdReject);
            }
            Fault::LedgerConfirmsTwice if answer.row != 0 => self.confirm_twice(event, &mut answer),
            Fault::LedgerForgetsDenied => answer.denied = without_last(answer.denied),
            Fault::LedgerWaitingUnanswered if !matches!(event, Event::AdRequest(_)) => {
                let of_ad = [Response::AdAccept, Response::AdReject];
                answer.responses.retain(|one| !of_ad.contains(one));
            }
            _ => (),
        }
        answer
    }

    /// A control word that confirms nothing confirms again what the last one did.
    fn confirm_twice(&mut self, event: &Event, answer: &mut Answer) {
        if answer.confirmed.count > 0 {
            self.confirmed = answer.confirmed;
        } else if matches!(event, Event::ControlWord(_)) {
            answer.confirmed = self.confirmed;
        }
    }
}

fn without_last(run: Run) -> Run {
    match run.count {
        0 | 1 => Run::default(),
        count => Run {
            count: count - 1,
            ..run
        },
    }
}
