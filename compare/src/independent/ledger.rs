//! Every AD unit accounted for (document 02, order 11), over the events of one fresh sender, each
//! given what the last left: "each counted from the list of events and their answers alone, where
//! a unit is known by its place in that list". What a sender holds is compared with the ledger,
//! never read into it. Checked after each event.

use crate::fop1::{Answer, Event, Response, Run, Sender};
use crate::frame::{self, Content};
use crate::refusal::DONE;
use crate::session::carried;
use crate::session_check::{claim, Claim};

#[path = "ledger_cases.rs"]
mod cases;

pub use cases::Met;

/// An AD request, and how often each was told of its unit.
struct Request {
    /// Its place in the list of events.
    place: usize,
    unit: Vec<u8>,
    rejected: usize,
    accepted: usize,
}

impl Request {
    fn is_waiting(&self) -> bool {
        self.rejected + self.accepted == 0
    }
}

/// An accepted unit, and how often each was told of it.
struct Accepted {
    /// Which of the requests it is of.
    request: usize,
    /// The place in the list of the event that tells it.
    place: usize,
    /// N(S) of the frame that was handed down.
    number: u8,
    confirmed: usize,
    denied: usize,
}

impl Accepted {
    fn is_outstanding(&self) -> bool {
        self.confirmed + self.denied == 0
    }
}

/// What an event told.
#[derive(Default)]
struct Told {
    /// By the order of acceptance, for these three.
    confirmed: Vec<usize>,
    denied: Vec<usize>,
    accepted: Vec<usize>,
    /// By the order of the requests.
    rejected: Vec<usize>,
}

/// The units that are somewhere held.
#[derive(Clone, PartialEq, Eq, Debug)]
pub struct Held<'a> {
    /// By number and octets, the one accepted first in front.
    pub outstanding: Vec<(u8, &'a [u8])>,
    pub waiting: Vec<&'a [u8]>,
}

impl Held<'_> {
    /// By the queues of a sender.
    pub fn by_queues(sender: &Sender) -> Held<'_> {
        let unit = |content| match content {
            &Content::Ad {
                number, ref unit, ..
            } => Some((number as u8, &unit[..])),
            _ => None,
        };
        let sent = sender.sent_queue.iter();
        Held {
            outstanding: sent.filter_map(|frame| unit(&frame.content)).collect(),
            waiting: sender.wait_queue.iter().map(|unit| &unit[..]).collect(),
        }
    }
}

/// How many units there are of each.
#[derive(Clone, Copy, PartialEq, Eq, Debug, Default)]
pub struct Counts {
    pub offered: usize,
    pub rejected: usize,
    pub waiting: usize,
    pub confirmed: usize,
    pub denied: usize,
    pub outstanding: usize,
}

/// The ledger of one sender.
pub struct Ledger {
    /// Spacecraft and channel, by which frames are read.
    address: (u32, u32),
    /// So many events came.
    pub events: usize,
    /// In the order of the list.
    requests: Vec<Request>,
    /// In the order of acceptance.
    accepted: Vec<Accepted>,
    /// The confirms and denials as they come, by the order of acceptance.
    decided: Vec<usize>,
    pub met: Met,
}

fn is_of_ad(response: &Response) -> bool {
    matches!(response, Response::AdAccept | Response::AdReject)
}

/// No AD unit is sent, accepted, rejected, confirmed or denied.
fn tells_of_no_unit(answer: &Answer) -> bool {
    answer.kind != frame::AD
        && !answer.responses.iter().any(is_of_ad)
        && answer.confirmed == Run::default()
        && answer.denied == Run::default()
}

impl Ledger {
    /// Of a fresh sender with this address.
    pub fn fresh(spacecraft: u32, channel: u32) -> Ledger {
        Ledger {
            address: (spacecraft, channel),
            events: 0,
            requests: Vec::new(),
            accepted: Vec::new(),
            decided: Vec::new(),
            met: Met::default(),
        }
    }

    /// Reads the next event of the list, none where the lower layer has not its number, with the
    /// number that it is answered with, and the answer where one is given.
    pub fn take(&mut self, event: Option<&Event>, number: u8, answer: Option<&Answer>) -> Claim {
        let offered = match event {
            Some(Event::AdRequest(unit)) => Some(self.offer(unit)),
            _ => None,
        };
        let told = match number {
            DONE => {
                let answer = answer.ok_or("an event that is done is answered")?;
                self.read(offered, answer)?
            }
            _ => {
                let nothing = answer.is_none_or(tells_of_no_unit);
                claim(nothing, "a refused event tells of no AD unit")?;
                self.refuse(offered)
            }
        };
        self.meet(event, (number, answer), offered, &told);
        self.events += 1;
        Ok(())
    }

    /// A request of the event that is next in the list.
    fn offer(&mut self, unit: &[u8]) -> usize {
        self.requests.push(Request {
            place: self.events,
            unit: unit.to_vec(),
            rejected: 0,
            accepted: 0,
        });
        self.requests.len() - 1
    }

    /// "A request refused by number counts as rejected."
    fn refuse(&mut self, offered: Option<usize>) -> Told {
        let mut told = Told::default();
        if let Some(request) = offered {
            self.requests[request].rejected += 1;
            told.rejected.push(request);
        }
        told
    }

    /// What an answer tells: the confirmed run, the denied run, and of the responses those to AD
    /// requests. At its own request's event one speaks of the unit offered, at any other of the
    /// unit waiting.
    fn read(&mut self, offered: Option<usize>, answer: &Answer) -> Result<Told, String> {
        let mut told = Told {
            confirmed: self.run(answer.confirmed)?,
            ..Told::default()
        };
        for unit in &told.confirmed {
            self.accepted[*unit].confirmed += 1;
        }
        told.denied = self.run(answer.denied)?;
        for unit in &told.denied {
            self.accepted[*unit].denied += 1;
        }
        self.decided.extend(&told.confirmed);
        self.decided.extend(&told.denied);
        for response in answer.responses.iter().filter(|one| is_of_ad(one)) {
            let spoken_of = offered.or_else(|| self.waiting());
            let request = spoken_of.ok_or("an AD response is to a request, or to one waiting")?;
            if *response == Response::AdAccept {
                self.accept(request, answer)?;
                told.accepted.push(self.accepted.len() - 1);
            } else {
                self.requests[request].rejected += 1;
                told.rejected.push(request);
            }
        }
        Ok(told)
    }

    fn waiting(&self) -> Option<usize> {
        self.requests.iter().position(Request::is_waiting)
    }

    /// The units of a run, "a number meaning the unit last" accepted "with it by then" (document
    /// 01, The session).
    fn run(&self, run: Run) -> Result<Vec<usize>, String> {
        let numbers = (0..run.count).map(|step| run.first.wrapping_add(step));
        let last_with = |number| self.accepted.iter().rposition(|unit| unit.number == number);
        let units = numbers.map(last_with).collect::<Option<Vec<usize>>>();
        units.ok_or("the units of a run are accepted ones".to_string())
    }

    /// An accepted unit gets its number in the frame that is handed down.
    fn accept(&mut self, request: usize, answer: &Answer) -> Claim {
        let (spacecraft, channel) = self.address;
        let frame = answer.frame.as_ref();
        let frame = frame.and_then(|octets| carried(octets, spacecraft, channel));
        let frame = frame.filter(|frame| frame.kind == frame::AD);
        let frame = frame.ok_or("an accepted unit is handed down in an AD frame")?;
        let accepted = &mut self.requests[request];
        claim(
            frame.data == accepted.unit,
            "the AD frame handed down carries the unit accepted",
        )?;
        accepted.accepted += 1;
        self.accepted.push(Accepted {
            request,
            place: self.events,
            number: frame.value,
            confirmed: 0,
            denied: 0,
        });
        Ok(())
    }

    /// Each counted from the list.
    pub fn counts(&self) -> Counts {
        let (requests, accepted) = (&self.requests, &self.accepted);
        Counts {
            offered: requests.len(),
            rejected: requests.iter().map(|request| request.rejected).sum(),
            waiting: requests.iter().filter(|one| one.is_waiting()).count(),
            confirmed: accepted.iter().map(|unit| unit.confirmed).sum(),
            denied: accepted.iter().map(|unit| unit.denied).sum(),
            outstanding: accepted.iter().filter(|one| one.is_outstanding()).count(),
        }
    }

    /// The units that must be held: those waiting in the order of the list, those outstanding in
    /// the order of acceptance.
    fn held(&self) -> Held<'_> {
        let waiting = self.requests.iter().filter(|one| one.is_waiting());
        let outstanding = self.accepted.iter().filter(|one| one.is_outstanding());
        Held {
            outstanding: outstanding
                .map(|unit| (unit.number, &self.requests[unit.request].unit[..]))
                .collect(),
            waiting: waiting.map(|request| &request.unit[..]).collect(),
        }
    }

    /// The claims of order 11 after the last event, with what the sender's state and store then
    /// hold, and what the queues of Table 7-8 hold, run over the same events.
    pub fn check(&self, by_state: &Held, by_table: &Held) -> Claim {
        let one_of = |[a, b, c]: [usize; 3]| a + b + c == 1;
        claim(
            self.requests
                .iter()
                .all(|one| one_of([one.rejected, one.accepted, one.is_waiting().into()])),
            "every request is rejected, accepted, or waiting, and never two of these",
        )?;
        claim(
            self.accepted
                .iter()
                .all(|one| one_of([one.confirmed, one.denied, one.is_outstanding().into()])),
            "every accepted one is confirmed once, denied once, or outstanding",
        )?;
        claim(
            self.decided.windows(2).all(|two| two[0] < two[1]),
            "confirms and denials come in the order of acceptance",
        )?;
        let counts = self.counts();
        let sum = counts.rejected + counts.waiting + counts.confirmed;
        claim(
            counts.offered == sum + counts.denied + counts.outstanding,
            "offered is rejected, waiting, confirmed, denied and outstanding together",
        )?;
        let held = self.held();
        claim(
            held.outstanding == by_state.outstanding,
            "those outstanding are held by state and store, in that order",
        )?;
        claim(
            held.waiting == by_state.waiting,
            "the one waiting is held by state and store",
        )?;
        claim(
            held.outstanding == by_table.outstanding,
            "those outstanding are on the table's Sent_Queue, in that order",
        )?;
        claim(
            held.waiting == by_table.waiting,
            "the one waiting is on the table's Wait_Queue",
        )
    }
}

#[cfg(test)]
#[path = "ledger_tests.rs"]
mod tests;
