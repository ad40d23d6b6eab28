//! The cases of a ledger that were met: what becomes of units, and at which events.

use super::{Accepted, Ledger, Told};
use crate::fop1::{Answer, Event, Response};
use crate::refusal::{LENGTH, ROOM};
use crate::table_7_8::Reason;

/// The numbers of the directives (document 01, FOP-1).
const INITIATE_LAST: usize = 4;
const INITIATE_WITH_SET_VR: usize = 4;
const RESUME: usize = 6;
const SET_V_S: usize = 7;

const CASES: [&str; 29] = [
    "accepted at its request",
    "left waiting at its request",
    "rejected at its request, none waiting",
    "rejected at its request, one waiting",
    "rejected at its request while suspended",
    "refused by 10",
    "refused by 11",
    "refused by 11, no room for the answer",
    "refused by number, one waiting",
    "waiting, another event refused",
    "waiting, accepted at AD_Accept",
    "waiting, accepted at a control word",
    "waiting, accepted after a suspension",
    "waiting, rejected at an alert while suspended",
    "waiting, rejected by Initiate while suspended",
    "one confirmed",
    "several confirmed",
    "confirmed after a suspension",
    "confirmed and accepted in one event",
    "confirmed and denied in one event",
    "confirmed, denied and rejected in one event",
    "denied and rejected in one event",
    "denied at an alert while suspended",
    "denied by Initiate while suspended",
    "a run from 255 to 0",
    "number used again after Initiate with Set V(R)",
    "number used again after Set V(S)",
    "number used again after 256 units",
    "told of a number used again",
];

const REASONS: [Reason; 8] = [
    Reason::Limit,
    Reason::T1,
    Reason::Lockout,
    Reason::Synch,
    Reason::NnR,
    Reason::Clcw,
    Reason::Llif,
    Reason::Term,
];

fn rejected_at(reason: Reason) -> String {
    format!("waiting, rejected at Alert[{reason:?}]")
}

fn denied_at(reason: Reason) -> String {
    format!("denied at Alert[{reason:?}]")
}

/// How often each case was met, and what of the list before tells the cases apart.
pub struct Met {
    counts: Vec<(String, usize)>,
    suspended: bool,
    /// The places of the last suspension, and of the last accepted directives that set V(S).
    suspended_at: Option<usize>,
    set_v_r_at: Option<usize>,
    set_v_s_at: Option<usize>,
}

impl Default for Met {
    fn default() -> Met {
        let cases = CASES.map(str::to_string).into_iter();
        let at_alerts = REASONS.map(rejected_at).into_iter();
        let all = cases.chain(at_alerts).chain(REASONS.map(denied_at));
        Met {
            counts: all.map(|name| (name, 0)).collect(),
            suspended: false,
            suspended_at: None,
            set_v_r_at: None,
            set_v_s_at: None,
        }
    }
}

impl Met {
    /// Each with its name.
    pub fn named(&self) -> &[(String, usize)] {
        &self.counts
    }

    fn meet(&mut self, name: &str) {
        let case = self.counts.iter_mut().find(|case| case.0 == name);
        case.expect("a case").1 += 1;
    }

    fn meet_if(&mut self, holds: bool, name: &str) {
        if holds {
            self.meet(name);
        }
    }
}

impl Ledger {
    /// The event that is next in the list was read.
    pub(super) fn meet(
        &mut self,
        event: Option<&Event>,
        (number, answer): (u8, Option<&Answer>),
        offered: Option<usize>,
        told: &Told,
    ) {
        match offered {
            Some(request) => self.meet_request(request, number, answer.is_some(), told),
            None => self.meet_waiting(event, number, answer, told),
        }
        self.meet_run(&told.confirmed);
        self.meet_run(&told.denied);
        if let Some(answer) = answer {
            self.meet_decided(answer, told);
        }
        for unit in &told.accepted {
            self.meet_number(*unit);
        }
        if let (Some(event), Some(answer)) = (event, answer) {
            self.follow(event, answer);
        }
    }

    fn meet_request(&mut self, request: usize, number: u8, answered: bool, told: &Told) {
        let others = &self.requests[..request];
        let one_waiting = others.iter().any(|other| other.is_waiting());
        let refused = match number {
            LENGTH => Some("refused by 10"),
            ROOM if answered => Some("refused by 11"),
            ROOM => Some("refused by 11, no room for the answer"),
            _ => None,
        };
        if let Some(name) = refused {
            self.met.meet(name);
            self.met
                .meet_if(one_waiting, "refused by number, one waiting");
            return;
        }
        self.met.meet(match () {
            _ if !told.accepted.is_empty() => "accepted at its request",
            _ if told.rejected.is_empty() => "left waiting at its request",
            _ if self.met.suspended => "rejected at its request while suspended",
            _ if one_waiting => "rejected at its request, one waiting",
            _ => "rejected at its request, none waiting",
        });
    }

    /// What becomes of the unit waiting.
    fn meet_waiting(
        &mut self,
        event: Option<&Event>,
        number: u8,
        answer: Option<&Answer>,
        told: &Told,
    ) {
        let waits = self.waiting().is_some();
        self.met
            .meet_if(number != 0 && waits, "waiting, another event refused");
        for unit in &told.accepted {
            let place = self.requests[self.accepted[*unit].request].place;
            let suspended = self.met.suspended_at > Some(place);
            let at_accept = event == Some(&Event::AdAccept);
            let at_word = matches!(event, Some(Event::ControlWord(_)));
            self.met
                .meet_if(at_accept, "waiting, accepted at AD_Accept");
            self.met
                .meet_if(at_word, "waiting, accepted at a control word");
            self.met
                .meet_if(suspended, "waiting, accepted after a suspension");
        }
        if told.rejected.is_empty() {
            return;
        }
        let alert = answer.and_then(|answer| answer.alert);
        match (self.met.suspended, alert) {
            (false, Some(reason)) => self.met.meet(&rejected_at(reason)),
            (true, Some(_)) => self
                .met
                .meet("waiting, rejected at an alert while suspended"),
            (true, None) => self
                .met
                .meet("waiting, rejected by Initiate while suspended"),
            (false, None) => (),
        }
    }

    fn meet_decided(&mut self, answer: &Answer, told: &Told) {
        let (confirmed, denied) = (&told.confirmed, &told.denied);
        let after = |unit: &usize| self.met.suspended_at > Some(self.accepted[*unit].place);
        let after_suspension = confirmed.iter().any(after);
        let met = &mut self.met;
        met.meet_if(confirmed.len() == 1, "one confirmed");
        met.meet_if(confirmed.len() > 1, "several confirmed");
        met.meet_if(after_suspension, "confirmed after a suspension");
        let is_told = |units: &[usize]| !units.is_empty();
        let accepted = is_told(&told.accepted);
        let (rejected, confirmed) = (is_told(&told.rejected), is_told(confirmed));
        met.meet_if(confirmed && accepted, "confirmed and accepted in one event");
        if !is_told(denied) {
            return;
        }
        met.meet_if(confirmed, "confirmed and denied in one event");
        met.meet_if(rejected, "denied and rejected in one event");
        met.meet_if(
            confirmed && rejected,
            "confirmed, denied and rejected in one event",
        );
        match (met.suspended, answer.alert) {
            (false, Some(reason)) => met.meet(&denied_at(reason)),
            (true, Some(_)) => met.meet("denied at an alert while suspended"),
            (true, None) => met.meet("denied by Initiate while suspended"),
            (false, None) => (),
        }
    }

    /// A run of confirmed or denied units.
    fn meet_run(&mut self, units: &[usize]) {
        let numbers = units.iter().map(|unit| self.accepted[*unit].number);
        let numbers = numbers.collect::<Vec<u8>>();
        let again = |unit: &usize| self.earlier(*unit).is_some();
        let used_again = units.iter().any(again);
        let over = numbers.windows(2).any(|two| two == [255, 0]);
        self.met.meet_if(over, "a run from 255 to 0");
        self.met.meet_if(used_again, "told of a number used again");
    }

    /// The unit accepted last before with the same number.
    fn earlier(&self, unit: usize) -> Option<&Accepted> {
        let number = self.accepted[unit].number;
        let mut before = self.accepted[..unit].iter();
        before.rfind(|other| other.number == number)
    }

    /// Why a number is used again, if it is.
    fn meet_number(&mut self, unit: usize) {
        let Some(place) = self.earlier(unit).map(|earlier| earlier.place) else {
            return;
        };
        let (set_v_r_at, set_v_s_at) = (self.met.set_v_r_at, self.met.set_v_s_at);
        self.met.meet(match () {
            _ if set_v_r_at.max(set_v_s_at) < Some(place) => "number used again after 256 units",
            _ if set_v_s_at < set_v_r_at => "number used again after Initiate with Set V(R)",
            _ => "number used again after Set V(S)",
        });
    }

    /// Suspensions, and directives that set V(S), as the answers tell them.
    fn follow(&mut self, event: &Event, answer: &Answer) {
        let met = &mut self.met;
        if answer.suspend {
            met.suspended = true;
            met.suspended_at = Some(self.events);
        }
        let accepted = answer.responses.contains(&Response::DirectiveAccept);
        let Event::Directive { number, .. } = event else {
            return;
        };
        match *number {
            _ if !accepted => (),
            SET_V_S => met.set_v_s_at = Some(self.events),
            INITIATE_WITH_SET_VR => {
                met.suspended = false;
                met.set_v_r_at = Some(self.events);
            }
            1..=INITIATE_LAST | RESUME => met.suspended = false,
            _ => (),
        }
    }
}
