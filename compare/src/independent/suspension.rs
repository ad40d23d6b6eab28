//! What a suspension keeps, for any sequence of events of a sender: "no AD unit is sent,
//! confirmed or denied from a suspension to its Resume, and .. Resume brings back the state
//! left, units outstanding and waiting, marks and V(S)" (document 02, order 9), and what a
//! reject of the lower layer and an accepted Initiate do instead. It is checked after each
//! event.

use crate::fop1::{Answer, Event, Response, Run, Sender, SentFrame};
use crate::frame;
use crate::refusal::DONE;
use crate::session_check::{claim, Claim};
use crate::table_7_8::{Reason, State};

/// The numbers of the directives (document 01, FOP-1).
const INITIATE_LAST: usize = 4;
const TERMINATE: usize = 5;
const RESUME: usize = 6;
const SET_V_S: usize = 7;

/// How often each case of the law was met.
#[derive(Clone, Copy, PartialEq, Eq, Debug, Default)]
pub struct Met {
    pub suspensions: usize,
    /// Suspensions with units held, with some of them marked, and with a unit waiting.
    pub with_units: usize,
    pub with_marks: usize,
    pub with_waiting: usize,
    /// Events while suspended that keep it.
    pub kept: usize,
    pub terminates: usize,
    pub words: usize,
    pub set_v_s: usize,
    pub rejects: usize,
    /// Rejects that deny units, and that reject the unit waiting.
    pub rejects_denying: usize,
    pub rejects_of_waiting: usize,
    /// The same of accepted Initiates.
    pub initiates: usize,
    pub initiates_denying: usize,
    pub initiates_rejecting: usize,
    pub resumes: usize,
    /// Resumes that bring back units, marks and a unit waiting, and those after a reject.
    pub resumes_with_units: usize,
    pub resumes_with_marks: usize,
    pub resumes_with_waiting: usize,
    pub resumes_after_reject: usize,
}

impl Met {
    /// Each with its name.
    pub fn named(&self) -> [(&'static str, usize); 19] {
        [
            ("suspensions", self.suspensions),
            ("suspensions with units", self.with_units),
            ("suspensions with marks", self.with_marks),
            ("suspensions with a unit waiting", self.with_waiting),
            ("events that keep it", self.kept),
            ("Terminates", self.terminates),
            ("words", self.words),
            ("Set V(S)", self.set_v_s),
            ("rejects", self.rejects),
            ("rejects that deny units", self.rejects_denying),
            ("rejects with a unit waiting", self.rejects_of_waiting),
            ("Initiates", self.initiates),
            ("Initiates that deny units", self.initiates_denying),
            ("Initiates with a unit waiting", self.initiates_rejecting),
            ("Resumes", self.resumes),
            ("Resumes with units", self.resumes_with_units),
            ("Resumes with marks", self.resumes_with_marks),
            ("Resumes with a unit waiting", self.resumes_with_waiting),
            ("Resumes after a reject", self.resumes_after_reject),
        ]
    }
}

/// What a suspension keeps: the effective state, and what stood in it.
#[derive(Clone, PartialEq, Eq, Debug)]
struct Left {
    state: State,
    sent_queue: Vec<SentFrame>,
    wait_queue: Option<Vec<u8>>,
    v_s: u8,
    nn_r: u8,
    transmission_count: u8,
}

impl Left {
    fn of(sender: &Sender) -> Left {
        Left {
            state: sender.effective_state(),
            sent_queue: sender.sent_queue.clone(),
            wait_queue: sender.wait_queue.clone(),
            v_s: sender.v_s,
            nn_r: sender.nn_r,
            transmission_count: sender.transmission_count,
        }
    }

    fn has_marks(&self) -> bool {
        self.sent_queue
            .iter()
            .any(|frame| frame.to_be_retransmitted)
    }
}

/// The law over the events of one sender.
pub struct Law {
    /// While the sender is suspended.
    left: Option<Left>,
    rejected: bool,
    pub met: Met,
}

/// No frame, no abort, no alert, no notification, no unit confirmed or denied.
fn tells_nothing(answer: &Answer) -> bool {
    answer.frame.is_none()
        && !answer.abort
        && answer.alert.is_none()
        && !answer.suspend
        && runs_empty(answer)
}

fn runs_empty(answer: &Answer) -> bool {
    answer.confirmed == Run::default() && answer.denied == Run::default()
}

/// The run of the units on the queue.
fn run_of(queue: &[SentFrame]) -> Run {
    let first = queue.first().and_then(SentFrame::number);
    first.map_or(Run::default(), |first| Run {
        first,
        count: queue.len() as u8,
    })
}

impl Law {
    /// From a sender in any state, a suspended one too.
    pub fn from(sender: &Sender) -> Law {
        Law {
            left: sender.suspended().then(|| Left::of(sender)),
            rejected: false,
            met: Met::default(),
        }
    }

    /// Checks the next event of the sender, which was before and is after it.
    pub fn check(
        &mut self,
        before: &Sender,
        event: &Event,
        answer: &Answer,
        after: &Sender,
    ) -> Claim {
        claim(
            after.suspend_state == 0 || after.state == State::S6,
            "Suspend_State is 0 outside S6",
        )?;
        let Some(left) = self.left.clone() else {
            return self.not_suspended(before, event, answer, after);
        };
        let number = match event {
            Event::Directive { number, .. } => *number,
            _ => 0,
        };
        let accepted = answer.responses.contains(&Response::DirectiveAccept);
        match number {
            _ if answer.refusal != DONE => self.keeps(before, event, answer, after),
            _ if event.is_reject() => self.rejects(&left, answer, after),
            1..=INITIATE_LAST if accepted => self.initiates(&left, answer, after),
            RESUME => self.resumes(&left, answer, after),
            _ => self.keeps(before, event, answer, after),
        }
    }

    /// Only the timer suspends, and the suspension keeps everything.
    fn not_suspended(
        &mut self,
        before: &Sender,
        event: &Event,
        answer: &Answer,
        after: &Sender,
    ) -> Claim {
        if !answer.suspend {
            return claim(after.suspend_state == 0, "Suspend_State tells a suspension");
        }
        let expired = *event == Event::Tick && before.timer == 1 && before.timeout_type == 1;
        let state = before.state;
        let in_time = before.transmission_count < before.transmission_limit;
        let due = match state {
            State::S1 | State::S2 | State::S3 => !in_time,
            State::S4 => true,
            State::S5 | State::S6 => false,
        };
        claim(
            expired && due,
            "the timer suspends at the limit, in S4 at once",
        )?;
        let left = Left::of(before);
        let suspended = (answer.state, after.state, after.suspend_state, after.timer)
            == (State::S6, State::S6, state.number(), 0);
        claim(
            suspended,
            "a suspended sender is Initial, its timer stopped",
        )?;
        claim(
            left == Left::of(after),
            "a suspension keeps queues, marks, numbers and count",
        )?;
        let notified = Answer {
            suspend: false,
            ..answer.clone()
        };
        claim(
            tells_nothing(&notified) && answer.responses.is_empty(),
            "a suspension tells its notification alone",
        )?;
        self.met.suspensions += 1;
        self.met.with_units += !left.sent_queue.is_empty() as usize;
        self.met.with_marks += left.has_marks() as usize;
        self.met.with_waiting += left.wait_queue.is_some() as usize;
        self.left = Some(left);
        self.rejected = false;
        Ok(())
    }

    /// Any other event: nothing of the suspension changes, and of AD units nothing is told. A BD
    /// unit is sent as ever.
    fn keeps(&mut self, before: &Sender, event: &Event, answer: &Answer, after: &Sender) -> Claim {
        let same = |sender: &Sender| {
            let initial = sender.state == State::S6 && sender.timer == 0;
            initial && sender.suspended() && Some(Left::of(sender)) == self.left
        };
        claim(
            same(before) && same(after) && answer.state == State::S6,
            "while suspended nothing of it changes",
        )?;
        let bd = Answer {
            frame: None,
            ..answer.clone()
        };
        claim(
            [frame::NONE, frame::BD].contains(&answer.kind) && tells_nothing(&bd),
            "while suspended no AD unit is sent, confirmed or denied",
        )?;
        let unchanged = before == after;
        match event {
            Event::Directive { number, .. } if *number == TERMINATE && answer.refusal == DONE => {
                let told = [
                    Response::DirectiveAccept,
                    Response::DirectivePositiveConfirm,
                ];
                claim(
                    unchanged && answer.responses == told,
                    "Terminate is accepted and changes nothing",
                )?;
                self.met.terminates += 1;
            }
            Event::Directive { number, .. } if *number == SET_V_S && answer.refusal == DONE => {
                claim(
                    unchanged && answer.responses == [Response::DirectiveReject],
                    "Set V(S) is rejected",
                )?;
                self.met.set_v_s += 1;
            }
            Event::ControlWord(_) => {
                claim(
                    unchanged && answer.responses.is_empty() && answer.frame.is_none(),
                    "a control word is ignored",
                )?;
                self.met.words += (answer.refusal == DONE) as usize;
            }
            Event::AdRequest(_) if answer.refusal == DONE => claim(
                unchanged && answer.responses == [Response::AdReject],
                "an AD unit offered is rejected",
            )?,
            _ => (),
        }
        self.met.kept += 1;
        Ok(())
    }

    /// A reject of the lower layer: Alert[LLIF] empties both queues, and the suspension stays.
    fn rejects(&mut self, left: &Left, answer: &Answer, after: &Sender) -> Claim {
        claim(
            answer.alert == Some(Reason::Llif) && answer.frame.is_none(),
            "a reject is Alert[LLIF]",
        )?;
        self.purges(left, answer, &[], after)?;
        claim(
            after.suspended() && after.effective_state() == left.state,
            "a reject leaves the suspension",
        )?;
        self.met.rejects += 1;
        self.met.rejects_denying += (answer.denied.count > 0) as usize;
        self.met.rejects_of_waiting += left.wait_queue.is_some() as usize;
        self.left = Some(Left {
            sent_queue: Vec::new(),
            wait_queue: None,
            ..left.clone()
        });
        self.rejected = true;
        Ok(())
    }

    /// An accepted Initiate ends the suspension.
    fn initiates(&mut self, left: &Left, answer: &Answer, after: &Sender) -> Claim {
        claim(answer.alert.is_none(), "an Initiate is no alert")?;
        self.purges(left, answer, &[Response::DirectiveAccept], after)?;
        claim(
            after.suspend_state == 0 && after.state != State::S6,
            "an Initiate ends the suspension",
        )?;
        self.met.initiates += 1;
        self.met.initiates_denying += (answer.denied.count > 0) as usize;
        self.met.initiates_rejecting += left.wait_queue.is_some() as usize;
        self.left = None;
        Ok(())
    }

    /// The units held are denied, the unit that waits is rejected after these responses.
    fn purges(&self, left: &Left, answer: &Answer, before: &[Response], after: &Sender) -> Claim {
        claim(
            (answer.confirmed, answer.denied) == (Run::default(), run_of(&left.sent_queue)),
            "the units held are denied",
        )?;
        let rejected = left.wait_queue.as_ref().map(|_| Response::AdReject);
        let told = [before, &rejected.into_iter().collect::<Vec<_>>()].concat();
        claim(
            answer.responses.starts_with(&told)
                && answer.responses.contains(&Response::AdReject) == rejected.is_some(),
            "the unit waiting is rejected",
        )?;
        claim(
            after.outstanding() == 0 && after.wait_queue.is_none(),
            "nothing is held",
        )
    }

    /// Resume brings back the state left with its queues, marks and numbers, starts the timer and
    /// looks for no FDU.
    fn resumes(&mut self, left: &Left, answer: &Answer, after: &Sender) -> Claim {
        let told = [
            Response::DirectiveAccept,
            Response::DirectivePositiveConfirm,
        ];
        claim(
            tells_nothing(answer) && answer.responses == told,
            "Resume is accepted and confirmed, and tells nothing else",
        )?;
        claim(
            answer.state == left.state && after.state == left.state && after.suspend_state == 0,
            "Resume brings back the state left",
        )?;
        claim(
            *left == Left::of(after),
            "Resume brings back queues, marks, numbers and count",
        )?;
        claim(after.timer == after.t1_initial, "Resume starts the timer")?;
        self.met.resumes += 1;
        self.met.resumes_with_units += !left.sent_queue.is_empty() as usize;
        self.met.resumes_with_marks += left.has_marks() as usize;
        self.met.resumes_with_waiting += left.wait_queue.is_some() as usize;
        self.met.resumes_after_reject += self.rejected as usize;
        self.left = None;
        Ok(())
    }
}
