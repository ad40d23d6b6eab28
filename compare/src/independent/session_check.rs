//! The claims about a session, each checked after each event. The histories come from
//! what an outcome shows; states, flags, marks, the wait queue, timer and
//! Transmission_Count come from the tables, run over the same events with channels of
//! their own (document 01, The session). "Suspended" is the tables' too, and the claims are about
//! lists in which "no lower-layer reject comes while suspended" (document 02, order 9).

use std::collections::BTreeSet;

use crate::clcw;
use crate::farm1::{self, Farm1};
use crate::fault::Fault;
use crate::fop1::{self, Answer, Run, Sender, UNIT_MOST};
use crate::frame::{self, Content};
use crate::refusal::{DONE, LENGTH, ROOM};
use crate::session::{carried, Carried, Event, Outcome, Session, Settings};
use crate::suspension::Law;
use crate::table_7_8::{Reason, State};

#[path = "session_beyond.rs"]
mod beyond;

/// A unit: its N(S) and its octets.
#[derive(Clone, PartialEq, Eq, Debug)]
pub struct Unit {
    pub number: u8,
    pub octets: Vec<u8>,
}

/// How often the premises of a claim were met.
#[derive(Clone, Copy, PartialEq, Eq, Debug, Default)]
pub struct Met {
    pub accepts: usize,
    pub discards: usize,
    pub sends_at_once: usize,
    pub sends_marked: usize,
    pub sends_waiting: usize,
    pub expiries: usize,
    pub confirms_all: usize,
    pub confirms_and_sends: usize,
    pub noise: usize,
    pub word_noise: usize,
    /// Noise that is not refused, and is nothing.
    pub not_noise: usize,
    pub damaged: usize,
    /// Frames with fill behind them, and with more than fill can be, which are nothing.
    pub ad_filled: usize,
    pub bd_filled: usize,
    pub stays_filled: usize,
    pub too_much_fill: usize,
    /// In S6 with no AD frame under way, units denied that are on board, and that are not.
    pub denied_on_board: usize,
    pub denied_not_on_board: usize,
    /// The same while an AD frame is under way.
    pub early_on_board: usize,
    pub early_not_on_board: usize,
    /// Passes, and the units of them.
    pub passes: usize,
    pub passed_units: usize,
    pub suspensions: usize,
    /// Resumes that bring back units outstanding, marks, and a unit waiting.
    pub resumes_with_units: usize,
    pub resumes_with_marks: usize,
    pub resumes_with_waiting: usize,
    pub words_while_suspended: usize,
    pub terminates_while_suspended: usize,
    /// Units accepted on board while suspended.
    pub accepts_while_suspended: usize,
    /// Sessions that end suspended, and those in which a reject came while suspended.
    pub ends_suspended: usize,
    pub premise_broken: usize,
}

impl Met {
    /// Each with its name.
    pub fn named(&self) -> [(&'static str, usize); 31] {
        [
            ("accepts", self.accepts),
            ("discards", self.discards),
            ("sends at once", self.sends_at_once),
            ("sends marked", self.sends_marked),
            ("sends waiting", self.sends_waiting),
            ("expiries", self.expiries),
            ("confirms all", self.confirms_all),
            ("confirms and sends", self.confirms_and_sends),
            ("noise", self.noise),
            ("word noise", self.word_noise),
            ("not noise", self.not_noise),
            ("frame damaged", self.damaged),
            ("AD frame filled", self.ad_filled),
            ("BD frame filled", self.bd_filled),
            ("frame stays filled", self.stays_filled),
            ("too much fill", self.too_much_fill),
            ("denied on board", self.denied_on_board),
            ("denied not on board", self.denied_not_on_board),
            ("denied on board, frames under way", self.early_on_board),
            (
                "denied not on board, frames under way",
                self.early_not_on_board,
            ),
            ("passes", self.passes),
            ("units of passes", self.passed_units),
            ("suspensions", self.suspensions),
            ("Resumes with units", self.resumes_with_units),
            ("Resumes with marks", self.resumes_with_marks),
            ("Resumes with a unit waiting", self.resumes_with_waiting),
            ("words while suspended", self.words_while_suspended),
            (
                "Terminates while suspended",
                self.terminates_while_suspended,
            ),
            ("accepts while suspended", self.accepts_while_suspended),
            ("sessions that end suspended", self.ends_suspended),
            (
                "sessions with a reject while suspended",
                self.premise_broken,
            ),
        ]
    }
}

pub struct Checker {
    pub settings: Settings,
    /// The tables, run over the same events.
    pub table: Session,
    pub sent: Vec<Unit>,
    pub accepted: Vec<Unit>,
    pub confirmed: Vec<Unit>,
    /// The places in sent.
    pub denied: Vec<usize>,
    pub outstanding: BTreeSet<usize>,
    /// The releases done.
    pub releases: usize,
    /// The BD units handed down and not yet passed by an accepted one.
    bd_ahead: Vec<Vec<u8>>,
    bd_accepted: usize,
    /// The count of units accepted when the sender came to S6 with no AD frame under way, if
    /// the recorder has put none there since.
    settled: Option<usize>,
    law: Law,
    /// A reject of the lower layer came while suspended: nothing is claimed from then on.
    pub premise_broken: bool,
    pub met: Met,
}

/// What held before the event.
struct Before {
    sender: Sender,
    /// What the event brings to it.
    taken: Option<fop1::Event>,
    receiver: Farm1,
    sent: usize,
    accepted: usize,
    confirmed: usize,
    outstanding: BTreeSet<usize>,
    /// The octets of the frame that the table hands down at the event.
    need: usize,
}

/// The words of a claim that a recorder reaching too far breaks.
pub const NEVER_LOCKED_OUT: &str = "the receiver has never locked out";

pub type Claim = Result<(), String>;

pub fn claim(holds: bool, words: &str) -> Claim {
    match holds {
        true => Ok(()),
        false => Err(words.to_string()),
    }
}

fn unit_of(carried: &Carried) -> Unit {
    Unit {
        number: carried.value,
        octets: carried.data.clone(),
    }
}

impl Checker {
    pub fn new(settings: &Settings) -> Result<Checker, u8> {
        let table = Session::start(settings)?;
        Ok(Checker {
            settings: *settings,
            law: Law::from(&table.sender),
            table,
            sent: Vec::new(),
            accepted: Vec::new(),
            confirmed: Vec::new(),
            denied: Vec::new(),
            outstanding: BTreeSet::new(),
            releases: 0,
            bd_ahead: Vec::new(),
            bd_accepted: 0,
            settled: None,
            premise_broken: false,
            met: Met::default(),
        })
    }

    /// Checks the next event of a session and what it gave. Where the premise is broken, of the
    /// claims only the law of suspension stands.
    pub fn check(&mut self, event: &Event, outcome: &Outcome) -> Claim {
        let rejects = matches!(event, Event::Lower { response, .. } if response.is_reject());
        self.premise_broken |= rejects && self.table.sender.suspended();
        if !self.premise_broken {
            return self.claims(event, outcome);
        }
        let before = self.before(event);
        self.table.step(event, Fault::None);
        self.suspension_keeps(&before, outcome)
    }

    /// The session ends here.
    pub fn end(&mut self) {
        let law = self.law.met;
        self.met.suspensions += law.suspensions;
        self.met.resumes_with_units += law.resumes_with_units;
        self.met.resumes_with_marks += law.resumes_with_marks;
        self.met.resumes_with_waiting += law.resumes_with_waiting;
        self.met.words_while_suspended += law.words;
        self.met.terminates_while_suspended += law.terminates;
        self.met.ends_suspended += self.table.sender.suspended() as usize;
        self.met.premise_broken += self.premise_broken as usize;
    }

    /// All claims, whether or not their premise holds.
    pub fn claims(&mut self, event: &Event, outcome: &Outcome) -> Claim {
        let before = self.before(event);
        self.demand_3(&before, event, outcome)?;
        self.suspension_keeps(&before, outcome)?;
        self.stronger(&before, event, outcome)?;
        self.what_denied_means(outcome)
    }

    /// Demand 3 alone, whether or not its premise holds.
    pub fn demand_3_alone(&mut self, event: &Event, outcome: &Outcome) -> Claim {
        let before = self.before(event);
        self.demand_3(&before, event, outcome)
    }

    /// The law of suspension, with the sender of the tables and the answer seen.
    fn suspension_keeps(&mut self, before: &Before, outcome: &Outcome) -> Claim {
        if before.sender.suspended() && self.accepted.len() > before.accepted {
            self.met.accepts_while_suspended += 1;
        }
        let (Some(taken), Some(answer)) = (&before.taken, &outcome.sender) else {
            return Ok(());
        };
        self.law
            .check(&before.sender, taken, answer, &self.table.sender)
    }

    /// Demand 3, also where frames and words stay, with fill and noise.
    fn demand_3(&mut self, before: &Before, event: &Event, outcome: &Outcome) -> Claim {
        if let Event::FrameDamaged { bits } = event {
            self.damage_is_noise_and_loss(bits)?;
        }
        self.filled_is_the_frame_alone(event, outcome)?;
        self.table.step(event, Fault::None);
        self.write_histories(outcome)?;
        self.never_locked_out(outcome)?;
        match event {
            Event::Frame | Event::FrameStays { .. } | Event::FrameFilled { .. } => {
                self.accepts_exactly(before, outcome)
            }
            Event::AdRequest { unit, room } => self.sends_at_once(before, unit, *room, outcome),
            Event::Lower { response, room } if *response == fop1::Event::AdAccept => {
                self.sends_when_ready(before, *room, outcome)
            }
            Event::Tick { room } => self.resends_at_expiry(before, *room, outcome),
            Event::Word { room } | Event::WordStays { room } => {
                self.confirms_all(before, *room, outcome)
            }
            Event::Noise { octets } => self.noise_changes_nothing(before, octets, outcome),
            Event::FrameDamaged { .. } => self.damage_changes_nothing(before, outcome),
            Event::WordNoise { octets, .. } => {
                self.word_noise_changes_nothing(before, octets, outcome)
            }
            _ => Ok(()),
        }
    }

    fn before(&self, event: &Event) -> Before {
        let taken = self.table.to_sender(event).map(|(taken, _)| taken);
        Before {
            sender: self.table.sender.clone(),
            receiver: self.table.receiver,
            sent: self.sent.len(),
            accepted: self.accepted.len(),
            confirmed: self.confirmed.len(),
            outstanding: self.outstanding.clone(),
            need: taken.as_ref().map_or(0, |taken| self.need(taken)),
            taken,
        }
    }

    /// The octets of the frame that the table hands down at the event, if the room is lent.
    fn need(&self, taken: &fop1::Event) -> usize {
        let mut sender = self.table.sender.clone();
        let answer = sender.take(taken, usize::MAX, Fault::None);
        answer.frame.map_or(0, |frame| frame.len())
    }

    /// n plus a count, modulo 256.
    fn number(&self, count: usize) -> u8 {
        ((self.settings.number + count) % 256) as u8
    }

    fn carried(&self, octets: &Option<Vec<u8>>) -> Option<Carried> {
        let (spacecraft, channel) = (self.settings.spacecraft, self.settings.channel);
        carried(octets.as_ref()?, spacecraft as u32, channel as u32)
    }

    /// The AD unit that the answer hands down.
    fn ad_unit(&self, outcome: &Outcome) -> Option<Unit> {
        let carried = self.carried(&outcome.sender.as_ref()?.frame)?;
        (carried.kind == frame::AD).then(|| unit_of(&carried))
    }

    fn write_histories(&mut self, outcome: &Outcome) -> Claim {
        if let Some(answer) = &outcome.sender {
            for place in self.places(answer.confirmed)? {
                claim(self.outstanding.remove(&place), "confirmed is outstanding")?;
                let unit = self.sent[place].clone();
                let same = self.accepted.get(self.confirmed.len()) == Some(&unit);
                claim(same, "confirmed is a first part of accepted")?;
                self.confirmed.push(unit);
            }
            for place in self.places(answer.denied)? {
                claim(self.outstanding.remove(&place), "denied is outstanding")?;
                self.denied.push(place);
            }
            self.write_handed_down(answer)?;
        }
        if let Some(received) = &outcome.receiver {
            if received.event == Ok(farm1::Event::E10) {
                self.releases += 1;
            }
            if let Some(carried) = &received.accepted {
                self.write_accepted(carried)?;
            }
        }
        Ok(())
    }

    /// The places of a run: a number means the unit last sent with it.
    fn places(&self, run: Run) -> Result<Vec<usize>, String> {
        claim(run.count > 0 || run.first == 0, "an empty run is 0 and 0")?;
        let mut places = Vec::new();
        for n in 0..run.count {
            let number = run.first.wrapping_add(n);
            let place = self.sent.iter().rposition(|unit| unit.number == number);
            places.push(place.ok_or("the number of a run was sent")?);
        }
        Ok(places)
    }

    fn write_handed_down(&mut self, answer: &Answer) -> Claim {
        if answer.frame.is_none() {
            return Ok(());
        }
        let carried = self.carried(&answer.frame);
        let carried = carried.ok_or("a frame handed down can be read")?;
        match carried.kind {
            frame::AD if carried.value == self.number(self.sent.len()) => {
                self.outstanding.insert(self.sent.len());
                self.sent.push(unit_of(&carried));
            }
            frame::AD => (),
            frame::BD => self.bd_ahead.push(carried.data),
            _ => return Err("no type-BC frame is handed down".to_string()),
        }
        Ok(())
    }

    fn write_accepted(&mut self, carried: &Carried) -> Claim {
        if carried.kind == frame::BD {
            let ahead = self.bd_ahead.iter().position(|unit| *unit == carried.data);
            let passed = ahead.ok_or("accepted BD units are some of those handed down")?;
            self.bd_ahead.drain(..=passed);
            self.bd_accepted += 1;
            return Ok(());
        }
        let unit = unit_of(carried);
        let same = self.sent.get(self.accepted.len()) == Some(&unit);
        claim(same, "accepted is a first part of sent")?;
        self.accepted.push(unit);
        Ok(())
    }

    fn never_locked_out(&self, outcome: &Outcome) -> Claim {
        let words = NEVER_LOCKED_OUT;
        claim(self.table.receiver.state != farm1::State::Lockout, words)?;
        claim(!self.table.receiver.lockout_flag, words)?;
        if let Some(received) = &outcome.receiver {
            claim(received.state != farm1::State::Lockout, words)?;
        }
        if let Some(word) = &outcome.report {
            let read = clcw::read(word, self.settings.channel as u32, Fault::None);
            claim((read.number, read.valid) == (DONE, 1), "a word can be read")?;
            claim(read.flags & 4 == 0, words)?;
            claim(
                read.report == self.number(self.accepted.len()),
                "a word reports V(R)",
            )?;
            let counted = read.counter as usize == self.bd_accepted % 4;
            claim(counted, "the counter is the count of BD units accepted")?;
        }
        Ok(())
    }

    /// The receiver accepts an AD frame exactly when it is Open, the frame expected and
    /// a buffer free.
    fn accepts_exactly(&mut self, before: &Before, outcome: &Outcome) -> Claim {
        let Some(carried) = self.carried(&outcome.frame) else {
            return claim(outcome.frame.is_none(), "a frame that arrives can be read");
        };
        if carried.kind != frame::AD {
            return Ok(());
        }
        let receiver_open = before.receiver.state == farm1::State::Open;
        let expected = carried.value == self.number(before.accepted);
        let buffer_free = before.accepted < self.settings.buffers + self.releases;
        let accepted = self.accepted.len() > before.accepted;
        match accepted {
            true => self.met.accepts += 1,
            false => self.met.discards += 1,
        }
        claim(
            accepted == (receiver_open && expected && buffer_free),
            "accepted exactly when Open, expected and a buffer free",
        )
    }

    /// The unit is handed down, new.
    fn sends(&self, before: &Before, octets: &[u8], outcome: &Outcome) -> bool {
        let unit = Unit {
            number: self.number(before.sent),
            octets: octets.to_vec(),
        };
        self.ad_unit(outcome).as_ref() == Some(&unit) && self.sent.len() == before.sent + 1
    }

    /// An active sender with a ready lower layer, an empty wait queue, nothing marked and
    /// fewer than K outstanding sends at once a legal unit offered to it.
    fn sends_at_once(
        &mut self,
        before: &Before,
        unit: &[u8],
        room: usize,
        outcome: &Outcome,
    ) -> Claim {
        let sender = &before.sender;
        let due = sender.state == State::S1
            && sender.ad_out_ready
            && sender.wait_queue.is_none()
            && oldest_marked(sender).is_none()
            && before.outstanding.len() < self.settings.k
            && (1..=UNIT_MOST).contains(&unit.len());
        if !due || room < before.need {
            return Ok(());
        }
        self.met.sends_at_once += 1;
        claim(
            self.sends(before, unit, outcome),
            "a unit offered is sent at once",
        )
    }

    /// When the lower layer comes ready, a sender active or resending without wait first
    /// sends its oldest marked unit again; with none marked and fewer than K outstanding,
    /// it sends the unit waiting, if any.
    fn sends_when_ready(&mut self, before: &Before, room: usize, outcome: &Outcome) -> Claim {
        let sender = &before.sender;
        if !active_or_resending(sender) || room < before.need {
            return Ok(());
        }
        if let Some(number) = oldest_marked(sender) {
            self.met.sends_marked += 1;
            let place = self.sent.iter().rposition(|unit| unit.number == number);
            let unit = place.map(|place| self.sent[place].clone());
            let again = unit.is_some() && self.ad_unit(outcome) == unit;
            return claim(again, "the oldest marked unit is sent again");
        }
        match &sender.wait_queue {
            Some(unit) if before.outstanding.len() < self.settings.k => {
                self.met.sends_waiting += 1;
                claim(
                    self.sends(before, unit, outcome),
                    "the unit waiting is sent",
                )
            }
            _ => Ok(()),
        }
    }

    /// A timer expiry short of the transmission limit resends or marks every outstanding
    /// unit.
    fn resends_at_expiry(&mut self, before: &Before, room: usize, outcome: &Outcome) -> Claim {
        let sender = &before.sender;
        let short = (sender.transmission_count as usize) < self.settings.transmission_limit;
        let due = active_or_resending(sender) && sender.timer == 1 && short;
        if !due || room < before.need {
            return Ok(());
        }
        self.met.expiries += 1;
        let resent = self.ad_unit(outcome);
        for place in &before.outstanding {
            let unit = &self.sent[*place];
            let marked = self
                .table
                .sender
                .sent_queue
                .iter()
                .any(|frame| frame.to_be_retransmitted && frame.number() == Some(unit.number));
            let again = resent.as_ref() == Some(unit);
            claim(
                marked || again,
                "an expiry resends or marks every outstanding unit",
            )?;
        }
        Ok(())
    }

    /// A clear control word reporting the next number to send confirms all outstanding
    /// units and, if there were any and the lower layer is ready, sends the unit waiting,
    /// if any.
    fn confirms_all(&mut self, before: &Before, room: usize, outcome: &Outcome) -> Claim {
        let Some(word) = &outcome.word else {
            return Ok(());
        };
        let read = clcw::read(word, self.settings.channel as u32, Fault::None);
        let due = active_or_resending(&before.sender)
            && read.flags == 0
            && read.report == self.number(before.sent);
        if !due || room < before.need {
            return Ok(());
        }
        self.met.confirms_all += 1;
        let confirmed = &self.confirmed[before.confirmed..];
        let all = before.outstanding.iter().map(|place| &self.sent[*place]);
        claim(
            confirmed.iter().eq(all),
            "all outstanding units are confirmed",
        )?;
        match &before.sender.wait_queue {
            Some(unit) if !before.outstanding.is_empty() && before.sender.ad_out_ready => {
                self.met.confirms_and_sends += 1;
                claim(
                    self.sends(before, unit, outcome),
                    "the unit waiting is sent too",
                )
            }
            _ => Ok(()),
        }
    }
}

/// More than is asked for, and true as well.
impl Checker {
    fn stronger(&self, before: &Before, event: &Event, outcome: &Outcome) -> Claim {
        let Some(answer) = &outcome.sender else {
            return Ok(());
        };
        self.told_apart(answer)?;
        self.suspends(before, event, answer)?;
        self.hands_down(before, answer, outcome)?;
        self.confirms_what_is_reported(before, answer, outcome)?;
        if !matches!(event, Event::WordNoise { .. }) {
            let refusals = [DONE, LENGTH, ROOM];
            claim(refusals.contains(&answer.refusal), "refusals are 10 and 11")?;
        }
        let alert = match answer.alert {
            None | Some(Reason::Term | Reason::Llif) => true,
            Some(Reason::T1) => self.settings.timeout_type == 0,
            Some(Reason::Limit) => self.settings.transmission_limit == 1,
            Some(_) => false,
        };
        claim(
            alert,
            "alerts are term, LLIF, T1 at Timeout_Type 0, and limit at a limit of 1",
        )
    }

    /// At Timeout_Type 1, and only there, an expiry at the transmission limit suspends.
    fn suspends(&self, before: &Before, event: &Event, answer: &Answer) -> Claim {
        let sender = &before.sender;
        let due = matches!(event, Event::Tick { .. })
            && serving(sender)
            && sender.timer == 1
            && usize::from(sender.transmission_count) >= self.settings.transmission_limit
            && self.settings.timeout_type == 1;
        claim(answer.suspend == due, "an expiry at the limit suspends")
    }

    /// Sent is confirmed and outstanding in S1 to S3 and while suspended, and the Sent_Queue is
    /// what is outstanding; confirmed and denied in S6 otherwise.
    fn told_apart(&self, answer: &Answer) -> Claim {
        let confirmed = self.confirmed.len();
        claim(
            self.outstanding.len() <= self.settings.k,
            "at most K are outstanding",
        )?;
        if answer.state != State::S6 || self.table.sender.suspended() {
            let last = self
                .outstanding
                .iter()
                .copied()
                .eq(confirmed..self.sent.len());
            claim(self.denied.is_empty(), "denied units end the session")?;
            claim(last, "sent is confirmed and outstanding")?;
            return claim(
                self.queue_is_outstanding(),
                "the Sent_Queue is what is outstanding",
            );
        }
        claim(self.outstanding.is_empty(), "none is outstanding in S6")?;
        let rest = self.denied.iter().copied();
        claim(
            rest.eq(confirmed..self.sent.len()),
            "sent is confirmed and denied",
        )
    }

    fn queue_is_outstanding(&self) -> bool {
        let queue = self.table.sender.sent_queue.iter();
        let queue = queue.map(|frame| match &frame.content {
            Content::Ad { number, unit } => Some((*number as u8, unit)),
            _ => None,
        });
        let places = self.outstanding.iter();
        let outstanding = places.map(|place| {
            let unit = &self.sent[*place];
            Some((unit.number, &unit.octets))
        });
        queue.eq(outstanding)
    }

    /// Each AD frame handed down is the next new unit or an outstanding one, unchanged;
    /// none where the event leaves the sender in S3 or S6; none again at a limit of 1.
    fn hands_down(&self, before: &Before, answer: &Answer, outcome: &Outcome) -> Claim {
        let Some(unit) = self.ad_unit(outcome) else {
            return Ok(());
        };
        let sending = matches!(answer.state, State::S1 | State::S2);
        claim(sending, "no AD frame is handed down into S3 or S6")?;
        if self.sent.len() > before.sent {
            return Ok(());
        }
        let again = self.settings.transmission_limit > 1;
        claim(again, "at a limit of 1 nothing is handed down twice")?;
        let known = self
            .outstanding
            .iter()
            .any(|place| self.sent[*place] == unit);
        claim(known, "a frame handed down again is an outstanding unit")
    }

    /// A word makes the count of confirmed units exactly what it reports.
    fn confirms_what_is_reported(
        &self,
        before: &Before,
        answer: &Answer,
        outcome: &Outcome,
    ) -> Claim {
        let Some(word) = &outcome.word else {
            return Ok(());
        };
        if !serving(&before.sender) || answer.refusal != DONE {
            return Ok(());
        }
        let read = clcw::read(word, self.settings.channel as u32, Fault::None);
        let exact = self.number(self.confirmed.len()) == read.report;
        claim(exact, "confirmed is what the word reports")
    }
}

fn serving(sender: &Sender) -> bool {
    matches!(sender.state, State::S1 | State::S2 | State::S3)
}

fn active_or_resending(sender: &Sender) -> bool {
    matches!(sender.state, State::S1 | State::S2)
}

/// The number of the oldest marked unit.
fn oldest_marked(sender: &Sender) -> Option<u8> {
    let marked = sender
        .sent_queue
        .iter()
        .find(|frame| frame.to_be_retransmitted);
    marked.and_then(|frame| frame.number())
}
