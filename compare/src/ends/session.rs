//! Random sessions: the library's sender and receiver, linked by channels that lose and
//! repeat, with a recorder, fill and noise, beside the independent session.

use super::receiver_end::{self, expected_frame, expected_release};
use super::sender_end::{self, call, Expected, SenderEnd};
use super::session_met::Met;
use super::{compare_runs, refusal, Report};
use crate::check::Tally;
use crate::inputs::farm1_frames::Start;
use crate::library::{self, SenderEvent, SenderSettings};
use crate::octets::{ANSWER, RECEIVER_STATE, SENDER_STATE};
use crate::random::Random;
use crate::settings::Settings;
use independent::fault::Fault;
use independent::fop1::{self, Sender};
use independent::recorder::{one_more_than_nw, Recorder};
use independent::refusal::{ADDRESS, DONE, FILL, LENGTH};
use independent::session::{inverted, Event, Outcome, Session};
use independent::session_check::{Checker, NEVER_LOCKED_OUT};
use independent::session_random::{self, Course};
use independent::{frame, session, table_7_8::State};
use std::collections::VecDeque;

/// The control word's octets.
const WORD: usize = 4;

/// So many events may follow when the sender is Initial and not suspended.
const AFTER_THE_END: usize = 100;

/// The library's ends and channels, and the recorder of its frames.
struct Ends {
    sender: SenderEnd,
    receiver: Vec<u8>,
    frames: VecDeque<Vec<u8>>,
    words: VecDeque<Vec<u8>>,
    recorder: Recorder,
}

pub fn compare(settings: &Settings) -> Report {
    let mut met = Met::new(settings.count);
    let (tally, runs) = compare_runs(settings, |random, tally| {
        if tally.inputs == 0 {
            recorded_too_far(random, tally, &mut met);
        }
        let of_session = session_random::settings(&mut |limit| random.below(limit));
        let mut course = Course::new(&mut |limit| random.below(limit), &of_session);
        let started = start(&of_session, random);
        let difference = started.as_ref().err();
        tally.compared(difference.is_none(), || {
            format!("  start: {of_session:?}\n  {}\n", difference.unwrap())
        });
        let Ok((ends, session)) = started else {
            return false;
        };
        let mut run = Run {
            ends,
            session,
            checker: Checker::new(&of_session).expect("good settings"),
            fault: settings.fault,
        };
        let most = settings.count.saturating_sub(tally.inputs) as usize;
        let events = random.between(200, 2000).min(most);
        run.all(events, &mut course, random, tally, &mut met);
        run.checker.end();
        met.meet_premises(&run.checker);
        true
    });
    Report {
        tally,
        runs,
        counts: met.counts(),
    }
}

/// With a recorder that reaches NW + 1 both receivers are locked out alike, and the claims say
/// so.
fn recorded_too_far(random: &mut Random, tally: &mut Tally, met: &mut Met) {
    let (settings, events) = one_more_than_nw();
    let differences = match start(&settings, random) {
        Err(difference) => vec![difference],
        Ok((ends, session)) => {
            let mut run = Run {
                ends,
                session,
                checker: Checker::new(&settings).expect("good settings"),
                fault: Fault::None,
            };
            run.reach_one_more();
            run.lock_out(&events, random)
        }
    };
    if differences.is_empty() {
        met.meet_lockout();
    }
    tally.compared(differences.is_empty(), || {
        format!("  a recorder of NW + 1\n  {}\n", differences.join("\n  "))
    });
}

/// Both ends synchronised and active, and the independent session.
fn start(settings: &session::Settings, random: &mut Random) -> Result<(Ends, Session), String> {
    let (sender, independent) = start_sender(settings, random)?;
    let session = Session::start(settings).map_err(refusal)?;
    if session.sender != independent || independent.state != State::S1 {
        return Err("the sender is not active".to_string());
    }
    let (spacecraft, channel) = (independent.spacecraft, independent.channel);
    let of_receiver = Start {
        spacecraft,
        channel,
        variables: [settings.window, settings.number, settings.buffers].map(|x| x as u32),
    };
    let state = random.octets(RECEIVER_STATE);
    let (_, farm, differences) = receiver_end::start(&of_receiver, state);
    if farm != Some(session.receiver) {
        return Err(format!(
            "the receiver is not at its start\n  {}",
            differences.join("\n  ")
        ));
    }
    let ends = Ends {
        sender,
        receiver: receiver_end::state(&session.receiver, spacecraft, channel),
        frames: VecDeque::new(),
        words: VecDeque::new(),
        recorder: session.recorder.clone(),
    };
    Ok((ends, session))
}

/// Both senders, after Initiate without check.
fn start_sender(
    settings: &session::Settings,
    random: &mut Random,
) -> Result<(SenderEnd, Sender), String> {
    let of_sender = SenderSettings {
        k: settings.k as u32,
        t1_initial: settings.t1_initial as u32,
        transmission_limit: settings.transmission_limit as u32,
        timeout_type: settings.timeout_type as u32,
        spacecraft: settings.spacecraft as u32,
        channel: settings.channel as u32,
        vs: settings.number as u32,
        nnr: settings.number as u32,
    };
    let store = random.octets(fop1::store(settings.k, 0));
    let state = random.octets(SENDER_STATE);
    let (_, pair, differences) = sender_end::start(&of_sender, store, state);
    let Some((mut sender, mut independent)) = pair else {
        return Err(differences.join("\n  "));
    };
    let initiate = SenderEvent::Directive {
        number: 1,
        value: 0,
    };
    let memory = sender.memory(random, [independent.store(), 0, ANSWER]);
    let call = call(&initiate, memory);
    let event = sender_end::independent_event(&initiate).expect("a directive");
    let answer = independent.take(&event, 0, Fault::None);
    let expected = Expected {
        number: answer.refusal,
        answer: Some(answer),
    };
    let differences = call.differences(&expected, &independent);
    if !differences.is_empty() {
        return Err(differences.join("\n  "));
    }
    sender.keep(call, &independent);
    Ok((sender, independent))
}

struct Run {
    ends: Ends,
    session: Session,
    /// The claims about a session.
    checker: Checker,
    fault: Fault,
}

impl Run {
    fn reach_one_more(&mut self) {
        let reach = self.session.recorder.reach + 1;
        self.ends.recorder.reach = reach;
        self.session.recorder.reach = reach;
        self.checker.table.recorder.reach = reach;
    }

    /// The events, at the last of which the receiver must be locked out.
    fn lock_out(&mut self, events: &[Event], random: &mut Random) -> Vec<String> {
        let mut differences = Vec::new();
        let mut claims = Ok(());
        for event in events {
            if claims.is_err() {
                differences.push("a claim fails too soon".to_string());
            }
            let before = self.session.sender.clone();
            let outcome = self.session.step(event, self.fault);
            differences.extend(self.step(event, &outcome, &before, random));
            claims = claims.and(self.checker.check(event, &outcome));
        }
        if claims != Err(NEVER_LOCKED_OUT.to_string()) {
            differences.push("the receiver is not locked out".to_string());
        }
        differences
    }

    /// So many events, fewer where the sender's service has ended, or until they differ.
    fn all(
        &mut self,
        events: usize,
        course: &mut Course,
        random: &mut Random,
        tally: &mut Tally,
        met: &mut Met,
    ) {
        let mut rest = events;
        while rest > 0 {
            let mut draw = |limit| random.below(limit);
            let event = course.next(&mut draw, rest, &self.session, &self.checker);
            let before = self.session.sender.clone();
            let outcome = self.session.step(&event, self.fault);
            let mut differences = self.step(&event, &outcome, &before, random);
            if self.ends.frames != self.session.frames || self.ends.words != self.session.words {
                differences.push("the channels differ".to_string());
            }
            if differences.is_empty() {
                differences.extend(self.checker.check(&event, &outcome).err());
            }
            if differences.is_empty() {
                differences.extend(course.check(&self.session, &mut self.checker).err());
            }
            met.meet(&event, &outcome, &self.session);
            tally.compared(differences.is_empty(), || {
                format!(
                    "  event {} of the session: {event:?}\n  {}\n",
                    events - rest,
                    differences.join("\n  ")
                )
            });
            if !differences.is_empty() {
                return;
            }
            rest -= 1;
            let sender = &self.session.sender;
            if sender.state == State::S6 && !sender.suspended() {
                rest = rest.min(AFTER_THE_END);
            }
        }
    }

    /// The event at the library's ends, compared with the outcome.
    fn step(
        &mut self,
        event: &Event,
        outcome: &Outcome,
        before: &Sender,
        random: &mut Random,
    ) -> Vec<String> {
        let directive = |number, value| SenderEvent::Directive { number, value };
        let (event, room) = match event {
            Event::AdRequest { unit, room } => (SenderEvent::RequestAd(unit.clone()), *room),
            Event::BdRequest { unit, room } => (SenderEvent::RequestBd(unit.clone()), *room),
            Event::Tick { room } => (SenderEvent::Tick, *room),
            Event::Lower { response, room } => (SenderEvent::LowerLayer(lower(response)), *room),
            Event::Terminate => (directive(5, 0), 0),
            Event::Resume { value } => (directive(6, *value as u32), 0),
            Event::Word { room } => match self.ends.words.pop_front() {
                None => return expect_nothing(outcome),
                Some(word) => (SenderEvent::ControlWord(word), *room),
            },
            Event::WordStays { room } => match self.ends.words.front() {
                None => return expect_nothing(outcome),
                Some(word) => (SenderEvent::ControlWord(word.clone()), *room),
            },
            Event::WordNoise { octets, room } => {
                return self.word_noise(octets, *room, outcome, before, random)
            }
            Event::Frame => return self.frame(outcome),
            Event::FrameStays { fill } => return self.frame_stays(fill, outcome),
            Event::FrameAgain { place } => return self.frame_again(*place, outcome),
            Event::Noise { octets } => return self.noise(octets, outcome),
            Event::FrameDamaged { bits } => return self.frame_damaged(bits, outcome),
            Event::FrameFilled { fill } => return self.frame_filled(fill, outcome),
            Event::Release => return self.release(outcome),
            Event::Report => return self.report(outcome, random),
            Event::FrameLost => {
                self.ends.frames.pop_front();
                return expect_nothing(outcome);
            }
            Event::WordLost => {
                self.ends.words.pop_front();
                return expect_nothing(outcome);
            }
        };
        self.send(&event, room, outcome, before, random)
    }

    fn send(
        &mut self,
        event: &SenderEvent,
        room: usize,
        outcome: &Outcome,
        before: &Sender,
        random: &mut Random,
    ) -> Vec<String> {
        let Some(answer) = outcome.sender.clone() else {
            return vec!["the independent sender answers nothing".to_string()];
        };
        // Mostly the store that is needed.
        let beyond = if random.once_in(16) {
            random.below(300)
        } else {
            0
        };
        let lent = [before.store() + beyond, room, ANSWER];
        let memory = self.ends.sender.memory(random, lent);
        let call = call(event, memory);
        let expected = Expected {
            number: answer.refusal,
            answer: Some(answer),
        };
        let mut differences = call.differences(&expected, &self.session.sender);
        if !differences.is_empty() {
            differences.push(call.show(&expected, before));
            return differences;
        }
        if let Some(frame) = call.frame() {
            self.ends.recorder.record(&frame);
            self.ends.frames.push_back(frame);
        }
        self.ends.sender.keep(call, &self.session.sender);
        differences
    }

    /// A word that the library's reader refuses with 7 or 10 leaves the sender and its store
    /// as they were.
    fn word_noise(
        &mut self,
        octets: &[u8],
        room: usize,
        outcome: &Outcome,
        before: &Sender,
        random: &mut Random,
    ) -> Vec<String> {
        let read = library::clcw_read(&mut octets.to_vec(), before.channel);
        if ![ADDRESS, LENGTH].contains(&read.number) {
            return expect_nothing(outcome);
        }
        let end = self.ends.sender.clone();
        let word = SenderEvent::ControlWord(octets.to_vec());
        let mut differences = self.send(&word, room, outcome, before, random);
        if self.ends.sender.state != end.state || self.ends.sender.store != end.store {
            differences.push("noise changes the sender".to_string());
        }
        differences
    }

    fn expected_receiver(&self) -> Vec<u8> {
        let sender = &self.session.sender;
        receiver_end::state(&self.session.receiver, sender.spacecraft, sender.channel)
    }

    fn frame(&mut self, outcome: &Outcome) -> Vec<String> {
        match self.ends.frames.pop_front() {
            Some(frame) => self.arrive(&frame, outcome),
            None => expect_nothing(outcome),
        }
    }

    /// The oldest frame with octets behind it, if they are not too many for the library's reader.
    fn oldest_filled(&self, fill: &[u8]) -> Option<Vec<u8>> {
        let octets = [self.ends.frames.front()?, fill].concat();
        (self.read(&octets).number != FILL).then_some(octets)
    }

    fn frame_stays(&mut self, fill: &[u8], outcome: &Outcome) -> Vec<String> {
        match self.oldest_filled(fill) {
            Some(octets) if self.read(&octets).kind == frame::AD => self.arrive(&octets, outcome),
            _ => expect_nothing(outcome),
        }
    }

    fn frame_again(&mut self, place: usize, outcome: &Outcome) -> Vec<String> {
        let again = self.ends.recorder.again(place, Fault::None);
        self.ends.frames.extend(again.clone());
        match again == outcome.again {
            true => Vec::new(),
            false => vec!["the recorders differ".to_string()],
        }
    }

    /// What the library's reader says of octets.
    fn read(&self, octets: &[u8]) -> frame::Read {
        let (spacecraft, channel) = (self.session.sender.spacecraft, self.session.sender.channel);
        library::frame_read(&mut octets.to_vec(), spacecraft, channel)
    }

    /// A frame of this sender comes, which is never refused.
    fn arrive(&mut self, frame: &[u8], outcome: &Outcome) -> Vec<String> {
        self.receive(DONE, frame, outcome)
    }

    /// Octets that are read with this number come to the receiver.
    fn receive(&mut self, number: u8, octets: &[u8], outcome: &Outcome) -> Vec<String> {
        let Some(received) = &outcome.receiver else {
            return vec!["the independent receiver answers nothing".to_string()];
        };
        let expected = expected_frame(number, received);
        let state = self.expected_receiver();
        receiver_end::frame(&mut self.ends.receiver, octets, &expected, &state)
    }

    /// Octets that the library's reader refuses leave the receiver as it was.
    fn noise(&mut self, octets: &[u8], outcome: &Outcome) -> Vec<String> {
        let number = self.read(octets).number;
        if number == DONE {
            return expect_nothing(outcome);
        }
        let before = self.ends.receiver.clone();
        let mut differences = self.receive(number, octets, outcome);
        if self.ends.receiver != before {
            differences.push("noise changes the receiver".to_string());
        }
        differences
    }

    /// The oldest frame comes with wrong bits, if the library's reader refuses it: noise, and
    /// then the frame is lost.
    fn frame_damaged(&mut self, bits: &[usize], outcome: &Outcome) -> Vec<String> {
        let Some(octets) = self.ends.frames.front().map(|frame| inverted(frame, bits)) else {
            return expect_nothing(outcome);
        };
        if self.read(&octets).number != DONE {
            self.ends.frames.pop_front();
        }
        self.noise(&octets, outcome)
    }

    /// The oldest frame comes with octets behind it. The unit's place and count are those in
    /// the frame alone.
    fn frame_filled(&mut self, fill: &[u8], outcome: &Outcome) -> Vec<String> {
        let Some(octets) = self.oldest_filled(fill) else {
            return expect_nothing(outcome);
        };
        self.ends.frames.pop_front();
        self.arrive(&octets, outcome)
    }

    fn release(&mut self, outcome: &Outcome) -> Vec<String> {
        let Some(received) = &outcome.receiver else {
            return vec!["the independent receiver answers nothing".to_string()];
        };
        let expected = expected_release(received);
        let state = self.expected_receiver();
        receiver_end::release(&mut self.ends.receiver, expected, &state)
    }

    fn report(&mut self, outcome: &Outcome, random: &mut Random) -> Vec<String> {
        let Some(word) = &outcome.report else {
            return vec!["the independent receiver reports nothing".to_string()];
        };
        let output = random.octets(WORD);
        let (word, differences) = receiver_end::word(&mut self.ends.receiver, output, Ok(word));
        self.ends.words.push_back(word);
        differences
    }
}

fn expect_nothing(outcome: &Outcome) -> Vec<String> {
    match *outcome == Outcome::default() {
        true => Vec::new(),
        false => vec!["nothing comes in the library's channel".to_string()],
    }
}

/// The number of a response of the lower layer.
fn lower(response: &fop1::Event) -> u32 {
    match response {
        fop1::Event::AdAccept => 1,
        fop1::Event::AdReject => 2,
        fop1::Event::BcAccept => 3,
        fop1::Event::BcReject => 4,
        fop1::Event::BdAccept => 5,
        fop1::Event::BdReject => 6,
        other => unreachable!("{other:?} is no response of the lower layer"),
    }
}
