//! The traps of the standard as sessions, how far a recorder may reach, what noise and fill may
//! be, random sessions with every claim checked, and faults that the claims find.

use std::collections::BTreeMap;
use std::time::Instant;

use crate::cltu;
use crate::codeblock::DETECTING;
use crate::farm1;
use crate::fault::{Fault, FOP_FAULTS, PASS_FAULTS, SESSION_FAULTS, SUSPENSION_FAULTS};
use crate::fop1;
use crate::random::Random;
use crate::recorder::one_more_than_nw;
use crate::session::{inverted, Event, Outcome, Session, Settings, INVALID_WORD};
use crate::session_check::{Checker, Claim, NEVER_LOCKED_OUT};
use crate::session_pass::Pass;
use crate::session_random::{self, Course};
use crate::table_7_8::{Reason, State};

const ROOM: usize = 1024;

fn ad(octet: u8) -> Event {
    Event::AdRequest {
        unit: vec![octet],
        room: ROOM,
    }
}

fn accept() -> Event {
    Event::Lower {
        response: fop1::Event::AdAccept,
        room: ROOM,
    }
}

/// With so many octets of fill.
fn frame_stays(count: usize) -> Event {
    Event::FrameStays {
        fill: vec![0x55; count],
    }
}

fn settings() -> Settings {
    Settings {
        spacecraft: 1,
        channel: 0,
        number: 255,
        k: 2,
        t1_initial: 1,
        transmission_limit: 5,
        timeout_type: 0,
        window: 4,
        buffers: 1,
    }
}

/// Runs the events, each checked.
fn run(settings: &Settings, events: &[Event]) -> (Session, Checker, Vec<Outcome>) {
    let mut session = Session::start(settings).unwrap();
    let mut checker = Checker::new(settings).unwrap();
    let mut outcomes = Vec::new();
    for event in events {
        let outcome = session.step(event, Fault::None);
        assert_eq!(checker.check(event, &outcome), Ok(()));
        outcomes.push(outcome);
    }
    assert_eq!(session, checker.table);
    (session, checker, outcomes)
}

// E16 in S3 is Ignore and E6 leaves the timer: a unit is outstanding with no timer and
// no mark.
#[test]
fn outstanding_without_timer() {
    let (tick, word) = (Event::Tick { room: ROOM }, Event::Word { room: ROOM });
    let arrive = [Event::Frame, Event::Report, word];
    let mut events = vec![ad(0), ad(1), accept(), ad(2), tick.clone()];
    events.extend(arrive.clone());
    events.extend([accept(), accept(), accept()]);
    events.extend(arrive.clone());
    events.extend([tick, Event::Release]);
    events.extend(arrive);
    events.push(Event::FrameLost);
    let (session, checker, _) = run(&settings(), &events);
    assert_eq!(session.sender.state, State::S1);
    assert_eq!(session.sender.timer, 0);
    assert_eq!(session.sender.sent_queue.len(), 1);
    assert!(!session.sender.sent_queue[0].to_be_retransmitted);
    assert!(session.frames.is_empty());
    assert_eq!((checker.sent.len(), checker.accepted.len()), (3, 2));
    assert_eq!((checker.confirmed.len(), checker.outstanding.len()), (2, 1));
}

// E12 leads from S3 to S2 without looking for an FDU: AD_Out_Flag is Ready with a unit
// marked and Transmission_Count at its limit; only a further AD_Accept avoids Alert[T1].
#[test]
fn marked_and_not_sent() {
    let mut limit_two = settings();
    limit_two.transmission_limit = 2;
    let (tick, word) = (Event::Tick { room: ROOM }, Event::Word { room: ROOM });
    let arrive = [Event::Frame, Event::Report, word.clone()];
    // The first unit takes the buffer, the next one finds none.
    let mut events = vec![ad(0), accept()];
    events.extend(arrive.clone());
    events.extend([ad(1), accept(), ad(2), accept(), tick.clone()]);
    events.extend(arrive);
    events.extend([accept(), Event::Release, Event::Report, word]);
    let (session, _, outcomes) = run(&limit_two, &events);
    let rows = [4, 9, 12, 16].map(|n: usize| outcomes[n].sender.as_ref().unwrap().row);
    assert_eq!(rows, [2, 16, 103, 12]);
    let sender = &session.sender;
    assert_eq!((sender.state, sender.transmission_count), (State::S2, 2));
    let marks: Vec<bool> = sender
        .sent_queue
        .iter()
        .map(|f| f.to_be_retransmitted)
        .collect();
    assert_eq!(
        (sender.ad_out_ready, &marks[..]),
        (true, &[false, true][..])
    );

    let (_, _, outcomes) = run(&limit_two, &[&events[..], &[accept()]].concat());
    assert!(outcomes[17].sender.as_ref().unwrap().frame.is_some());
    let (_, checker, outcomes) = run(&limit_two, &[&events[..], &[tick]].concat());
    let last = outcomes[17].sender.as_ref().unwrap();
    assert_eq!((last.row, last.alert), (17, Some(Reason::T1)));
    assert_eq!(last.denied, fop1::Run { first: 0, count: 2 });
    assert_eq!(checker.denied.len(), 2);
}

/// A limit of 1, Timeout_Type 1: the first expiry suspends.
fn suspending(k: usize) -> Settings {
    Settings {
        k,
        transmission_limit: 1,
        timeout_type: 1,
        window: 2 * k,
        ..settings()
    }
}

/// So many units sent and the lower layer ready, then the expiry that suspends.
fn suspended(units: usize) -> Vec<Event> {
    let mut events = vec![ad(0)];
    for octet in 1..units {
        events.extend([ad(octet as u8), accept()]);
    }
    events.extend([accept(), Event::Tick { room: ROOM }]);
    events
}

const RESUME: Event = Event::Resume { value: 0 };

// While suspended frames arrive, a word is ignored and Terminate changes nothing; after Resume the
// next word confirms what was outstanding.
#[test]
fn suspends_and_resumes() {
    let word = Event::Word { room: ROOM };
    let mut events = suspended(2);
    events.extend([Event::Frame, Event::Release, Event::Report, word.clone()]);
    events.extend([Event::Terminate, ad(2), Event::Frame]);
    let (session, checker, outcomes) = run(&suspending(2), &events);
    assert!(outcomes[4].sender.as_ref().unwrap().suspend);
    let answer = outcomes[8].sender.as_ref().unwrap();
    assert_eq!((answer.row, answer.confirmed.count), (6, 0));
    let answer = outcomes[9].sender.as_ref().unwrap();
    assert_eq!((answer.row, answer.alert), (29, None));
    let answer = outcomes[10].sender.as_ref().unwrap();
    assert_eq!(answer.responses, [fop1::Response::AdReject]);
    assert_eq!(
        (session.sender.state, session.sender.suspend_state),
        (State::S6, 1)
    );
    assert_eq!((checker.accepted.len(), checker.outstanding.len()), (2, 2));
    assert!(checker.denied.is_empty() && session.words.is_empty());

    events.extend([Event::Release, RESUME, Event::Report, word]);
    let (session, mut checker, _) = run(&suspending(2), &events);
    assert_eq!(
        (session.sender.state, checker.confirmed.len()),
        (State::S1, 2)
    );
    assert!(session.at_rest() && !checker.premise_broken);
    checker.end();
    let met = checker.met;
    assert_eq!((met.suspensions, met.resumes_with_units), (1, 1));
    assert_eq!(
        (met.words_while_suspended, met.terminates_while_suspended),
        (1, 1)
    );
    assert_eq!((met.accepts_while_suspended, met.ends_suspended), (2, 0));

    // The count is at the limit: without the word the next expiry suspends again.
    events.truncate(events.len() - 2);
    events.push(Event::Tick { room: ROOM });
    let (session, mut checker, _) = run(&suspending(2), &events);
    assert!(session.sender.suspended());
    checker.end();
    assert_eq!(
        (checker.met.suspensions, checker.met.ends_suspended),
        (2, 1)
    );
}

// Resume is rejected where nothing is suspended, also after the end.
#[test]
fn resume_without_suspension() {
    for events in [
        vec![RESUME],
        vec![ad(0), RESUME],
        vec![Event::Terminate, RESUME],
    ] {
        let (before, _, _) = run(&suspending(2), &events[..events.len() - 1]);
        let (after, _, outcomes) = run(&suspending(2), &events);
        assert_eq!(after, before);
        let answer = outcomes.last().unwrap().sender.as_ref().unwrap();
        assert_eq!((answer.row, answer.responses.len()), (30, 1));
    }
}

// Why no reject of the lower layer may come while suspended, of whichever type: with K units sent
// and then denied, Resume gives a sender whose window is full by its numbers, and it does not send
// the unit offered to it though none is outstanding.
#[test]
fn reject_while_suspended_breaks_demand_3() {
    let rejects = [
        fop1::Event::AdReject,
        fop1::Event::BcReject,
        fop1::Event::BdReject,
    ];
    for (k, response) in (2..=5).flat_map(|k| rejects.clone().map(|reject| (k, reject))) {
        let reject = Event::Lower {
            response,
            room: ROOM,
        };
        let mut events = suspended(k);
        let at_reject = events.len();
        events.extend([reject, RESUME, ad(9)]);
        let last = events.len() - 1;

        let mut session = Session::start(&suspending(k)).unwrap();
        let [mut of_demand_3, mut of_all, mut checker] =
            [(); 3].map(|_| Checker::new(&suspending(k)).unwrap());
        let mut first_of_all = None;
        for (place, event) in events.iter().enumerate() {
            let outcome = session.step(event, Fault::None);
            let demand_3 = of_demand_3.demand_3_alone(event, &outcome);
            let expected = match place == last {
                false => Ok(()),
                true => Err("a unit offered is sent at once".to_string()),
            };
            assert_eq!(demand_3, expected);
            if of_all.claims(event, &outcome).is_err() {
                first_of_all.get_or_insert(place);
            }
            // Where its premise is broken nothing is claimed.
            assert_eq!(checker.check(event, &outcome), Ok(()));
            assert_eq!(checker.premise_broken, place >= at_reject);
        }
        // What holds besides fails at the reject.
        assert_eq!(first_of_all, Some(at_reject));
        let sender = &session.sender;
        assert_eq!((sender.state, sender.outstanding()), (State::S1, 0));
        assert_eq!(usize::from(sender.unacknowledged()), k);
        assert_eq!(sender.wait_queue, Some(vec![9]));

        // Without the reject the claims hold.
        events.remove(at_reject);
        run(&suspending(k), &events);
    }
}

#[test]
fn empty_channels_give_nothing() {
    let word = Event::Word { room: ROOM };
    let stays = Event::WordStays { room: ROOM };
    let again = Event::FrameAgain { place: 0 };
    let damaged = Event::FrameDamaged { bits: Vec::new() };
    let lost = [Event::FrameLost, Event::WordLost];
    let filled = Event::FrameFilled { fill: Vec::new() };
    let of_channels = [Event::Frame, word, frame_stays(0), stays, again];
    let changed = [damaged, filled];
    for event in of_channels.into_iter().chain(changed).chain(lost) {
        let (session, _, outcomes) = run(&settings(), &[event]);
        assert_eq!(session, Session::start(&settings()).unwrap());
        assert_eq!(outcomes, [Outcome::default()]);
    }
}

// Document 01, The session: a refused event changes neither end, and a word it carried
// is lost.
#[test]
fn a_refused_word_is_lost() {
    let mut one = settings();
    one.k = 1;
    let mut events = vec![ad(0), ad(1), accept(), Event::Frame, Event::Report];
    let (before, _, _) = run(&one, &events);
    events.push(Event::Word { room: 7 });
    let (after, _, outcomes) = run(&one, &events);
    assert_eq!(outcomes[5].sender.as_ref().unwrap().refusal, 11);
    assert_eq!(after.sender, before.sender);
    assert!(after.words.is_empty() && before.words.len() == 1);
}

#[test]
fn starts() {
    let mut wide = settings();
    wide.k = 3;
    assert_eq!(Session::start(&wide), Err(12));
    let session = Session::start(&settings()).unwrap();
    assert_eq!(session.sender.state, State::S1);
    assert!(session.sender.sent_queue.is_empty() && session.sender.timer == 0);
}

/// Runs the events with the recorder reaching so far. The first claim that fails is the error.
fn run_recorded(settings: &Settings, reach: usize, events: &[Event]) -> (Session, Claim) {
    let mut session = Session::start(settings).unwrap();
    let mut checker = Checker::new(settings).unwrap();
    session.recorder.reach = reach;
    checker.table.recorder.reach = reach;
    for event in events {
        let outcome = session.step(event, Fault::None);
        if let Err(words) = checker.check(event, &outcome) {
            return (session, Err(words));
        }
    }
    (session, Ok(()))
}

// NW is as far as a recorder may reach: one unit more locks the receiver out.
#[test]
fn recorder_of_one_more_locks_out() {
    let (settings, events) = one_more_than_nw();
    let (session, claims) = run_recorded(&settings, 1, &events);
    assert_eq!(claims, Ok(()));
    assert_eq!(session.receiver.state, farm1::State::Open);
    let (session, claims) = run_recorded(&settings, 2, &events);
    assert_eq!(claims, Err(NEVER_LOCKED_OUT.to_string()));
    assert_eq!(session.receiver.state, farm1::State::Lockout);
    // It is the last event that does it.
    let (_, claims) = run_recorded(&settings, 2, &events[..8]);
    assert_eq!(claims, Ok(()));
}

// A frame and a word stay any number of times; a BD frame does not.
#[test]
fn frames_and_words_stay() {
    let stays = Event::WordStays { room: ROOM };
    let bd = Event::BdRequest {
        unit: vec![7],
        room: ROOM,
    };
    let events = [
        ad(0),
        bd,
        frame_stays(0),
        frame_stays(6),
        Event::Report,
        stays.clone(),
        stays,
        Event::Frame,
        frame_stays(2),
    ];
    let (session, checker, outcomes) = run(&settings(), &events);
    let farm = |n: usize| outcomes[n].receiver.as_ref().unwrap().event;
    assert_eq!(farm(2), Ok(farm1::Event::E1));
    assert_eq!(farm(3), Ok(farm1::Event::E4));
    assert_eq!(farm(7), Ok(farm1::Event::E4));
    let rows = [5, 6].map(|n: usize| outcomes[n].sender.as_ref().unwrap().row);
    assert_eq!(rows, [2, 1]);
    assert_eq!(outcomes[8], Outcome::default());
    assert_eq!((session.frames.len(), session.words.len()), (1, 1));
    assert_eq!((checker.accepted.len(), checker.confirmed.len()), (1, 1));
}

// Only words refused with 7 or 10 are noise: an invalid one is E15 with Alert[CLCW].
#[test]
fn invalid_word_is_no_noise() {
    let octets = INVALID_WORD.to_vec();
    let noise = Event::WordNoise {
        octets: octets.clone(),
        room: ROOM,
    };
    let (mut session, _, outcomes) = run(&settings(), &[ad(0), noise]);
    assert_eq!(outcomes[1], Outcome::default());
    let word = fop1::Event::ControlWord(octets);
    let answer = session.sender.take(&word, ROOM, Fault::None);
    assert_eq!((answer.refusal, answer.row), (0, 15));
    assert_eq!(
        (answer.alert, answer.state),
        (Some(Reason::Clcw), State::S6)
    );
    assert_eq!(answer.denied.count, 1);

    for (octets, refusal) in [(vec![1, 4, 0, 0], 7), (vec![1, 0, 0], 10)] {
        let noise = Event::WordNoise { octets, room: ROOM };
        let (session, _, outcomes) = run(&settings(), &[ad(0), noise]);
        assert_eq!(outcomes[1].sender.as_ref().unwrap().refusal, refusal);
        assert_eq!(session, run(&settings(), &[ad(0)]).0);
    }
}

// A damaged frame is refused and lost; the same octets as noise leave the frame under way.
#[test]
fn damage_and_noise() {
    let bits = vec![3, 40, 41];
    let (sent, _, _) = run(&settings(), &[ad(0)]);
    let octets = inverted(&sent.frames[0], &bits);
    let damaged = Event::FrameDamaged { bits };
    let (session, _, outcomes) = run(&settings(), &[ad(0), damaged]);
    let received = outcomes[1].receiver.as_ref().unwrap();
    assert_eq!(received.event, Ok(farm1::Event::E9));
    assert!(session.frames.is_empty() && session.receiver == sent.receiver);
    let (session, _, outcomes) = run(&settings(), &[ad(0), Event::Noise { octets }]);
    assert_eq!(outcomes[1].receiver.as_ref(), Some(received));
    assert_eq!(session, sent);
    // The frame itself is no noise.
    let octets = sent.frames[0].clone();
    let (session, _, outcomes) = run(&settings(), &[ad(0), Event::Noise { octets }]);
    assert_eq!(outcomes[1], Outcome::default());
    assert_eq!(session, sent);
}

// A frame with 0 to 6 octets behind it is answered as the frame alone, type AD and BD alike; with
// 7 or more it is nothing, and stays under way. A CLTU that is read hands out 0 to 6 behind it.
#[test]
fn fill_behind_a_frame() {
    for length in 1..=7 {
        let unit = vec![7; length];
        let of_ad = Event::AdRequest {
            unit: unit.clone(),
            room: ROOM,
        };
        let of_bd = Event::BdRequest { unit, room: ROOM };
        for request in [of_ad, of_bd] {
            let (sent, _, _) = run(&settings(), &[request.clone()]);
            let frame = &sent.frames[0];
            let (alone, _, answers) = run(&settings(), &[request.clone(), Event::Frame]);
            let accepted = answers[1].receiver.as_ref().unwrap().accepted.as_ref();
            assert_eq!(accepted.unwrap().data, vec![7; length]);

            let mut handed_out = vec![0; 14];
            let read = cltu::read(
                &cltu::encode(frame, Fault::None),
                DETECTING,
                &mut handed_out,
                Fault::None,
            );
            assert_eq!((read.number, read.count), (0, 14));
            let of_cltu = handed_out[frame.len()..].to_vec();
            assert_eq!(of_cltu, vec![0x55; 7 - length]);

            let any = [0xFF, 0, 0x55, 0xAA, 1, 0x80];
            let any = (0..=6).map(|count| any[..count].to_vec());
            for fill in any.chain([of_cltu, vec![0x55; 6]]) {
                let octets = [frame, &fill[..]].concat();
                let filled = Event::FrameFilled { fill };
                let (session, _, outcomes) = run(&settings(), &[request.clone(), filled]);
                assert_eq!(session, alone);
                assert_eq!(outcomes[1].receiver, answers[1].receiver);
                assert_eq!(outcomes[1].frame, Some(octets));
            }

            for count in [7, 8, 14] {
                let fill = vec![0x55; count];
                let filled = Event::FrameFilled { fill };
                let (session, _, outcomes) = run(&settings(), &[request.clone(), filled]);
                assert_eq!(outcomes[1], Outcome::default());
                assert_eq!(session, sent);
            }
        }
    }
}

// The like of a frame that stays: it is still under way without fill.
#[test]
fn frames_stay_with_fill() {
    let (stayed, _, alone) = run(&settings(), &[ad(0), frame_stays(0)]);
    for count in 0..=6 {
        let (session, _, outcomes) = run(&settings(), &[ad(0), frame_stays(count)]);
        assert_eq!(session, stayed);
        assert_eq!(outcomes[1].receiver, alone[1].receiver);
        let octets = [&stayed.frames[0][..], &vec![0x55; count]].concat();
        assert_eq!(outcomes[1].frame, Some(octets));
    }
    let (sent, _, _) = run(&settings(), &[ad(0)]);
    for count in [7, 14] {
        let (session, _, outcomes) = run(&settings(), &[ad(0), frame_stays(count)]);
        assert_eq!(outcomes[1], Outcome::default());
        assert_eq!(session, sent);
    }
}

// What a denied unit means holds while its frame is under way: it comes on board when the frame
// arrives.
#[test]
fn denied_and_under_way() {
    let events = [ad(0), Event::Terminate, Event::Frame];
    let (_, mut checker, _) = run(&settings(), &events[..2]);
    let met = (checker.met.early_on_board, checker.met.early_not_on_board);
    assert_eq!(met, (0, 1));
    checker.table.receiver.v_r = 0;
    let nothing = (Event::WordLost, Outcome::default());
    assert!(checker.check(&nothing.0, &nothing.1).is_err());
    let (_, checker, _) = run(&settings(), &events);
    assert_eq!((checker.denied.len(), checker.accepted.len()), (1, 1));
    assert_eq!(checker.met.denied_on_board, 1);
}

// Of two units denied the first is on board, and a wrong V(R) would tell otherwise.
#[test]
fn denied_and_on_board() {
    let events = [
        ad(0),
        accept(),
        ad(1),
        Event::Frame,
        Event::FrameLost,
        Event::Terminate,
    ];
    let (_, mut checker, _) = run(&settings(), &events);
    assert_eq!((checker.denied.len(), checker.accepted.len()), (2, 1));
    assert_eq!(checker.met.denied_on_board, 1);
    assert_eq!(checker.met.denied_not_on_board, 1);
    let nothing = (Event::FrameLost, Outcome::default());
    assert_eq!(checker.check(&nothing.0, &nothing.1), Ok(()));
    for v_r in [255, 1] {
        checker.table.receiver.v_r = v_r;
        assert!(checker.check(&nothing.0, &nothing.1).is_err());
    }
}

/// A pass of so many units with the sender's fault.
fn pass(units: usize, fault: Fault) -> Claim {
    let mut session = Session::start(&settings()).unwrap();
    let mut checker = Checker::new(&settings()).unwrap();
    assert!(session.at_rest());
    let units = (0..units).map(|n| vec![n as u8, 1]).collect();
    let mut pass = Pass::new(units, &checker);
    let mut events = 0;
    while !pass.ended() {
        let event = pass.event();
        let outcome = session.step(&event, fault);
        // A pass alone must find the fault, so the other claims are not asked.
        let _ = checker.check(&event, &outcome);
        pass.check(&session, &mut checker)?;
        events += 1;
    }
    assert_eq!(events, 6 * checker.met.passed_units);
    Ok(())
}

// A sender that never sends fails the pass, and so does one whose timer runs on.
#[test]
fn passes() {
    assert_eq!(pass(1, Fault::None), Ok(()));
    assert_eq!(pass(600, Fault::None), Ok(()));
    let words = ["a pass accepts its unit", "a pass ends at rest"];
    for (fault, words) in PASS_FAULTS.into_iter().zip(words) {
        assert_eq!(pass(1, fault), Err(words.to_string()));
    }
}

#[derive(Default)]
struct Counts {
    events: usize,
    sessions: usize,
    sent: usize,
    confirmed: usize,
    most_sent: usize,
    /// The sessions in which the numbers come round.
    round: usize,
    rows: BTreeMap<(u8, State), usize>,
    refusals: BTreeMap<u8, usize>,
    met: BTreeMap<&'static str, usize>,
}

impl Counts {
    fn add(&mut self, checker: &Checker) {
        self.sessions += 1;
        self.sent += checker.sent.len();
        self.most_sent = self.most_sent.max(checker.sent.len());
        self.confirmed += checker.confirmed.len();
        self.round += (checker.sent.len() > 256) as usize;
        for (name, count) in checker.met.named() {
            *self.met.entry(name).or_insert(0) += count;
        }
    }
}

/// One random session, which ends some events after its sender is Initial. The first
/// claim that fails is the error.
fn random_session(seed: u64, fault: Fault, counts: &mut Counts) -> Result<(), String> {
    let mut random = Random::new(seed);
    let mut draw = |limit| random.below(limit);
    let settings = session_random::settings(&mut draw);
    let mut course = Course::new(&mut draw, &settings);
    let mut session = Session::start(&settings).unwrap();
    let mut checker = Checker::new(&settings).unwrap();
    let most = [1_000, 4_000, 16_000][draw(3)];
    let mut rest = 200 + draw(most);
    while rest > 0 {
        let event = course.next(&mut draw, rest, &session, &checker);
        let state = session.sender.state;
        let outcome = session.step(&event, fault);
        checker.check(&event, &outcome)?;
        course.check(&session, &mut checker)?;
        assert!(fault != Fault::None || session == checker.table);
        if let Some(answer) = &outcome.sender {
            *counts.rows.entry((answer.row, state)).or_insert(0) += 1;
            *counts.refusals.entry(answer.refusal).or_insert(0) += 1;
        }
        counts.events += 1;
        rest -= 1;
        if session.sender.state == State::S6 && !session.sender.suspended() {
            rest = rest.min(40);
        }
    }
    checker.end();
    counts.add(&checker);
    Ok(())
}

// At least a million events. The number can be given: SESSION_EVENTS.
#[test]
fn random_sessions() {
    let least = std::env::var("SESSION_EVENTS").ok();
    let least = least.map_or(1_000_000, |number| number.parse().unwrap());
    let begin = Instant::now();
    let mut counts = Counts::default();
    let mut seed = 0;
    while counts.events < least {
        if let Err(words) = random_session(seed, Fault::None, &mut counts) {
            panic!("seed {seed}: {words}");
        }
        seed += 1;
    }
    println!(
        "{} events in {} sessions, {:?}",
        counts.events,
        counts.sessions,
        begin.elapsed()
    );
    println!("{} units sent, {} confirmed", counts.sent, counts.confirmed);
    println!(
        "at most {} units in a session, {} with over 256",
        counts.most_sent, counts.round
    );
    println!("{:?}", counts.met);
    assert!(counts.met.values().all(|count| *count > 0));
    println!("refusals {:?}", counts.refusals);
    let cells = counts.rows.iter();
    let cells: Vec<_> = cells
        .map(|(cell, n)| format!("E{}{:?} {n}", cell.0, cell.1))
        .collect();
    println!("cells: {}", cells.join(", "));
}

// These faults break a claim. Of those of FOP-1 one keeps them all, and is found by comparing the
// answers; another is of a directive that no session has.
#[test]
fn faults_found() {
    let of_sender = FOP_FAULTS.into_iter().chain(SUSPENSION_FAULTS);
    for (name, fault) in of_sender.chain(SESSION_FAULTS) {
        let mut counts = Counts::default();
        let mut found = None;
        for seed in 0..300 {
            if let Err(words) = random_session(seed, fault, &mut counts) {
                found = Some(words);
                break;
            }
        }
        println!("{name}: {found:?} after {} events", counts.events);
        let kept = [Fault::FopNoAbort, Fault::FopTimeoutTypeOneRefused];
        assert_eq!(found.is_none(), kept.contains(&fault), "{name}");
    }
}
