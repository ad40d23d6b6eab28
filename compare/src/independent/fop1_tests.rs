//! Hand-computed examples of FOP-1, spot checks of Table 7-8, and random events of a
//! sender alone.

use std::collections::BTreeMap;
use std::time::Instant;

use super::*;
use crate::bits;
use crate::fault::{FOP_FAULTS, STORE_FAULTS, SUSPENSION_FAULTS};
use crate::fecf;
use crate::random::Random;
use crate::refusal::ADDRESS;
use crate::session_random;
use crate::suspension::Law;
use crate::table_7_8::{cell, Action::*, Cell, Reason::*, State::*, TABLE};
use Response::*;

#[path = "fop1_suspension_tests.rs"]
mod suspension;

const ROOMY: usize = frame::FRAME_MOST;

fn settings() -> Settings {
    Settings {
        spacecraft: 1,
        channel: 0,
        v_s: 0,
        nn_r: 0,
        k: 3,
        t1_initial: 2,
        transmission_limit: 3,
        timeout_type: 0,
    }
}

fn with(change: fn(&mut Settings)) -> Sender {
    let mut settings = settings();
    change(&mut settings);
    Sender::start(&settings, STORE).unwrap()
}

/// Active by Initiate without check.
fn active(change: fn(&mut Settings)) -> Sender {
    let mut sender = with(change);
    let answer = take(&mut sender, directive(1, 0));
    let responses = [DirectiveAccept, DirectivePositiveConfirm];
    assert_eq!((answer.row, answer.state), (23, S1));
    assert_eq!(answer.responses, responses);
    sender
}

fn take(sender: &mut Sender, event: Event) -> Answer {
    sender.take(&event, ROOMY, Fault::None)
}

fn ad(octets: &[u8]) -> Event {
    Event::AdRequest(octets.to_vec())
}

fn directive(number: usize, value: usize) -> Event {
    Event::Directive { number, value }
}

/// A word of channel 0 with its flags lockout, wait, retransmit.
fn word(flags: [u8; 3], value: u8) -> Event {
    let report = clcw::Report {
        channel: 0,
        lockout: flags[0].into(),
        wait: flags[1].into(),
        retransmit: flags[2].into(),
        counter: 0,
        value: value.into(),
    };
    Event::ControlWord(bits::to_octets(&clcw::encode(&report, Fault::None)))
}

fn with_fecf(octets: &[u8]) -> Vec<u8> {
    let field = fecf::field(&bits::from_octets(octets), Fault::None);
    [octets, &bits::to_octets(&field)].concat()
}

fn run(first: u8, count: u8) -> Run {
    Run { first, count }
}

/// An AD frame of spacecraft 1, channel 0.
fn ad_frame(number: u8, unit: &[u8]) -> Option<Vec<u8>> {
    let content = Content::Ad {
        number: number.into(),
        unit: unit.to_vec(),
    };
    Some(frame::encode(1, 0, &content, Fault::None))
}

// Document 01, Frame: the three frames, handed down.
#[test]
fn printed_frames() {
    let mut sender = with(|_| ());
    let answer = take(&mut sender, directive(3, 77));
    let unlock = with_fecf(&[0x30, 0x01, 0x00, 0x07, 0x00, 0x00]);
    assert_eq!((answer.row, answer.state), (25, S5));
    assert_eq!(answer.frame, Some(unlock));
    assert_eq!(answer.responses, [DirectiveAccept]);

    let mut sender = with(|_| ());
    let answer = take(&mut sender, directive(4, 5));
    let set_vr = with_fecf(&[0x30, 0x01, 0x00, 0x09, 0x00, 0x82, 0x00, 0x05]);
    assert_eq!((answer.row, answer.state), (27, S5));
    assert_eq!(answer.frame, Some(set_vr));
    assert_eq!((sender.v_s, sender.nn_r), (5, 5));

    let mut sender = active(|settings| {
        settings.spacecraft = 0x2A5;
        settings.channel = 3;
        settings.v_s = 255;
        settings.nn_r = 255;
    });
    let answer = take(&mut sender, ad(&[0xAB]));
    let frame = with_fecf(&[0x02, 0xA5, 0x0C, 0x07, 0xFF, 0xAB]);
    assert_eq!((answer.row, answer.state), (19, S1));
    assert_eq!(answer.frame, Some(frame));
    assert_eq!(answer.responses, [AdAccept]);
    assert_eq!((sender.v_s, sender.timer), (0, 2));
    // Document 01, CLCW: channel 3, no flags, V(R) 17, which is no number outstanding.
    let answer = take(
        &mut sender,
        Event::ControlWord(vec![0x01, 0x0C, 0x04, 0x11]),
    );
    assert_eq!((answer.row, answer.alert), (13, Some(NnR)));
    assert_eq!(answer.denied, run(255, 1));
}

// A window of three: sent, waiting, rejected; then confirmed, over the wrap.
#[test]
fn window_and_wait_queue() {
    let mut sender = active(|settings| {
        settings.v_s = 254;
        settings.nn_r = 254;
    });
    for n in 0..3 {
        let answer = take(&mut sender, ad(&[n]));
        assert_eq!(answer.frame, ad_frame(254u8.wrapping_add(n), &[n]));
        assert_eq!(take(&mut sender, Event::AdAccept).frame, None);
    }
    let answer = take(&mut sender, ad(&[3]));
    assert_eq!(
        (answer.row, answer.frame, answer.responses),
        (19, None, vec![])
    );
    let answer = take(&mut sender, ad(&[4]));
    assert_eq!((answer.row, answer.responses), (20, vec![AdReject]));
    assert_eq!(sender.stored(), [[0], [1], [2], [3]]);

    let answer = take(&mut sender, word([0, 0, 0], 0));
    assert_eq!((answer.row, answer.confirmed), (6, run(254, 2)));
    assert_eq!(answer.frame, ad_frame(1, &[3]));
    assert_eq!(answer.responses, [AdAccept]);
    let answer = take(&mut sender, word([0, 0, 0], 2));
    assert_eq!((answer.row, answer.confirmed), (2, run(0, 2)));
    assert_eq!((sender.timer, sender.sent_queue.len()), (0, 0));
    assert_eq!(take(&mut sender, word([0, 0, 0], 2)).row, 1);
}

// E2 with a unit waiting: the accept stands in the same answer as the run.
#[test]
fn all_confirmed_and_the_next_sent() {
    let mut sender = active(|settings| settings.k = 1);
    take(&mut sender, ad(&[7]));
    take(&mut sender, ad(&[8]));
    assert_eq!(take(&mut sender, Event::AdAccept).frame, None);
    let answer = take(&mut sender, word([0, 0, 0], 1));
    assert_eq!((answer.row, answer.confirmed), (2, run(0, 1)));
    assert_eq!(answer.frame, ad_frame(1, &[8]));
    assert_eq!(answer.responses, [AdAccept]);
    assert_eq!(sender.timer, 2);
}

// The timer: two ticks, an abort, the marked units in their order, then Alert[T1].
#[test]
fn expiry() {
    let mut sender = active(|_| ());
    take(&mut sender, ad(&[0]));
    take(&mut sender, Event::AdAccept);
    take(&mut sender, ad(&[1]));
    assert_eq!(take(&mut sender, Event::Tick).row, 0);
    let answer = take(&mut sender, Event::Tick);
    assert_eq!((answer.row, answer.abort, answer.frame), (16, true, None));
    assert_eq!((sender.transmission_count, sender.timer), (2, 2));
    assert_eq!(take(&mut sender, Event::AdAccept).frame, ad_frame(0, &[0]));
    assert_eq!(sender.timer, 2);
    take(&mut sender, Event::Tick);
    assert_eq!(take(&mut sender, Event::AdAccept).frame, ad_frame(1, &[1]));
    // A resend by Look for FDU starts no timer.
    assert_eq!(sender.timer, 1);
    take(&mut sender, Event::AdAccept);
    let answer = take(&mut sender, Event::Tick);
    assert_eq!((answer.row, answer.frame), (16, ad_frame(0, &[0])));
    assert_eq!(sender.transmission_count, 3);
    take(&mut sender, Event::Tick);
    let answer = take(&mut sender, Event::Tick);
    assert_eq!((answer.row, answer.state, answer.alert), (17, S6, Some(T1)));
    assert_eq!((answer.abort, answer.denied), (false, run(0, 2)));
    assert_eq!((sender.v_s, sender.nn_r, sender.timer), (2, 0, 0));
}

// Document 01, FOP-1: at a transmission limit of 1, one word gives both runs.
#[test]
fn both_runs() {
    let mut sender = active(|settings| settings.transmission_limit = 1);
    for n in 0..3 {
        take(&mut sender, ad(&[n]));
        take(&mut sender, Event::AdAccept);
    }
    take(&mut sender, ad(&[3]));
    let answer = take(&mut sender, word([0, 1, 1], 1));
    assert_eq!(
        (answer.row, answer.state, answer.alert),
        (101, S6, Some(Limit))
    );
    assert_eq!((answer.confirmed, answer.denied), (run(0, 1), run(1, 2)));
    assert_eq!(answer.responses, [AdReject]);
}

// Document 01, FOP-1: one event can answer a directive and a waiting unit.
#[test]
fn terminate() {
    let responses = [DirectiveAccept, AdReject, DirectivePositiveConfirm];
    let mut sender = active(|_| ());
    take(&mut sender, ad(&[0]));
    take(&mut sender, ad(&[1]));
    let answer = take(&mut sender, directive(5, 9));
    assert_eq!(
        (answer.row, answer.state, answer.alert),
        (29, S6, Some(Term))
    );
    assert_eq!(
        (&answer.responses[..], answer.denied),
        (&responses[..], run(0, 1))
    );
    let answer = take(&mut sender, directive(5, 9));
    assert_eq!((answer.alert, answer.responses.len()), (None, 2));

    let responses = [
        DirectiveAccept,
        DirectiveNegativeConfirm,
        DirectivePositiveConfirm,
    ];
    let mut sender = with(|_| ());
    take(&mut sender, directive(3, 0));
    let answer = take(&mut sender, directive(5, 0));
    assert_eq!(
        (answer.alert, &answer.responses[..]),
        (Some(Term), &responses[..])
    );
    assert_eq!(take(&mut sender, directive(3, 0)).row, 26);
    assert_eq!(take(&mut sender, directive(4, 5)).row, 28);
}

// Initialising with BC Frame: resent at the expiry, then confirmed.
#[test]
fn initialising() {
    let mut sender = with(|_| ());
    let frame = take(&mut sender, directive(4, 9)).frame;
    take(&mut sender, Event::Tick);
    let answer = take(&mut sender, Event::Tick);
    assert_eq!((answer.row, answer.abort, answer.frame), (16, true, None));
    assert_eq!(take(&mut sender, Event::BcAccept).frame, frame);
    assert_eq!(take(&mut sender, word([1, 0, 0], 9)).state, S5);
    assert_eq!(take(&mut sender, word([0, 0, 1], 9)).state, S5);
    assert_eq!(take(&mut sender, word([0, 0, 0], 8)).row, 13);
    let answer = take(&mut sender, word([0, 0, 0], 9));
    assert_eq!((answer.row, answer.state), (1, S1));
    assert_eq!(answer.responses, [DirectivePositiveConfirm]);
    assert_eq!((sender.timer, sender.sent_queue.len()), (0, 0));

    // With CLCW check: the timer's expiry is an alert at any count.
    let mut sender = with(|_| ());
    assert_eq!(take(&mut sender, directive(2, 0)).state, S4);
    take(&mut sender, Event::Tick);
    let answer = take(&mut sender, Event::Tick);
    assert_eq!((answer.row, answer.alert), (16, Some(T1)));
    assert_eq!(answer.responses, []);
}

// Rows E8 to E12, the wait flag, and E16 ignored in S3.
#[test]
fn retransmit_and_wait() {
    let mut sender = active(|settings| settings.transmission_limit = 2);
    for n in 0..3 {
        take(&mut sender, ad(&[n]));
        take(&mut sender, Event::AdAccept);
    }
    let answer = take(&mut sender, word([0, 1, 1], 1));
    assert_eq!(
        (answer.row, answer.state, answer.confirmed),
        (9, S3, run(0, 1))
    );
    assert_eq!(take(&mut sender, ad(&[3])).frame, None);
    take(&mut sender, Event::Tick);
    let answer = take(&mut sender, Event::Tick);
    assert_eq!((answer.row, answer.state, sender.timer), (16, S3, 0));
    let answer = take(&mut sender, word([0, 0, 1], 1));
    assert_eq!((answer.row, answer.state, answer.abort), (10, S2, true));
    assert_eq!(answer.frame, ad_frame(1, &[1]));
    let answer = take(&mut sender, word([0, 1, 1], 1));
    assert_eq!((answer.row, answer.state), (103, S3));
    assert_eq!(take(&mut sender, Event::AdAccept).frame, None);
    let answer = take(&mut sender, word([0, 0, 1], 1));
    assert_eq!((answer.row, answer.state, answer.frame), (12, S2, None));
    let answer = take(&mut sender, word([0, 0, 1], 2));
    assert_eq!(
        (answer.row, answer.state, answer.confirmed),
        (8, S2, run(1, 1))
    );
    assert_eq!(answer.frame, ad_frame(2, &[2]));
    assert_eq!(take(&mut sender, Event::AdAccept).frame, ad_frame(3, &[3]));
}

// BD: no response when it is sent, an accept with BD_Accept, a reject before it.
#[test]
fn bd() {
    let mut sender = with(|_| ());
    let answer = take(&mut sender, Event::BdRequest(vec![9]));
    let frame = with_fecf(&[0x20, 0x01, 0x00, 0x07, 0x00, 0x09]);
    assert_eq!((answer.row, answer.frame), (21, Some(frame)));
    assert_eq!(answer.responses, []);
    let answer = take(&mut sender, Event::BdRequest(vec![9]));
    assert_eq!((answer.row, answer.responses), (22, vec![BdReject]));
    let answer = take(&mut sender, Event::BdReject);
    assert_eq!((answer.row, answer.alert), (46, Some(Llif)));
    assert_eq!(take(&mut sender, Event::BdRequest(vec![9])).row, 22);
    assert_eq!(take(&mut sender, Event::BdAccept).responses, [BdAccept]);
    assert_eq!(take(&mut sender, Event::BdRequest(vec![9])).row, 21);
}

// A cell that is Not Applicable and met: E2 in S4.
#[test]
fn not_applicable() {
    let mut sender = active(|_| ());
    take(&mut sender, ad(&[0]));
    take(&mut sender, directive(5, 0));
    take(&mut sender, directive(2, 0));
    let before = sender.clone();
    let answer = take(&mut sender, word([0, 0, 0], 1));
    assert_eq!((answer.row, answer.state), (2, S4));
    assert_eq!((answer.confirmed, answer.responses.len()), (run(0, 0), 0));
    assert_eq!(sender, before);
}

// Document 01, FOP-1: the order 10, 12, 7, 11, and nothing changed.
#[test]
fn refusals() {
    let mut sender = active(|_| ());
    for (event, room, refusal) in [
        (ad(&[]), 0, LENGTH),
        (ad(&[0; 1018]), 0, LENGTH),
        (Event::BdRequest(vec![0; 1018]), ROOMY, LENGTH),
        (Event::BdRequest(vec![]), ROOMY, LENGTH),
        (ad(&[0; 1017]), 1023, ROOM),
        (ad(&[0]), 7, ROOM),
        (Event::BdRequest(vec![0]), 7, ROOM),
        (Event::ControlWord(vec![0x01, 0, 0]), ROOMY, LENGTH),
        (Event::ControlWord(vec![0x01, 0x04, 0, 0]), ROOMY, ADDRESS),
        (directive(0, 0), ROOMY, SETTING),
        (directive(12, 0), ROOMY, SETTING),
        (directive(4, 256), ROOMY, SETTING),
        (directive(7, 256), ROOMY, SETTING),
        (directive(8, 0), ROOMY, SETTING),
        (directive(8, 128), ROOMY, SETTING),
        (directive(9, 0), ROOMY, SETTING),
        (directive(9, 65_536), ROOMY, SETTING),
        (directive(10, 0), ROOMY, SETTING),
        (directive(10, 256), ROOMY, SETTING),
        (directive(11, 2), ROOMY, SETTING),
        (directive(11, 256), ROOMY, SETTING),
    ] {
        let before = sender.clone();
        let answer = sender.take(&event, room, Fault::None);
        assert_eq!((answer.refusal, &sender), (refusal, &before));
        let (row, responses) = match refusal {
            SETTING => (40, vec![DirectiveReject]),
            _ => (0, vec![]),
        };
        assert_eq!((answer.row, answer.responses), (row, responses));
    }
    // An invalid word of another channel is E15 and no refusal.
    let answer = take(&mut sender, Event::ControlWord(vec![0x81, 0x04, 0, 0]));
    assert_eq!(
        (answer.refusal, answer.row, answer.alert),
        (DONE, 15, Some(Clcw))
    );
}

// A refused tick leaves the timer: the next tick is the expiry again.
#[test]
fn refused_tick() {
    let mut sender = active(|_| ());
    take(&mut sender, ad(&[0]));
    take(&mut sender, Event::AdAccept);
    take(&mut sender, Event::Tick);
    assert_eq!(sender.take(&Event::Tick, 7, Fault::None).refusal, ROOM);
    assert_eq!(take(&mut sender, Event::Tick).frame, ad_frame(0, &[0]));
}

// Document 01, Limits and FOP-1.
#[test]
fn starts() {
    assert_eq!(store(3, 0), 4068);
    assert_eq!(Sender::start(&settings(), 4067), Err(ROOM));
    assert!(Sender::start(&settings(), 4068).is_ok());
    assert_eq!(STORE, 130_176);
    type Set = fn(&mut Settings, usize);
    let limits: [(Set, usize, usize); 6] = [
        (|settings, value| settings.timeout_type = value, 0, 1),
        (|settings, value| settings.spacecraft = value, 0, 1023),
        (|settings, value| settings.channel = value, 0, 63),
        (|settings, value| settings.k = value, 1, 127),
        (|settings, value| settings.t1_initial = value, 1, 65_535),
        (
            |settings, value| settings.transmission_limit = value,
            1,
            255,
        ),
    ];
    for (set, least, most) in limits {
        for value in [0, 1, 2, most.saturating_sub(1), most, most + 1, usize::MAX] {
            let mut settings = settings();
            set(&mut settings, value);
            let good = (least..=most).contains(&value);
            assert_eq!(Sender::start(&settings, STORE).is_ok(), good);
        }
    }
    // Any two numbers are taken.
    for (v_s, nn_r, good) in [
        (255, 255, true),
        (256, 256, false),
        (31, 255, true),
        (32, 255, true),
        (0, 1, true),
        (0, 256, false),
    ] {
        let mut settings = settings();
        settings.v_s = v_s;
        settings.nn_r = nn_r;
        assert_eq!(Sender::start(&settings, STORE).is_ok(), good);
    }
}

// Document 02, order 7: "units for K, or for all outstanding if more, and one waiting; a smaller
// one is refusal 11, at Set K by the new K, and K stays".
#[test]
fn stores() {
    let mut sender = active(|settings| settings.k = 4);
    for n in 0..4 {
        take(&mut sender, ad(&[n]));
        take(&mut sender, Event::AdAccept);
    }
    let units = |count: usize| count * UNIT_MOST;
    let lend = |sender: &mut Sender, event: Event, lent: usize| {
        let before = sender.clone();
        let answer = sender.take_with_store(&event, lent, ROOMY, Fault::None);
        assert!(answer.refusal == DONE || (answer.row, &before) == (0, &*sender));
        answer.refusal
    };
    // K 4, 4 outstanding, one more may wait. 10, 12 and 7 come before.
    assert_eq!(lend(&mut sender, Event::Tick, units(5) - 1), ROOM);
    assert_eq!(lend(&mut sender, ad(&[4]), units(5) - 1), ROOM);
    assert_eq!(lend(&mut sender, ad(&[]), 0), LENGTH);
    assert_eq!(
        lend(&mut sender, Event::ControlWord(vec![1, 4, 0, 0]), 0),
        ADDRESS
    );
    assert_eq!(lend(&mut sender, ad(&[4]), units(5)), DONE);
    // Upwards by the new K, and K stays.
    assert_eq!(lend(&mut sender, directive(8, 6), units(7) - 1), ROOM);
    assert_eq!(
        (sender.k, lend(&mut sender, Event::Tick, units(5))),
        (4, DONE)
    );
    assert_eq!(lend(&mut sender, directive(8, 6), units(7)), DONE);
    // Downwards by the units outstanding, whatever K was.
    assert_eq!(lend(&mut sender, directive(8, 1), units(5) - 1), ROOM);
    assert_eq!(lend(&mut sender, directive(8, 1), units(5)), DONE);
    assert_eq!((sender.k, sender.store()), (1, units(5)));
    assert_eq!(lend(&mut sender, Event::BdAccept, units(5) - 1), ROOM);
    // An event is judged by the state before it; then so much less is needed.
    let word = word([0, 0, 0], 3);
    assert_eq!(lend(&mut sender, word.clone(), units(5) - 1), ROOM);
    assert_eq!(lend(&mut sender, word, units(5)), DONE);
    assert_eq!((sender.outstanding(), sender.store()), (1, units(2)));
    assert_eq!(lend(&mut sender, Event::BdAccept, units(2)), DONE);
    // A BC frame is no unit.
    let mut sender = with(|settings| settings.k = 1);
    take(&mut sender, directive(3, 0));
    assert_eq!((sender.sent_queue.len(), sender.outstanding()), (1, 0));
}

// The rows are E1 to E46 and E101 to E104, each once, and these are some cells.
#[test]
fn table() {
    let mut events: Vec<u8> = TABLE.iter().map(|row| row.event).collect();
    events.sort();
    let all: Vec<u8> = (1..=46).chain(101..=104).collect();
    assert_eq!(events, all);
    let to = |actions, next| Cell::Do(actions, next);
    assert_eq!(cell(1, S5), to(&[Confirm, ReleaseBc, CancelTimer], S1));
    assert_eq!(
        cell(2, S3),
        to(&[RemoveAcknowledged, CancelTimer, LookForFdu], S1)
    );
    assert_eq!(cell(4, S5), to(&[Ignore], S5));
    assert_eq!(cell(9, S1), to(&[RemoveAcknowledged], S3));
    assert_eq!(cell(10, S2), to(&[Ignore], S2));
    assert_eq!(cell(12, S3), to(&[Ignore], S2));
    assert_eq!(cell(16, S3), to(&[Ignore], S3));
    assert_eq!(cell(16, S6), Cell::NotApplicable);
    assert_eq!(cell(19, S3), to(&[AddToWaitQueue], S3));
    assert_eq!(cell(41, S3), to(&[AdOutReady], S3));
    assert_eq!(cell(43, S5), to(&[BcOutReady, LookForDirective], S5));
    for state in STATES {
        assert_eq!(cell(42, state), to(&[Alert(Llif)], S6));
        assert_eq!(cell(40, state), to(&[Reject], state));
    }
    // An alert leads to the Initial state.
    for row in &TABLE {
        for cell in row.cells {
            if let Cell::Do(actions, next) = cell {
                let alert = actions.iter().any(|action| matches!(action, Alert(_)));
                assert!(!alert || next == S6);
            }
        }
    }
}

/// What every event keeps.
fn assert_well_formed(sender: &Sender) {
    let q = sender.unacknowledged();
    let queue = &sender.sent_queue;
    let initialising = sender.state == S5;
    assert!(queue.len() <= K_MOST);
    assert!(sender.transmission_count >= 1);
    assert!(sender.timeout_type <= 1);
    assert!(sender.state == S6 || sender.suspend_state == 0);
    if initialising {
        assert!(queue.len() == 1 && queue[0].number().is_none());
    } else {
        assert!(queue.len() <= q as usize);
        for (place, frame) in queue.iter().rev().enumerate() {
            let number = sender.v_s.wrapping_sub(place as u8 + 1);
            assert_eq!(frame.number(), Some(number));
        }
        let first = queue.iter().position(|frame| frame.to_be_retransmitted);
        let marked = &queue[first.unwrap_or(queue.len())..];
        assert!(marked.iter().all(|frame| frame.to_be_retransmitted));
    }
    let effective = sender.effective_state();
    match effective {
        S1 => (),
        S2 | S3 => assert!(q > 0),
        S4 => assert!(queue.is_empty()),
        S5 => assert!(sender.state == S5 && sender.timer > 0),
        S6 => assert!(queue.is_empty()),
    }
    assert!(sender.state != S6 || sender.timer == 0);
    let serving = matches!(effective, S1 | S2 | S3);
    assert!(serving || sender.wait_queue.is_none());
}

/// The numbers of the AD frames on the Sent_Queue.
fn queued(sender: &Sender) -> Vec<u8> {
    let numbers = sender.sent_queue.iter().map(|frame| frame.number());
    numbers.flatten().collect()
}

fn numbers(run: Run) -> Vec<u8> {
    assert!(run.count > 0 || run.first == 0);
    (0..run.count).map(|n| run.first.wrapping_add(n)).collect()
}

/// What every answer holds to.
fn assert_answer(before: &Sender, after: &Sender, answer: &Answer, room: usize) {
    assert_eq!(answer.state, after.state);
    if answer.refusal != DONE {
        assert_eq!(before, after);
        assert!(answer.frame.is_none() && answer.alert.is_none() && !answer.abort);
    }
    // Confirmed, denied and kept make up the units sent.
    let mut told = [numbers(answer.confirmed), numbers(answer.denied)].concat();
    told.extend(queued(after));
    let mut all = queued(before);
    if answer.responses.contains(&AdAccept) {
        all.push(before.v_s);
    }
    assert_eq!(told, all);
    assert!(!answer.suspend || [18, 104].contains(&answer.row));
    if answer.alert.is_some() {
        assert!(after.state == S6 && answer.frame.is_none());
    }
    if let Some(octets) = &answer.frame {
        assert!(octets.len() <= room);
        let read = frame::read(octets, after.spacecraft, after.channel, Fault::None);
        assert_eq!((read.number, read.total as usize), (DONE, octets.len()));
    }
    assert!(!answer.abort || [8, 10, 16, 104].contains(&answer.row));
}

fn random_settings(random: &mut Random) -> Settings {
    let number = random.below(256);
    Settings {
        spacecraft: random.below(1024),
        channel: random.below(64),
        v_s: number,
        nn_r: number,
        k: match random.below(4) {
            0 => random.between(1, K_MOST),
            _ => random.between(1, 32),
        },
        t1_initial: random.between(1, 6),
        transmission_limit: random.between(1, 5),
        timeout_type: random.below(2),
    }
}

// Random events of a sender alone: all directives, words and refusals, every row of Table 7-8.
#[test]
fn random_events() {
    const SENDERS: u64 = 5_000;
    const EVENTS: usize = 1_000;
    let begin = Instant::now();
    let mut cells = BTreeMap::new();
    let mut refusals = BTreeMap::new();
    let mut of_law = BTreeMap::new();
    for seed in 0..SENDERS {
        let mut random = Random::new(seed);
        let mut sender = Sender::start(&random_settings(&mut random), STORE).unwrap();
        let mut law = Law::from(&sender);
        for _ in 0..EVENTS {
            let before = sender.clone();
            let mut draw = |limit| random.below(limit);
            let (event, room) = session_random::sender_event(&mut draw, &sender);
            let answer = sender.take(&event, room, Fault::None);
            assert_answer(&before, &sender, &answer, room);
            assert_well_formed(&sender);
            assert_eq!(law.check(&before, &event, &answer, &sender), Ok(()));
            *refusals.entry(answer.refusal).or_insert(0) += 1;
            if answer.row != 0 {
                *cells.entry((answer.row, before.state)).or_insert(0) += 1;
            }
        }
        for (name, count) in law.met.named() {
            *of_law.entry(name).or_insert(0) += count;
        }
    }
    println!(
        "{} events of {SENDERS} senders in {:?}",
        SENDERS as usize * EVENTS,
        begin.elapsed()
    );
    println!("refusals {refusals:?}");
    println!("suspension {of_law:?}");
    assert!(of_law.values().all(|count| *count > 0));
    println!("{} cells met", cells.len());
    for row in &TABLE {
        assert!(
            cells.keys().any(|cell| cell.0 == row.event),
            "E{}",
            row.event
        );
        for state in STATES {
            if !cells.contains_key(&(row.event, state)) {
                println!("not met: E{} in {state:?}", row.event);
            }
        }
    }
}

// Each fault of FOP-1 is found by comparing answers.
#[test]
fn faults_found() {
    for (name, fault) in FOP_FAULTS.into_iter().chain(SUSPENSION_FAULTS) {
        let found = (0..200).find(|seed| differs(*seed, fault));
        println!("{name}: found with sender {found:?}");
        assert!(found.is_some(), "{name}");
    }
}

// Each fault of the store, and the longer unit, likewise. What is no state is no sender's to say.
#[test]
fn store_faults_found() {
    let of_octets = [
        Fault::FormerLayoutTaken,
        Fault::SuspendedStateRefused,
        Fault::SuspendedUnitsTaken,
    ];
    for (name, fault) in STORE_FAULTS {
        if of_octets.contains(&fault) {
            continue;
        }
        let found = (0..400).find(|seed| store_differs(*seed, fault));
        println!("{name}: found with sender {found:?}");
        assert!(found.is_some(), "{name}");
    }
}

/// The same with stores about the need, and K going up and down.
fn store_differs(seed: u64, fault: Fault) -> bool {
    let mut random = Random::new(seed);
    let mut settings = random_settings(&mut random);
    settings.k = random.between(1, 6);
    let mut right = Sender::start(&settings, STORE).unwrap();
    let mut wrong = right.clone();
    for _ in 0..1_000 {
        let mut draw = |limit| random.below(limit);
        let (event, room) = match draw(8) {
            0 => (directive(8, 1 + draw(6)), ROOMY),
            1 => (ad(&vec![7; UNIT_MOST + draw(2)]), ROOMY),
            _ => session_random::sender_event(&mut draw, &right),
        };
        let need = right.store_at(&event, Fault::None);
        let lent = [need, need - 1, need - UNIT_MOST, need + UNIT_MOST][draw(4)];
        let answer = right.take_with_store(&event, lent, room, Fault::None);
        if wrong.take_with_store(&event, lent, room, fault) != answer {
            return true;
        }
    }
    false
}

/// A sender with the fault and one without differ in an answer to the same events.
fn differs(seed: u64, fault: Fault) -> bool {
    let mut random = Random::new(seed);
    let mut right = Sender::start(&random_settings(&mut random), STORE).unwrap();
    let mut wrong = right.clone();
    for _ in 0..1_000 {
        let mut draw = |limit| random.below(limit);
        let (event, room) = session_random::sender_event(&mut draw, &right);
        let answer = right.take(&event, room, Fault::None);
        if wrong.take(&event, room, fault) != answer {
            return true;
        }
    }
    false
}
