//! Suspension and Resume (document 02, order 9): each new row of Table 7-8 by hand, what each
//! event does while suspended, and the law of suspension.

use super::*;
use crate::suspension::Law;

/// Timer 1, a limit of so many transmissions, Timeout_Type 1.
fn short(limit: usize) -> Settings {
    Settings {
        t1_initial: 1,
        transmission_limit: limit,
        timeout_type: 1,
        ..settings()
    }
}

/// Active with units 0 and 1 sent, unit 2 waiting, AD_Out_Flag as the last frame left it.
fn serving(limit: usize) -> Sender {
    let mut settings = short(limit);
    settings.k = 2;
    let mut sender = Sender::start(&settings, STORE).unwrap();
    take(&mut sender, directive(1, 0));
    take(&mut sender, ad(&[0]));
    take(&mut sender, Event::AdAccept);
    take(&mut sender, ad(&[1]));
    take(&mut sender, ad(&[2]));
    assert_eq!(sender.stored(), [[0], [1], [2]]);
    sender
}

/// Suspended with both units marked and one waiting: the first expiry marks, the second is at the
/// limit.
fn suspended() -> Sender {
    let mut sender = serving(2);
    assert_eq!(take(&mut sender, Event::Tick).row, 104);
    assert_eq!(take(&mut sender, Event::Tick).row, 18);
    assert_eq!((sender.state, sender.suspend_state), (S6, 1));
    assert_eq!(marks(&sender), [true, true]);
    assert_eq!((sender.timer, sender.transmission_count), (0, 2));
    sender
}

fn marks(sender: &Sender) -> Vec<bool> {
    let queue = sender.sent_queue.iter();
    queue.map(|frame| frame.to_be_retransmitted).collect()
}

/// The answer tells the state, the row, these responses, and nothing else.
fn tells(answer: &Answer, row: u8, state: State, responses: &[Response]) {
    let expected = Answer {
        row,
        responses: responses.to_vec(),
        ..Answer::of_state(state)
    };
    assert_eq!(*answer, expected);
}

/// The sender with other variables than before in these alone.
fn changed(sender: &Sender, change: impl FnOnce(&mut Sender)) -> Sender {
    let mut changed = sender.clone();
    change(&mut changed);
    changed
}

const DONE_AT_ONCE: [Response; 2] = [DirectiveAccept, DirectivePositiveConfirm];

// E18 in S1 to S4: SS := 1 to 4, Suspend. All else is as it was, the timer run down.
#[test]
fn suspends_at_the_limit() {
    let in_s1 = serving(1);
    let mut in_s2 = serving(2);
    assert_eq!(take(&mut in_s2, word([0, 0, 1], 0)).state, S2);
    let mut in_s3 = serving(2);
    take(&mut in_s3, Event::Tick);
    assert_eq!(take(&mut in_s3, word([0, 1, 1], 0)).row, 103);
    let mut in_s4 = Sender::start(&short(1), STORE).unwrap();
    assert_eq!(take(&mut in_s4, directive(2, 0)).state, S4);
    for (number, before) in (1..).zip([in_s1, in_s2, in_s3, in_s4]) {
        assert_eq!((before.state.number(), before.timer), (number, 1));
        let mut sender = before.clone();
        let mut law = Law::from(&sender);
        let answer = take(&mut sender, Event::Tick);
        let notified = Answer {
            row: 18,
            suspend: true,
            ..Answer::of_state(S6)
        };
        assert_eq!(answer, notified);
        let after = changed(&before, |sender| {
            sender.state = S6;
            sender.suspend_state = number;
            sender.timer = 0;
        });
        assert_eq!(sender, after);
        let checked = law.check(&before, &Event::Tick, &answer, &sender);
        assert_eq!((checked, law.met.suspensions), (Ok(()), 1));
    }
}

// E18 in S5 is Alert[T1]: the type-BC frame is given up.
#[test]
fn never_suspends_with_a_command() {
    let mut sender = Sender::start(&short(1), STORE).unwrap();
    assert_eq!(take(&mut sender, directive(4, 9)).state, S5);
    let answer = take(&mut sender, Event::Tick);
    assert_eq!((answer.row, answer.alert), (18, Some(T1)));
    assert_eq!(answer.responses, [DirectiveNegativeConfirm]);
    assert!(!answer.suspend && !sender.suspended());
}

// E104, short of the limit: as E16 in S1, S2, S3 and S5, but S4 suspends at its first expiry.
#[test]
fn expires_short_of_the_limit() {
    let mut in_s1 = serving(3);
    take(&mut in_s1, Event::AdAccept);
    let mut in_s2 = in_s1.clone();
    assert_eq!(take(&mut in_s2, word([0, 0, 1], 0)).state, S2);
    let mut in_s3 = in_s1.clone();
    assert_eq!(take(&mut in_s3, word([0, 1, 1], 0)).state, S3);
    let mut in_s5 = Sender::start(&short(3), STORE).unwrap();
    take(&mut in_s5, directive(3, 0));
    for mut sender in [in_s1, in_s2, in_s3, in_s5] {
        let mut other = changed(&sender, |sender| sender.timeout_type = 0);
        let (answer, alerting) = (
            take(&mut sender, Event::Tick),
            take(&mut other, Event::Tick),
        );
        assert_eq!((answer.row, alerting.row), (104, 16));
        assert_eq!(Answer { row: 16, ..answer }, alerting);
        assert_eq!(changed(&sender, |sender| sender.timeout_type = 0), other);
    }

    let mut sender = Sender::start(&short(3), STORE).unwrap();
    take(&mut sender, directive(2, 0));
    let answer = take(&mut sender, Event::Tick);
    assert_eq!((answer.row, answer.suspend, answer.state), (104, true, S6));
    assert_eq!((sender.suspend_state, sender.transmission_count), (4, 1));
    // Resume awaits the control word again.
    tells(&take(&mut sender, directive(6, 0)), 34, S4, &DONE_AT_ONCE);
    assert_eq!((sender.timer, sender.suspend_state), (1, 0));
    let answer = take(&mut sender, word([0, 0, 0], 0));
    tells(&answer, 1, S1, &[DirectivePositiveConfirm]);
}

// E31 to E34 by Suspend_State, whatever the value. No frame is looked for, though one is marked,
// one waits and the lower layer is ready.
#[test]
fn resumes() {
    let mut held = suspended();
    take(&mut held, Event::AdAccept);
    held.t1_initial = 7;
    for (number, state) in (1..).zip([S1, S2, S3, S4]) {
        for value in [0, 1, 2, 255, 65_536, usize::MAX] {
            let before = changed(&held, |sender| {
                sender.suspend_state = number;
                if state == S4 {
                    sender.sent_queue.clear();
                    sender.wait_queue = None;
                }
            });
            let mut sender = before.clone();
            let mut law = Law::from(&sender);
            let event = directive(6, value);
            let answer = take(&mut sender, event.clone());
            tells(&answer, 30 + number, state, &DONE_AT_ONCE);
            let after = changed(&before, |sender| {
                sender.state = state;
                sender.suspend_state = 0;
                sender.timer = 7;
            });
            assert_eq!(sender, after);
            assert_eq!(law.check(&before, &event, &answer, &sender), Ok(()));
            // Not suspended any more: E30.
            let answer = take(&mut sender, event);
            tells(&answer, 30, state, &[DirectiveReject]);
        }
    }
    // The next accept of the lower layer sends the oldest marked unit.
    take(&mut held, directive(6, 0));
    assert_eq!(take(&mut held, Event::AdAccept).frame, ad_frame(0, &[0]));
    assert_eq!(take(&mut held, Event::AdAccept).frame, ad_frame(1, &[1]));
    let answer = take(&mut held, word([0, 0, 0], 2));
    assert_eq!((answer.row, answer.confirmed), (2, run(0, 2)));
    // The unit that waited is sent with the accept after that.
    assert_eq!(take(&mut held, Event::AdAccept).frame, ad_frame(2, &[2]));
}

// The count stays at the limit: the next expiry suspends again, unless the limit is raised.
#[test]
fn suspends_again() {
    let mut sender = suspended();
    let first = sender.clone();
    take(&mut sender, directive(6, 0));
    let answer = take(&mut sender, Event::Tick);
    assert_eq!((answer.row, answer.suspend), (18, true));
    assert_eq!(sender, first);

    assert_eq!(take(&mut sender, directive(10, 3)).row, 38);
    take(&mut sender, directive(6, 0));
    let answer = take(&mut sender, Event::Tick);
    assert_eq!((answer.row, answer.suspend), (104, false));
}

// E29 in S6: accepted and confirmed, no alert, both runs empty, all the same.
#[test]
fn terminate_while_suspended() {
    let mut sender = suspended();
    let before = sender.clone();
    tells(&take(&mut sender, directive(5, 9)), 29, S6, &DONE_AT_ONCE);
    assert_eq!(sender, before);
    // After Resume it ends the service.
    take(&mut sender, directive(6, 0));
    let answer = take(&mut sender, directive(5, 9));
    assert_eq!((answer.alert, answer.denied), (Some(Term), run(0, 2)));
    assert_eq!((sender.suspend_state, sender.stored().len()), (0, 0));
}

// Requests, ticks, accepts and all words while suspended.
#[test]
fn ignored_while_suspended() {
    let before = suspended();
    let mut sender = before.clone();
    tells(&take(&mut sender, ad(&[3])), 20, S6, &[AdReject]);
    tells(&take(&mut sender, Event::Tick), 0, S6, &[]);
    let flags = (0..8).map(|n| [n >> 2, n >> 1 & 1, n & 1]);
    for flags in flags {
        for report in [0, 1, 2, 3, 255] {
            let answer = take(&mut sender, word(flags, report));
            assert!(answer.row >= 1 && answer.row != 15);
            tells(&answer, answer.row, S6, &[]);
        }
    }
    let invalid = Event::ControlWord(vec![0x80, 0, 0, 0]);
    tells(&take(&mut sender, invalid), 15, S6, &[]);
    assert_eq!(sender, before);
    // With nothing waiting a unit is rejected all the same.
    let mut empty = changed(&before, |sender| sender.wait_queue = None);
    tells(&take(&mut empty, ad(&[3])), 19, S6, &[AdReject]);
    assert_eq!(empty.wait_queue, None);

    // An accept makes its flag Ready, and no frame is looked for.
    assert!(!sender.ad_out_ready);
    tells(&take(&mut sender, Event::AdAccept), 41, S6, &[]);
    assert_eq!(
        sender,
        changed(&before, |sender| sender.ad_out_ready = true)
    );
    tells(&take(&mut sender, Event::BcAccept), 43, S6, &[]);
    // The expedited service goes on.
    let answer = take(&mut sender, Event::BdRequest(vec![9]));
    assert_eq!((answer.row, answer.kind, answer.state), (21, frame::BD, S6));
    let answer = take(&mut sender, Event::BdRequest(vec![9]));
    tells(&answer, 22, S6, &[BdReject]);
    tells(&take(&mut sender, Event::BdAccept), 45, S6, &[BdAccept]);
    assert_eq!(
        sender,
        changed(&before, |sender| sender.ad_out_ready = true)
    );
}

// The directives that set variables. Set V(S) is rejected by the cell's IF.
#[test]
fn set_while_suspended() {
    let before = suspended();
    let mut sender = before.clone();
    tells(
        &take(&mut sender, directive(7, 9)),
        35,
        S6,
        &[DirectiveReject],
    );
    assert_eq!(sender, before);
    for (number, value, row) in [
        (8, 9, 36),
        (9, 9, 37),
        (10, 9, 38),
        (11, 0, 39),
        (11, 1, 39),
    ] {
        let answer = take(&mut sender, directive(number, value));
        tells(&answer, row, S6, &DONE_AT_ONCE);
    }
    let after = changed(&before, |sender| {
        sender.k = 9;
        sender.t1_initial = 9;
        sender.transmission_limit = 9;
    });
    assert_eq!(sender, after);
    let answer = take(&mut sender, directive(11, 2));
    assert_eq!((answer.refusal, answer.row), (SETTING, 40));
    // Suspended with Timeout_Type 0: Resume all the same, and then E17.
    take(&mut sender, directive(11, 0));
    take(&mut sender, directive(9, 1));
    take(&mut sender, directive(10, 2));
    assert_eq!(take(&mut sender, directive(6, 0)).row, 31);
    let answer = take(&mut sender, Event::Tick);
    assert_eq!((answer.row, answer.alert), (17, Some(T1)));
    assert_eq!(
        (answer.denied, answer.responses),
        (run(0, 2), vec![AdReject])
    );
}

// An accepted Initiate purges and ends the suspension; a rejected one leaves it.
#[test]
fn initiate_while_suspended() {
    for (number, row, state) in [(1, 23, S1), (2, 24, S4), (3, 25, S5), (4, 27, S5)] {
        let mut sender = suspended();
        let answer = take(&mut sender, directive(number, 77));
        assert_eq!((answer.row, answer.state, answer.alert), (row, state, None));
        assert_eq!((answer.confirmed, answer.denied), (run(0, 0), run(0, 2)));
        let confirmed = [DirectiveAccept, AdReject, DirectivePositiveConfirm];
        let count = if number == 1 { 3 } else { 2 };
        assert_eq!(answer.responses, confirmed[..count]);
        assert_eq!((sender.suspend_state, sender.stored().len()), (0, 0));
        assert_eq!(sender.transmission_count, 1);
        let v_s = if number == 4 { 77 } else { 2 };
        assert_eq!(sender.v_s, v_s);
    }
    let before = changed(&suspended(), |sender| sender.bc_out_ready = false);
    for (number, row) in [(3, 26), (4, 28)] {
        let mut sender = before.clone();
        let answer = take(&mut sender, directive(number, 77));
        tells(&answer, row, S6, &[DirectiveReject]);
        assert_eq!(sender, before);
    }
}

// A reject of the lower layer: Alert[LLIF], the queues empty, Suspend_State as it was. Resume then
// gives S1 to S4 with nothing held.
#[test]
fn reject_while_suspended() {
    let rejects = [
        (Event::AdReject, 42),
        (Event::BcReject, 44),
        (Event::BdReject, 46),
    ];
    for (reject, row) in rejects {
        for (number, state) in (1..).zip([S1, S2, S3]) {
            let before = changed(&suspended(), |sender| sender.suspend_state = number);
            let mut sender = before.clone();
            let mut law = Law::from(&sender);
            let answer = take(&mut sender, reject.clone());
            let alerted = Answer {
                row,
                alert: Some(Llif),
                denied: run(0, 2),
                responses: vec![AdReject],
                ..Answer::of_state(S6)
            };
            assert_eq!(answer, alerted);
            let after = changed(&before, |sender| {
                sender.sent_queue.clear();
                sender.wait_queue = None;
            });
            assert_eq!(sender, after);
            assert_well_formed(&sender);
            assert_eq!(law.check(&before, &reject, &answer, &sender), Ok(()));

            let event = directive(6, 0);
            let answer = take(&mut sender, event.clone());
            tells(&answer, 30 + number, state, &DONE_AT_ONCE);
            assert_eq!((sender.stored().len(), sender.timer), (0, 1));
            assert_eq!((sender.v_s, sender.nn_r), (2, 0));
            assert_eq!(law.check(&after, &event, &answer, &sender), Ok(()));
            assert_eq!(law.met.resumes_after_reject, 1);
        }
    }
    let mut sender = Sender::start(&short(1), STORE).unwrap();
    take(&mut sender, directive(2, 0));
    take(&mut sender, Event::Tick);
    let answer = take(&mut sender, Event::BcReject);
    assert_eq!((answer.alert, answer.responses), (Some(Llif), vec![]));
    assert_eq!(take(&mut sender, directive(6, 0)).state, S4);
}

// A store that is too short refuses Resume and leaves the suspension.
#[test]
fn refused_while_suspended() {
    let mut sender = suspended();
    let before = sender.clone();
    let lent = sender.store() - 1;
    for event in [directive(6, 0), directive(1, 0), Event::AdReject] {
        let answer = sender.take_with_store(&event, lent, ROOMY, Fault::None);
        let refused = Answer {
            refusal: ROOM,
            ..Answer::of_state(S6)
        };
        assert_eq!((answer, &sender), (refused, &before));
    }
}

// Each fault of suspension breaks the law, but for the one that never suspends by a directive.
#[test]
fn law_finds_faults() {
    for (name, fault) in SUSPENSION_FAULTS {
        let found = (0..200).find_map(|seed| law_broken(seed, fault));
        println!("{name}: {found:?}");
        let kept = fault == Fault::FopTimeoutTypeOneRefused;
        assert_eq!(found.is_none(), kept, "{name}");
    }
    assert_eq!((0..20).find_map(|seed| law_broken(seed, Fault::None)), None);
}

/// The first claim of the law that a sender with the fault breaks.
fn law_broken(seed: u64, fault: Fault) -> Option<String> {
    let mut random = Random::new(seed);
    let mut sender = Sender::start(&random_settings(&mut random), STORE).unwrap();
    let mut law = Law::from(&sender);
    for _ in 0..1_000 {
        let before = sender.clone();
        let mut draw = |limit| random.below(limit);
        let (event, room) = session_random::sender_event(&mut draw, &sender);
        let answer = sender.take(&event, room, fault);
        let checked = law.check(&before, &event, &answer, &sender);
        if checked.is_err() {
            return checked.err();
        }
    }
    None
}
