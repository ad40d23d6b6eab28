//! Lists of events by hand, and the claim that each wrong account breaks.

use super::*;
use crate::bits;
use crate::clcw;
use crate::fault::Fault;
use crate::fop1::{store, Settings, STORE, UNIT_MOST};
use crate::frame::FRAME_MOST;
use crate::refusal::{LENGTH, ROOM, SETTING};
use crate::stand_in::StandIn;

const K: usize = 2;
const TERMINATE: Event = Event::Directive {
    number: 5,
    value: 0,
};

/// A fresh sender with K = 2, timer 1, limit 2.
fn fresh(change: fn(&mut Settings)) -> Sender {
    let mut settings = Settings {
        spacecraft: 0x2A5,
        channel: 3,
        v_s: 0,
        nn_r: 0,
        k: K,
        t1_initial: 1,
        transmission_limit: 2,
        timeout_type: 1,
    };
    change(&mut settings);
    Sender::start(&settings, STORE).unwrap()
}

fn ad(octet: u8) -> Event {
    Event::AdRequest(vec![octet])
}

fn directive(number: usize, value: usize) -> Event {
    Event::Directive { number, value }
}

fn word(retransmit: u32, value: u32) -> Event {
    let report = clcw::Report {
        channel: 3,
        lockout: 0,
        wait: 0,
        retransmit,
        counter: 0,
        value,
    };
    Event::ControlWord(bits::to_octets(&clcw::encode(&report, Fault::None)))
}

/// A sender and its ledger.
struct Kept {
    sender: Sender,
    ledger: Ledger,
}

impl Kept {
    fn fresh(change: fn(&mut Settings)) -> Kept {
        let sender = fresh(change);
        let ledger = Ledger::fresh(sender.spacecraft, sender.channel);
        Kept { sender, ledger }
    }

    /// Active, with unit 7 accepted and unit 8 waiting.
    fn serving(change: fn(&mut Settings)) -> Kept {
        let mut kept = Kept::fresh(change);
        kept.take(directive(1, 0));
        assert_eq!(kept.take(ad(7)), [1, 0, 0, 0, 0, 1]);
        assert_eq!(kept.take(ad(8)), [2, 0, 1, 0, 0, 1]);
        kept
    }

    fn take(&mut self, event: Event) -> [usize; 6] {
        self.take_lent(event, STORE, FRAME_MOST).1
    }

    /// The number that the event is answered with, and the counts after it.
    fn take_lent(&mut self, event: Event, store: usize, room: usize) -> (u8, [usize; 6]) {
        let answer = self
            .sender
            .take_with_store(&event, store, room, Fault::None);
        let taken = self
            .ledger
            .take(Some(&event), answer.refusal, Some(&answer));
        assert_eq!(taken, Ok(()));
        (answer.refusal, self.checked())
    }

    fn checked(&self) -> [usize; 6] {
        let held = Held::by_queues(&self.sender);
        assert_eq!(self.ledger.check(&held, &held), Ok(()));
        let counts = self.ledger.counts();
        [
            counts.offered,
            counts.rejected,
            counts.waiting,
            counts.confirmed,
            counts.denied,
            counts.outstanding,
        ]
    }

    fn met(&self, name: &str) -> usize {
        let mut cases = self.ledger.met.named().iter();
        cases.find(|case| case.0 == name).unwrap().1
    }

    /// The claim that breaks where the answer to the event is changed.
    fn broken(&mut self, event: Event, change: impl FnOnce(&mut Answer)) -> String {
        let mut answer = self.sender.take(&event, FRAME_MOST, Fault::None);
        change(&mut answer);
        let number = answer.refusal;
        let taken = self.ledger.take(Some(&event), number, Some(&answer));
        let held = Held::by_queues(&self.sender);
        let checked = taken.and_then(|()| self.ledger.check(&held, &held));
        checked.unwrap_err()
    }
}

#[test]
fn a_fresh_sender_offered_nothing() {
    let mut kept = Kept::fresh(|_| ());
    assert_eq!(kept.checked(), [0; 6]);
    assert_eq!(kept.take(Event::Tick), [0; 6]);
    assert_eq!(kept.ledger.take(None, SETTING, None), Ok(()));
    assert_eq!((kept.checked(), kept.ledger.events), ([0; 6], 2));
}

#[test]
fn accepted_at_once_and_later() {
    let mut kept = Kept::fresh(|_| ());
    assert_eq!(kept.take(ad(6)), [1, 1, 0, 0, 0, 0]);
    kept.take(directive(1, 0));
    assert_eq!(kept.take(ad(7)), [2, 1, 0, 0, 0, 1]);
    assert_eq!(kept.take(ad(8)), [3, 1, 1, 0, 0, 1]);
    assert_eq!(kept.take(ad(9)), [4, 2, 1, 0, 0, 1]);
    assert_eq!(kept.take(Event::AdAccept), [4, 2, 0, 0, 0, 2]);
    assert_eq!(kept.take(ad(10)), [5, 2, 1, 0, 0, 2]);
    assert_eq!(kept.take(Event::AdAccept), [5, 2, 1, 0, 0, 2]);
    // The window opens: confirmed and accepted in one event.
    assert_eq!(kept.take(word(0, 1)), [5, 2, 0, 1, 0, 2]);
    assert_eq!(kept.take(word(0, 3)), [5, 2, 0, 3, 0, 0]);
    for (name, count) in [
        ("rejected at its request, none waiting", 1),
        ("accepted at its request", 1),
        ("left waiting at its request", 2),
        ("rejected at its request, one waiting", 1),
        ("waiting, accepted at AD_Accept", 1),
        ("waiting, accepted at a control word", 1),
        ("confirmed and accepted in one event", 1),
        ("one confirmed", 1),
        ("several confirmed", 1),
    ] {
        assert_eq!(kept.met(name), count, "{name}");
    }
}

// "A request refused by number counts as rejected": 10, and 11 for the store, for the frame, and
// for the answer, which is then not given. The unit waiting still waits.
#[test]
fn refused_by_number() {
    let mut kept = Kept::serving(|_| ());
    let need = store(K, 0);
    let empty = Event::AdRequest(Vec::new());
    let long = Event::AdRequest(vec![0; UNIT_MOST + 1]);
    assert_eq!(kept.take_lent(empty, need, 0).0, LENGTH);
    assert_eq!(kept.take_lent(long, need, 0).0, LENGTH);
    let short = kept.take_lent(ad(9), need - 1, FRAME_MOST);
    assert_eq!(short, (ROOM, [5, 3, 1, 0, 0, 1]));
    assert_eq!(kept.ledger.take(Some(&ad(9)), ROOM, None), Ok(()));
    assert_eq!(kept.checked(), [6, 4, 1, 0, 0, 1]);
    // A refused event changes nothing: the unit is accepted when it comes again.
    let short = kept.take_lent(Event::AdAccept, need, 0);
    assert_eq!(short, (ROOM, [6, 4, 1, 0, 0, 1]));
    assert_eq!(kept.take(Event::AdAccept), [6, 4, 0, 0, 0, 2]);
    kept.take(word(0, 2));
    assert_eq!(kept.take_lent(ad(9), need, 0).0, DONE);
    let short = kept.take_lent(Event::AdAccept, need, 0);
    assert_eq!(short, (ROOM, [7, 4, 1, 2, 0, 0]));
    let mut kept = Kept::fresh(|_| ());
    kept.take(directive(1, 0));
    let short = kept.take_lent(ad(9), need, 0);
    assert_eq!(short, (ROOM, [1, 1, 0, 0, 0, 0]));
    assert_eq!(kept.met("refused by 11"), 1);
}

#[test]
fn denied_and_rejected_at_an_alert() {
    let mut kept = Kept::serving(|_| ());
    assert_eq!(kept.take(TERMINATE), [2, 1, 0, 0, 1, 0]);
    let at_term = ["waiting, rejected at Alert[Term]", "denied at Alert[Term]"];
    assert_eq!(at_term.map(|name| kept.met(name)), [1, 1]);
}

// Document 01, FOP-1: "At a transmission limit of 1, one control word can give both." (E101)
#[test]
fn confirmed_denied_and_rejected_in_one_event() {
    let mut kept = Kept::serving(|settings| settings.transmission_limit = 1);
    kept.take(Event::AdAccept);
    assert_eq!(kept.take(ad(9)), [3, 0, 1, 0, 0, 2]);
    assert_eq!(kept.take(word(1, 1)), [3, 1, 0, 1, 1, 0]);
    assert_eq!(kept.met("confirmed, denied and rejected in one event"), 1);
}

#[test]
fn kept_through_a_suspension() {
    let mut kept = Kept::serving(|_| ());
    kept.take(Event::Tick);
    assert_eq!(kept.take(Event::Tick), [2, 0, 1, 0, 0, 1]);
    assert!(kept.sender.suspended());
    assert_eq!(kept.take(ad(9)), [3, 1, 1, 0, 0, 1]);
    assert_eq!(kept.met("rejected at its request while suspended"), 1);
    assert_eq!(kept.take(TERMINATE), [3, 1, 1, 0, 0, 1]);
    kept.take(directive(6, 0));
    kept.take(Event::AdAccept);
    assert_eq!(kept.take(Event::AdAccept), [3, 1, 0, 0, 0, 2]);
    assert_eq!(kept.take(word(0, 1)), [3, 1, 0, 1, 0, 1]);
    let after = [
        "waiting, accepted after a suspension",
        "confirmed after a suspension",
    ];
    assert_eq!(after.map(|name| kept.met(name)), [1, 1]);
}

#[test]
fn given_up_while_suspended() {
    for (event, suffix) in [
        (Event::AdReject, "at an alert while suspended"),
        (directive(1, 0), "by Initiate while suspended"),
    ] {
        let mut kept = Kept::serving(|_| ());
        kept.take(Event::Tick);
        kept.take(Event::Tick);
        assert_eq!(kept.take(event), [2, 1, 0, 0, 1, 0]);
        let cases = ["waiting, rejected", "denied"];
        assert_eq!(
            cases.map(|case| kept.met(&format!("{case} {suffix}"))),
            [1, 1]
        );
    }
}

// A number means the unit last accepted with it: the first one stays denied.
#[test]
fn a_number_used_again() {
    let mut kept = Kept::serving(|_| ());
    kept.take(TERMINATE);
    kept.take(Event::AdAccept);
    kept.take(directive(4, 0));
    kept.take(word(0, 0));
    assert_eq!(kept.take(ad(9)), [3, 1, 0, 0, 1, 1]);
    assert_eq!(kept.take(word(0, 1)), [3, 1, 0, 1, 1, 0]);
    assert_eq!(
        kept.met("number used again after Initiate with Set V(R)"),
        1
    );
    assert_eq!(kept.met("told of a number used again"), 1);
    kept.take(TERMINATE);
    kept.take(directive(7, 0));
    kept.take(directive(1, 0));
    kept.take(Event::AdAccept);
    assert_eq!(kept.take(ad(9)), [4, 1, 0, 1, 1, 1]);
    assert_eq!(kept.met("number used again after Set V(S)"), 1);
}

#[test]
fn numbers_in_a_circle() {
    let mut kept = Kept::fresh(|settings| (settings.v_s, settings.nn_r) = (255, 255));
    kept.take(directive(1, 0));
    for count in 1..=129 {
        kept.take(ad(7));
        kept.take(Event::AdAccept);
        kept.take(ad(7));
        kept.take(Event::AdAccept);
        let confirmed = kept.take(word(0, (2 * count + 255) % 256));
        assert_eq!(confirmed[3], 2 * count as usize);
    }
    assert_eq!(kept.met("a run from 255 to 0"), 2);
    assert_eq!(kept.met("number used again after 256 units"), 2);
}

#[test]
fn held_in_the_order_of_acceptance() {
    let mut kept = Kept::serving(|settings| (settings.v_s, settings.nn_r) = (255, 255));
    kept.take(Event::AdAccept);
    kept.take(ad(9));
    let held = Held {
        outstanding: vec![(255, &[7]), (0, &[8])],
        waiting: vec![&[9]],
    };
    assert_eq!(kept.ledger.held(), held);
    let turned = Held {
        outstanding: vec![(0, &[8]), (255, &[7])],
        ..held.clone()
    };
    let without = Held {
        waiting: Vec::new(),
        ..held.clone()
    };
    for (by_state, by_table, broken) in [
        (
            &turned,
            &held,
            "those outstanding are held by state and store, in that order",
        ),
        (
            &without,
            &held,
            "the one waiting is held by state and store",
        ),
        (
            &held,
            &turned,
            "those outstanding are on the table's Sent_Queue, in that order",
        ),
        (
            &held,
            &without,
            "the one waiting is on the table's Wait_Queue",
        ),
    ] {
        let broken = Err(broken.to_string());
        assert_eq!(kept.ledger.check(by_state, by_table), broken);
    }
}

const TWO_OF_THESE: &str =
    "every request is rejected, accepted, or waiting, and never two of these";
const NOT_ONCE: &str = "every accepted one is confirmed once, denied once, or outstanding";

#[test]
fn two_responses_to_one_request() {
    let mut kept = Kept::fresh(|_| ());
    kept.take(directive(1, 0));
    let broken = kept.broken(ad(7), |answer| answer.responses.push(Response::AdReject));
    assert_eq!(broken, TWO_OF_THESE);
    let mut kept = Kept::serving(|_| ());
    let broken = kept.broken(ad(9), |answer| answer.responses.push(Response::AdReject));
    assert_eq!(broken, TWO_OF_THESE);
}

#[test]
fn a_response_to_nothing() {
    let mut kept = Kept::fresh(|_| ());
    for response in [Response::AdAccept, Response::AdReject] {
        let broken = kept.broken(Event::Tick, |answer| answer.responses.push(response));
        assert_eq!(broken, "an AD response is to a request, or to one waiting");
    }
}

#[test]
fn an_acceptance_without_its_frame() {
    let active = || {
        let mut kept = Kept::fresh(|_| ());
        kept.take(directive(1, 0));
        kept
    };
    let no_frame = "an accepted unit is handed down in an AD frame";
    assert_eq!(
        active().broken(ad(7), |answer| answer.frame = None),
        no_frame
    );
    let frame_of = |content| Some(frame::encode(0x2A5, 3, &content, Fault::None));
    let bd = frame_of(Content::Bd { unit: vec![7] });
    assert_eq!(active().broken(ad(7), |answer| answer.frame = bd), no_frame);
    let other = frame_of(Content::Ad {
        number: 0,
        unit: vec![8],
    });
    assert_eq!(
        active().broken(ad(7), |answer| answer.frame = other),
        "the AD frame handed down carries the unit accepted"
    );
}

#[test]
fn a_run_of_no_unit() {
    let mut kept = Kept::serving(|_| ());
    let broken = kept.broken(word(0, 1), |answer| answer.confirmed.count += 2);
    assert_eq!(broken, "the units of a run are accepted ones");
}

#[test]
fn decided_twice() {
    for event in [word(0, 1), TERMINATE] {
        let mut kept = Kept::serving(|_| ());
        kept.take(word(0, 1));
        let broken = kept.broken(event, |answer| {
            answer.confirmed = Run { first: 0, count: 1 }
        });
        assert_eq!(broken, NOT_ONCE);
    }
}

#[test]
fn decided_out_of_order() {
    let mut kept = Kept::serving(|_| ());
    kept.take(Event::AdAccept);
    let broken = kept.broken(word(0, 2), |answer| {
        answer.confirmed = Run { first: 1, count: 1 };
        answer.denied = Run { first: 0, count: 1 };
    });
    assert_eq!(
        broken,
        "confirms and denials come in the order of acceptance"
    );
}

#[test]
fn a_refusal_that_tells() {
    let tells = "a refused event tells of no AD unit";
    let confirms: fn(&mut Answer) = |answer| answer.confirmed = Run { first: 0, count: 1 };
    let denies: fn(&mut Answer) = |answer| answer.denied = Run { first: 0, count: 1 };
    let rejects: fn(&mut Answer) = |answer| answer.responses = vec![Response::AdReject];
    let sends: fn(&mut Answer) = |answer| answer.kind = frame::AD;
    for change in [confirms, denies, rejects, sends] {
        let mut kept = Kept::serving(|_| ());
        assert_eq!(kept.broken(directive(12, 0), change), tells);
    }
    let mut kept = Kept::serving(|_| ());
    assert!(kept.ledger.take(Some(&Event::Tick), DONE, None).is_err());
}

/// The claim that finds a sender with a fault in these events, the last one there.
fn found(fault: Fault, events: &[Event]) -> String {
    let mut table = fresh(|_| ());
    let mut stand_in = StandIn::of(&table, fault).unwrap();
    let mut ledger = Ledger::fresh(table.spacecraft, table.channel);
    let last = events.len() - 1;
    for (place, event) in events.iter().enumerate() {
        table.take(event, FRAME_MOST, Fault::None);
        let answer = stand_in.take(event, STORE, FRAME_MOST);
        let taken = ledger.take(Some(event), answer.refusal, Some(&answer));
        let by_state = Held::by_queues(&stand_in.sender);
        let checked = taken.and_then(|()| ledger.check(&by_state, &Held::by_queues(&table)));
        if let Err(claim) = checked {
            assert_eq!(place, last, "{claim}");
            return claim;
        }
    }
    panic!("{fault:?} is not found")
}

// Its own account is whole: only the table says that an alert leaves nothing waiting.
#[test]
fn a_sender_that_keeps_the_unit_waiting() {
    let events = [directive(1, 0), ad(7), ad(8), TERMINATE];
    let claim = found(Fault::LedgerKeepsWaiting, &events);
    assert_eq!(claim, "the one waiting is on the table's Wait_Queue");
}

#[test]
fn a_sender_that_confirms_twice() {
    let events = [directive(1, 0), ad(7), word(0, 1), word(0, 1)];
    assert_eq!(found(Fault::LedgerConfirmsTwice, &events), NOT_ONCE);
}

#[test]
fn a_sender_that_forgets_a_denied_unit() {
    let (first, second) = (ad(7), ad(8));
    let events = [directive(1, 0), first, Event::AdAccept, second, TERMINATE];
    let claim = found(Fault::LedgerForgetsDenied, &events);
    let not_held = "those outstanding are held by state and store, in that order";
    assert_eq!(claim, not_held);
}

// Neither that it is rejected nor that it is accepted.
#[test]
fn a_sender_that_never_answers_a_unit_waiting() {
    let fault = Fault::LedgerWaitingUnanswered;
    let rejected = [directive(1, 0), ad(7), ad(8), TERMINATE];
    let not_held = "the one waiting is held by state and store";
    assert_eq!(found(fault, &rejected), not_held);
    let accepted = [directive(1, 0), ad(7), ad(8), Event::AdAccept];
    let not_told = "those outstanding are held by state and store, in that order";
    assert_eq!(found(fault, &accepted), not_told);
}

#[test]
fn no_stand_in_for_another_fault() {
    let sender = fresh(|_| ());
    for fault in [Fault::None, Fault::FopDeniesNone] {
        assert!(StandIn::of(&sender, fault).is_none());
    }
}
