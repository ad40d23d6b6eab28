//! Random runs of a sender.

use super::sender_end::{self, call, Call, Expected, SenderEnd};
use super::sender_ledger::Account;
use super::{compare_runs, damage, refusal, Counts, Report, ENOUGH_TO_MEET_ALL};
use crate::check::Tally;
use crate::inputs::fop1::{self as inputs, Manner};
use crate::inputs::suspended;
use crate::library::{SenderEvent, SenderMemory, SenderSettings};
use crate::octets::{in_former_layout, is_former_layout, ANSWER, SENDER_STATE};
use crate::random::Random;
use crate::settings::Settings;
use independent::clcw;
use independent::fault::Fault;
use independent::fop1::{self, Answer, Sender, K_MOST, UNIT_MOST};
use independent::frame::{self, FRAME_MOST};
use independent::ledger;
use independent::refusal::{ADDRESS, DONE, LENGTH, ROOM, SETTING};
use independent::suspension::{self, Law};
use independent::table_7_8::{cell, Cell, STATES, TABLE};

/// The octets of the shortest unit beyond the limit.
const TOO_LONG: usize = UNIT_MOST + 1;

/// In one of so many runs, once in so many events, a suspended sender is restored. A ledger is kept
/// until then.
const RESTORING: usize = 3;
const RESTORED: usize = 150;

/// At least one of so many events is of a ledger.
const LEDGER_SHARE: u64 = 2;

const KINDS: [&str; 15] = [
    "new",
    "new refused 11",
    "new refused 12",
    "value above 65535",
    "lower layer of another number",
    "frame handed down",
    "unit of 1017 octets",
    "unit of 1018 octets",
    "127 units sent",
    "127 units sent and one waiting",
    "127 units of 1017 octets sent",
    "more units sent than K",
    "Set K upwards with units sent",
    "Set K downwards with units sent",
    "Set K below the units sent",
];

const EVENTS: [&str; 8] = [
    "AD request",
    "BD request",
    "directive of another number",
    "tick",
    "word",
    "word of another channel",
    "word invalid",
    "word of another length",
];

/// Those of the widest window.
const WIDEST: [&str; 3] = [
    "127 units sent",
    "127 units sent and one waiting",
    "127 units of 1017 octets sent",
];

/// The case of a ledger that only brisk runs meet.
const ALL_NUMBERS: &str = "number used again after 256 units";

/// By number, from 1 on.
const DIRECTIVES: [&str; 11] = [
    "directive 1",
    "directive 2",
    "directive 3",
    "directive 4",
    "directive 5",
    "directive 6",
    "directive 7",
    "directive 8",
    "directive 9",
    "directive 10",
    "directive 11",
];

/// By number, from 1 on.
const LOWER_LAYER: [&str; 6] = [
    "AD_Accept",
    "AD_Reject",
    "BC_Accept",
    "BC_Reject",
    "BD_Accept",
    "BD_Reject",
];

/// What comes while suspended beside the events.
const WHILE_SUSPENDED: [&str; 3] = [
    "Resume with value 0",
    "Resume with another value",
    "BD frame handed down",
];

const LENDINGS: [&str; 17] = [
    "whole",
    "store longer than the need",
    "other octets behind the units",
    "other octets behind the units, none held",
    "store one octet too short",
    "store too short",
    "Set K, store for the old K alone",
    "Set K, store for the new K alone",
    "store for K, more units sent",
    "output too short",
    "AD request, store too short",
    "AD request, output too short",
    "answer too short",
    "former layout",
    "no state",
    "damaged and perhaps a state",
    "suspended sender restored",
];

/// The units of all ledgers, those waiting and outstanding at their ends.
const UNITS: [&str; 6] = [
    "offered",
    "rejected",
    "waiting",
    "confirmed",
    "denied",
    "outstanding",
];

struct Met {
    kinds: Counts,
    /// The events that come to a suspended sender, and are not short of room.
    while_suspended: Counts,
    lendings: Counts,
    /// Octets that are no state, though nearly of a suspended sender.
    ill_formed: Counts,
    refusals: Counts,
    states: Counts,
    rows: Counts,
    cells: Counts,
    /// The cases of the law of suspension.
    law: Counts,
    /// The events of ledgers, their units and their cases.
    ledger_events: Counts,
    units: Counts,
    ledger: Counts,
}

/// Counts of some things by name.
fn named<'a>(title: &'static str, names: impl IntoIterator<Item = &'a str>) -> Counts {
    Counts::new(title, names.into_iter().map(str::to_string))
}

impl Met {
    /// Of so many events.
    fn new(count: u64) -> Met {
        let events = [&EVENTS[..], &DIRECTIVES, &LOWER_LAYER].concat();
        let kinds = [&KINDS[..], &events].concat();
        let while_suspended = [&events[..], &WHILE_SUSPENDED].concat();
        let law = suspension::Met::default().named();
        let ledger = ledger::Met::default();
        let ledger = ledger.named().iter().map(|case| &case.0[..]);
        let rows = || TABLE.iter().map(|row| row.event);
        let refusals = [DONE, ADDRESS, LENGTH, ROOM, SETTING].map(refusal);
        let met_in = |row: u8| {
            STATES
                .into_iter()
                .filter(move |state| cell(row, *state) != Cell::NotApplicable)
                .map(move |state| cell_name(row, state.number()))
        };
        Met {
            kinds: named("kinds", kinds),
            while_suspended: named("while suspended", while_suspended),
            lendings: named("lent", LENDINGS),
            ill_formed: named("no state", suspended::ILL_FORMED.map(|kind| kind.0)),
            refusals: Counts::new("refusals", refusals.into_iter()),
            states: Counts::new("states", STATES.iter().map(|state| format!("{state:?}"))),
            rows: Counts::new("rows", rows().map(|row| format!("E{row}"))),
            // Some cells can't be come to.
            cells: Counts {
                required: false,
                ..Counts::new("cells", rows().flat_map(met_in))
            },
            law: named("law of suspension", law.map(|met| met.0)),
            ledger_events: Counts {
                least: count / LEDGER_SHARE,
                ..named("ledgers", ["events"])
            },
            units: named("units of ledgers", UNITS),
            ledger: named("cases of ledgers", ledger),
        }
    }

    /// What the law met in a run.
    fn meet_law(&mut self, law: &Law) {
        for (name, count) in law.met.named() {
            self.law.meet_often(name, count as u64);
        }
    }

    /// What a ledger came to.
    fn meet_ledger(&mut self, account: Option<Account>) {
        let Some(Account { ledger, .. }) = account else {
            return;
        };
        self.ledger_events
            .meet_often("events", ledger.events as u64);
        let counts = ledger.counts();
        let counts = [
            counts.offered,
            counts.rejected,
            counts.waiting,
            counts.confirmed,
            counts.denied,
            counts.outstanding,
        ];
        for (name, count) in UNITS.into_iter().zip(counts) {
            self.units.meet_often(name, count as u64);
        }
        for (name, count) in ledger.met.named() {
            self.ledger.meet_often(name, *count as u64);
        }
    }
}

fn cell_name(row: u8, state: u8) -> String {
    format!("E{row} S{state}")
}

pub fn compare(settings: &Settings) -> Report {
    let mut met = Met::new(settings.count);
    let mut fixed = inputs::fixed_settings().into_iter();
    let enough = settings.count >= ENOUGH_TO_MEET_ALL;
    let (tally, runs) = compare_runs(settings, |random, tally| {
        // Until the widest window was full, and then until all numbers were used.
        let is_full = WIDEST.iter().all(|name| met.kinds.is_met(name));
        let is_round = met.ledger.is_met(ALL_NUMBERS);
        let is_widest = enough && fixed.len() == 0 && !(is_full && is_round);
        let memory = match fixed.next() {
            Some(settings) => (
                settings,
                random.octets(4 * UNIT_MOST),
                random.octets(SENDER_STATE),
            ),
            None if is_widest => inputs::widest(random),
            None => inputs::start(random),
        };
        let Some((end, sender)) = start(memory, tally, &mut met) else {
            return false;
        };
        let manner = match is_widest {
            true if is_full => Manner::brisk(5000),
            true => Manner::full(1),
            false => Manner::new(random, &sender),
        };
        run(end, sender, &manner, settings, random, tally, &mut met);
        true
    });
    Report {
        tally,
        runs,
        counts: vec![
            met.kinds,
            met.while_suspended,
            met.lendings,
            met.ill_formed,
            met.refusals,
            met.states,
            met.rows,
            met.cells,
            met.law,
            met.ledger_events,
            met.units,
            met.ledger,
        ],
    }
}

/// A new sender, where it is not refused.
fn start(
    (settings, store, state): (SenderSettings, Vec<u8>, Vec<u8>),
    tally: &mut Tally,
    met: &mut Met,
) -> Option<(SenderEnd, Sender)> {
    let (number, pair, differences) = sender_end::start(&settings, store, state);
    met.refusals.meet(&refusal(number));
    met.kinds.meet(match number {
        DONE => "new",
        ROOM => "new refused 11",
        _ => "new refused 12",
    });
    tally.compared(differences.is_empty(), || {
        format!("  new: {settings:?}\n  {}\n", differences.join("\n  "))
    });
    pair
}

/// The events of a sender until they are enough, or differ.
fn run(
    mut end: SenderEnd,
    mut sender: Sender,
    manner: &Manner,
    settings: &Settings,
    random: &mut Random,
    tally: &mut Tally,
    met: &mut Met,
) {
    let (least, most) = manner.events;
    let restoring = !manner.full && random.once_in(RESTORING);
    let mut law = Law::from(&sender);
    let mut account = Some(Account::of(&sender, settings.fault));
    for n in 0..random.between(least, most) {
        if tally.inputs >= settings.count {
            break;
        }
        if restoring && random.once_in(RESTORED) {
            met.meet_law(&law);
            met.meet_ledger(account.take());
            (end, sender) = restored(random, &sender);
            law = Law::from(&sender);
            met.lendings.meet("suspended sender restored");
        }
        let event = inputs::event(random, manner, &sender);
        let (memory, ill_formed) = memory(&event, &end, &sender, random, met);
        let before = sender.clone();
        let call = call(&event, memory);
        let is_damaged = call.before.state != end.state;
        let is_former = is_former_layout(&call.before.state);
        let is_no_state = is_former || ill_formed.is_some();
        let expected = match call.refused_at_once(settings.fault) {
            Some(expected) => expected,
            // Perhaps a state by chance: only that nothing beside it is touched is judged.
            None if is_damaged && !is_no_state => {
                met.lendings.meet("damaged and perhaps a state");
                tally.compared(true, String::new);
                continue;
            }
            None => expected(&call, &mut sender, settings.fault),
        };
        if is_former {
            met.lendings.meet("former layout");
        } else if is_damaged {
            met.lendings.meet("no state");
        }
        if let Some(why) = ill_formed {
            met.ill_formed.meet(why);
        }
        meet(&call, &expected, &before, met);
        let mut differences = call.differences(&expected, &sender);
        differences.extend(check_law(&mut law, &event, &expected, (&before, &sender)));
        if let Some(account) = account.as_mut().filter(|_| !is_damaged) {
            let broken = account.check(&call, &end, &sender).err();
            differences.extend(broken.map(|claim| format!("ledger: {claim}")));
        }
        tally.compared(differences.is_empty(), || {
            format!(
                "  event {n} of the run: {}\n{}",
                differences.join("\n  "),
                call.show(&expected, &before)
            )
        });
        if !differences.is_empty() {
            break;
        }
        if !is_damaged {
            end.keep(call, &sender);
        }
    }
    met.meet_law(&law);
    met.meet_ledger(account);
}

/// The law of suspension where the event came to the sender.
fn check_law(
    law: &mut Law,
    event: &SenderEvent,
    expected: &Expected,
    (before, after): (&Sender, &Sender),
) -> Option<String> {
    let event = sender_end::independent_event(event)?;
    let answer = expected.answer.as_ref()?;
    law.check(before, &event, answer, after).err()
}

/// A suspended sender whose octets the library did not write.
fn restored(random: &mut Random, settings: &Sender) -> (SenderEnd, Sender) {
    let sender = suspended::sender(random, settings);
    let (state, store) = suspended::octets(random, &sender);
    (SenderEnd { state, store }, sender)
}

/// What the independent sender answers.
fn expected(call: &Call, sender: &mut Sender, fault: Fault) -> Expected {
    let event = sender_end::independent_event(&call.event).expect("a good number");
    let (store, room) = (call.before.store.len(), call.before.output.len());
    let answer = sender.take_with_store(&event, store, room, fault);
    Expected {
        number: answer.refusal,
        answer: Some(answer),
    }
}

/// What is lent: mostly enough. Where the octets are made to be no state, why they are none.
fn memory(
    event: &SenderEvent,
    end: &SenderEnd,
    sender: &Sender,
    random: &mut Random,
    met: &mut Met,
) -> (SenderMemory, Option<&'static str>) {
    // A tick seldom hands a frame down.
    let often = matches!(event, SenderEvent::Tick);
    let output = match random.below(if often { 6 } else { 24 }) {
        0 => random.below(17),
        1 => random.between(0, FRAME_MOST + 4),
        2 => need(event, sender),
        3 => need(event, sender).saturating_sub(1),
        _ => random.between(FRAME_MOST, FRAME_MOST + 4),
    };
    let answer = match random.below(4) {
        0 => random.between(ANSWER, ANSWER + 20),
        _ => ANSWER,
    };
    let store = store(event, sender, random, met);
    let mut memory = end.memory(random, [store, output, answer]);
    lend_anew(&mut memory.store, sender, random, met);
    let mut ill_formed = None;
    match random.below(160) {
        0 => memory.answer.truncate(random.below(ANSWER)),
        1 => memory.state = in_former_layout(&end.state, random.once_in(2)),
        2..=4 => damage(random, &mut memory.state),
        5 | 6 => {
            let (why, octets) = suspended::ill_formed(random, sender);
            (memory.state, ill_formed) = (octets, Some(why));
        }
        _ => (),
    }
    if memory.answer.len() < ANSWER {
        met.lendings.meet("answer too short");
    } else if memory.state == end.state {
        met.lendings.meet("whole");
    }
    (memory, ill_formed)
}

/// The octets of the store that is lent: mostly the need; at Set K more often about it, and what
/// other readings of the need would be.
fn store(event: &SenderEvent, sender: &Sender, random: &mut Random, met: &mut Met) -> usize {
    let (k, sent) = (usize::from(sender.k), sender.outstanding());
    let independent = sender_end::independent_event(event);
    let need = independent.map_or(sender.store(), |event| sender.store_at(&event, Fault::None));
    let set_k = matches!(event, SenderEvent::Directive { number: 8, .. });
    let lent = match random.below(if set_k { 10 } else { 60 }) {
        0 => need - 1,
        1 => need - UNIT_MOST,
        2 => need + random.between(1, 300),
        3 => need + UNIT_MOST,
        4 => fop1::store(k, 0),
        5 => fop1::store(k, sent),
        6 if random.once_in(4) => *random.pick(&[0, 1, UNIT_MOST, fop1::STORE]),
        _ => need,
    };
    if lent > need {
        met.lendings.meet("store longer than the need");
    } else if lent == need - 1 {
        met.lendings.meet("store one octet too short");
    } else if lent < need {
        met.lendings.meet("store too short");
    }
    if set_k && lent == fop1::store(k, sent) && lent < need {
        met.lendings.meet("Set K, store for the old K alone");
    } else if set_k && lent == need && need < fop1::store(k, sent) {
        met.lendings.meet("Set K, store for the new K alone");
    } else if !set_k && lent == fop1::store(k, 0) && lent < need {
        met.lendings.meet("store for K, more units sent");
    }
    lent
}

/// Mostly the octets behind the units are other ones than the last event left: a host may lend any
/// first part that has the units, and what it likes behind it.
fn lend_anew(store: &mut [u8], sender: &Sender, random: &mut Random, met: &mut Met) {
    let units = sender.stored();
    let last = units.last().map_or(0, Vec::len);
    let kept = units.len().saturating_sub(1) * UNIT_MOST + last;
    if store.len() <= kept || random.once_in(3) {
        return;
    }
    let kept = match random.below(3) {
        0 => random.between(kept, store.len()),
        _ => kept,
    };
    let others = random.octets(store.len() - kept);
    store[kept..].copy_from_slice(&others);
    met.lendings.meet(match units.len() {
        0 => "other octets behind the units, none held",
        _ => "other octets behind the units",
    });
}

/// The octets of the frame that the event hands down, or some.
fn need(event: &SenderEvent, sender: &Sender) -> usize {
    let Some(event) = sender_end::independent_event(event) else {
        return 0;
    };
    let answer = sender.clone().take(&event, usize::MAX, Fault::None);
    answer.frame.map_or(8, |frame| frame.len())
}

fn meet(call: &Call, expected: &Expected, before: &Sender, met: &mut Met) {
    met.refusals.meet(&refusal(call.number));
    meet_event(&call.event, before, met);
    meet_window(&call.event, before, met);
    met.states.meet(&format!("S{}", before.state.number()));
    let Some(answer) = &expected.answer else {
        return;
    };
    if before.suspended() && answer.refusal != ROOM {
        meet_while_suspended(&call.event, answer, before, met);
    }
    let event = sender_end::independent_event(&call.event);
    let need = event.map_or(0, |event| before.store_at(&event, Fault::None));
    let is_request = matches!(call.event, SenderEvent::RequestAd(_));
    let store_short = call.before.store.len() < need;
    if answer.refusal == ROOM && !store_short {
        met.lendings.meet("output too short");
    }
    if answer.refusal == ROOM && is_request {
        met.lendings.meet(match store_short {
            true => "AD request, store too short",
            false => "AD request, output too short",
        });
    }
    if answer.row != 0 {
        met.rows.meet(&format!("E{}", answer.row));
        if cell(answer.row, before.state) != Cell::NotApplicable {
            met.cells
                .meet(&cell_name(answer.row, before.state.number()));
        }
    }
    if answer.frame.is_some() {
        met.kinds.meet("frame handed down");
    }
}

fn meet_while_suspended(event: &SenderEvent, answer: &Answer, sender: &Sender, met: &mut Met) {
    let met = &mut met.while_suspended;
    met.meet(event_name(event, sender));
    match event {
        SenderEvent::Directive {
            number: 6,
            value: 0,
        } => met.meet("Resume with value 0"),
        SenderEvent::Directive { number: 6, .. } => met.meet("Resume with another value"),
        _ if answer.kind == frame::BD => met.meet("BD frame handed down"),
        _ => (),
    }
}

/// How many units are sent, and where K goes with units sent.
fn meet_window(event: &SenderEvent, sender: &Sender, met: &mut Met) {
    let (k, sent) = (usize::from(sender.k), sender.outstanding());
    if sent == K_MOST {
        met.kinds.meet(match sender.wait_queue {
            None => "127 units sent",
            Some(_) => "127 units sent and one waiting",
        });
        if sender.stored().iter().all(|unit| unit.len() == UNIT_MOST) {
            met.kinds.meet("127 units of 1017 octets sent");
        }
    }
    if sent > k {
        met.kinds.meet("more units sent than K");
    }
    let SenderEvent::Directive { number: 8, value } = event else {
        return;
    };
    let new_k = *value as usize;
    if sent == 0 || new_k == k || !(1..=K_MOST).contains(&new_k) {
        return;
    }
    met.kinds.meet(match new_k {
        _ if new_k < sent => "Set K below the units sent",
        _ if new_k < k => "Set K downwards with units sent",
        _ => "Set K upwards with units sent",
    });
}

fn event_name(event: &SenderEvent, sender: &Sender) -> &'static str {
    match event {
        SenderEvent::RequestAd(_) => "AD request",
        SenderEvent::RequestBd(_) => "BD request",
        SenderEvent::Directive {
            number: number @ 1..=11,
            ..
        } => DIRECTIVES[*number as usize - 1],
        SenderEvent::Directive { .. } => "directive of another number",
        SenderEvent::Tick => "tick",
        SenderEvent::LowerLayer(number @ 1..=6) => LOWER_LAYER[*number as usize - 1],
        SenderEvent::LowerLayer(_) => "lower layer of another number",
        SenderEvent::ControlWord(word) => {
            let read = clcw::read(word, sender.channel, Fault::None);
            match (read.number, read.valid) {
                (LENGTH, _) => "word of another length",
                (ADDRESS, _) => "word of another channel",
                (_, 0) => "word invalid",
                _ => "word",
            }
        }
    }
}

fn meet_event(event: &SenderEvent, sender: &Sender, met: &mut Met) {
    met.kinds.meet(event_name(event, sender));
    match event {
        SenderEvent::Directive { value, .. } if *value > 65_535 => {
            met.kinds.meet("value above 65535")
        }
        SenderEvent::RequestAd(unit) | SenderEvent::RequestBd(unit) => match unit.len() {
            UNIT_MOST => met.kinds.meet("unit of 1017 octets"),
            TOO_LONG => met.kinds.meet("unit of 1018 octets"),
            _ => (),
        },
        _ => (),
    }
}
