//! Random runs of a receiver of several channels.

use super::channels_end::{self, Answer};
use super::channels_met::Met;
use super::{compare_runs, Report};
use crate::check::Tally;
use crate::inputs::farm1_channels::{self as inputs, Call, Lent};
use crate::random::Random;
use crate::settings::Settings;
use crate::table_octets;
use independent::farm1_channels::{Channels, Record};
use independent::fault::Fault;

/// The most events of a run.
const SHORT_RUN: usize = 40;
const LONG_RUN: usize = 5000;

/// The table as the library left it, and the independent receiver.
struct Pair {
    lent: Lent,
    receiver: Channels,
}

impl Pair {
    fn of(receiver: Channels) -> Pair {
        let lent = Lent {
            spacecraft: receiver.spacecraft,
            pool: receiver.pool,
            table: table_octets::table(&receiver.records),
        };
        Pair { lent, receiver }
    }

    fn call(&mut self, call: &Call, fault: Fault, met: &mut Met) -> Vec<String> {
        let before = self.receiver.clone();
        let answer = Answer::of(Some(&mut self.receiver), call, fault);
        let causes = before.causes(Fault::None);
        met.call(&before, &causes, &self.lent, call, &answer);
        let expected = table_octets::table(&self.receiver.records);
        channels_end::compare(&mut self.lent, call, &answer, &expected)
    }
}

pub fn compare(settings: &Settings) -> Report {
    let mut met = Met::new();
    let mut fixed = inputs::fixed_starts().into_iter();
    let (tally, runs) = compare_runs(settings, |random, tally| {
        for start in fixed.by_ref() {
            let octets = random.octets(table_octets::RECORD);
            compare_start(start, octets, tally, &mut met);
        }
        // Few events from the midst or without records, so that most are of long runs from the
        // start.
        let (receiver, most) = match random.once_in(4) {
            true => (inputs::any_receiver(random), SHORT_RUN),
            false => (fresh(settings, random, tally, &mut met), LONG_RUN),
        };
        let most = match receiver.records.is_empty() {
            true => SHORT_RUN,
            false => most,
        };
        let events = random.between(1, most);
        run(
            Pair::of(receiver),
            events,
            settings,
            random,
            tally,
            &mut met,
        );
        true
    });
    Report {
        tally,
        runs,
        counts: met.counts(),
    }
}

/// A new record, compared; none where it is refused or differs.
fn compare_start(
    start: [u32; 3],
    octets: Vec<u8>,
    tally: &mut Tally,
    met: &mut Met,
) -> Option<Record> {
    let lent = octets.len();
    let (number, record, differences) = channels_end::start(start, octets);
    met.start(number);
    tally.compared(differences.is_empty(), || {
        let differences = differences.join("\n  ");
        format!("  new: {start:?}, {lent} octets lent\n  {differences}\n")
    });
    record
}

/// A receiver with each channel at its start. One whose settings are refused is tried again,
/// until the events are enough.
fn fresh(settings: &Settings, random: &mut Random, tally: &mut Tally, met: &mut Met) -> Channels {
    let (spacecraft, pool) = inputs::shared(random);
    let mut records = Vec::new();
    let mut left = inputs::channels(random);
    while let Some(channel) = left.pop() {
        if tally.inputs >= settings.count {
            break;
        }
        let start = inputs::start(random, channel);
        let room = inputs::room(random);
        match compare_start(start, random.octets(room), tally, met) {
            Some(record) if start[0] == channel => records.push(record),
            _ => left.push(channel),
        }
    }
    Channels {
        spacecraft,
        pool,
        records,
    }
}

/// The events of a receiver until they are enough, or differ; beside them calls with what is
/// lent spoiled, after which the receiver goes on as it was.
fn run(
    mut pair: Pair,
    events: usize,
    settings: &Settings,
    random: &mut Random,
    tally: &mut Tally,
    met: &mut Met,
) {
    let mut manner = inputs::manner(random);
    for n in 0..events {
        if tally.inputs >= settings.count {
            return;
        }
        if random.once_in(200) {
            manner = inputs::manner(random);
        }
        let call = inputs::call(random, &manner, &pair.receiver);
        let before = pair.lent.clone();
        let differences = match random.once_in(6) {
            true => spoiled(&pair.lent, &call, settings.fault, random, met),
            false => pair.call(&call, settings.fault, met),
        };
        tally.compared(differences.is_empty(), || {
            let differences = differences.join("\n  ");
            format!("  event {n} of the run, {call:?}, before it {before:?}\n  {differences}\n")
        });
        if !differences.is_empty() {
            return;
        }
    }
}

/// The call with what is lent spoiled; what the octets then are is read from them.
fn spoiled(
    lent: &Lent,
    call: &Call,
    fault: Fault,
    random: &mut Random,
    met: &mut Met,
) -> Vec<String> {
    let mut lent = lent.clone();
    inputs::spoil(random, &mut lent);
    let (records, mut causes) = table_octets::read(&lent.table);
    let is_table = causes.is_empty();
    let mut receiver = Channels {
        spacecraft: lent.spacecraft,
        pool: lent.pool,
        records,
    };
    causes.extend(receiver.causes(Fault::None));
    let before = receiver.clone();
    let answer = Answer::of(is_table.then_some(&mut receiver), call, fault);
    met.call(&before, &causes, &lent, call, &answer);
    let expected = match is_table {
        true => table_octets::table(&receiver.records),
        false => lent.table.clone(),
    };
    channels_end::compare(&mut lent, call, &answer, &expected)
}
