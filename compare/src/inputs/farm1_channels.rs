//! Receivers of several channels, what comes to them, and what is lent to them spoiled.

use super::farm1_frames;
use super::frame::of_wrong_command;
use super::{each_too_wide, too_wide};
use crate::random::Random;
use crate::table_octets::{self, RECORD};
use independent::farm1::{State, Variables};
use independent::farm1_channels::{Channels, Record, CHANNELS_MOST, POOL_MOST};
use independent::fault::Fault;
use independent::frame::{self, Content, CHANNEL_MOST, SPACECRAFT_MOST};

/// The octets of a table that is far too long.
const TABLE_MOST: usize = 20_000;

/// What comes to a receiver, or is asked of it.
#[derive(Clone, Debug)]
pub enum Call {
    Frame(Vec<u8>),
    /// It names a channel.
    Release(u32),
    /// The control word of a channel, into this output.
    Word(u32, Vec<u8>),
}

/// What is lent with each call.
#[derive(Clone, Debug)]
pub struct Lent {
    pub spacecraft: u32,
    pub pool: u32,
    pub table: Vec<u8>,
}

/// Channel, W and V(R), of which one is too wide for an octet, or two.
pub fn fixed_starts() -> Vec<[u32; 3]> {
    each_too_wide([3, 20, 4])
}

/// Channel, W and V(R), within or beyond their limits.
pub fn start(random: &mut Random, channel: u32) -> [u32; 3] {
    let mut start = farm1_frames::start(random).variables;
    start.rotate_right(1);
    start[0] = match random.below(24) {
        0 => *random.pick(&[63, 64, 64 + channel, 255]),
        1 => too_wide(random, channel),
        _ => channel,
    };
    start
}

/// The octets lent for a new record.
pub fn room(random: &mut Random) -> usize {
    match random.below(12) {
        0 => random.below(RECORD),
        1 => random.between(RECORD, RECORD + 20),
        _ => RECORD,
    }
}

/// Spacecraft and pool, within their limits; the pool is mostly small.
pub fn shared(random: &mut Random) -> (u32, u32) {
    let pool = match random.below(8) {
        0 => POOL_MOST as usize,
        1 | 2 => random.between(1, POOL_MOST as usize),
        _ => random.between(1, 5),
    };
    (
        random.between(0, SPACECRAFT_MOST as usize) as u32,
        pool as u32,
    )
}

/// The channels of a receiver.
pub fn channels(random: &mut Random) -> Vec<u32> {
    let count = match random.below(16) {
        0 => 0,
        1 => 1,
        2..=5 => CHANNELS_MOST,
        _ => random.between(2, CHANNELS_MOST),
    };
    so_many(random, count)
}

/// So many channels, none twice.
fn so_many(random: &mut Random, count: usize) -> Vec<u32> {
    let mut all: Vec<u32> = (0..=CHANNEL_MOST).collect();
    let channels = (0..count).map(|_| all.remove(random.below(all.len())));
    channels.collect()
}

/// Any record that is well formed and holds so many units.
fn any_record(random: &mut Random, channel: u32, held: usize) -> Record {
    let window = 2 * random.between(1, 127);
    let start = Variables::start(window, random.below(256)).expect("within the limits");
    let retransmit = random.once_in(2);
    let (state, lockout_flag, wait_flag, retransmit_flag) = match random.below(4) {
        0 => (State::Open, false, false, retransmit),
        1 => (State::Wait, false, true, true),
        2 => (State::Lockout, true, false, retransmit),
        _ => (State::Lockout, true, true, true),
    };
    Record {
        channel: channel as u8,
        held: held as u8,
        variables: Variables {
            state,
            lockout_flag,
            wait_flag,
            retransmit_flag,
            farm_b_counter: random.below(4) as u8,
            ..start
        },
    }
}

/// Any records of these channels that together hold so many units at the most.
fn any_records(random: &mut Random, channels: Vec<u32>, most: usize) -> Vec<Record> {
    let mut free = most;
    let mut records = Vec::new();
    let each_holds = random.once_in(4);
    for channel in channels {
        let held = match random.below(4) {
            _ if each_holds => free.min(1),
            0 => free,
            1 => 0,
            _ => random.between(0, free.min(3)),
        };
        free -= held;
        records.push(any_record(random, channel, held));
    }
    records
}

/// A receiver in the midst of its work.
pub fn any_receiver(random: &mut Random) -> Channels {
    let (spacecraft, pool) = shared(random);
    let channels = channels(random);
    Channels {
        spacecraft,
        pool,
        records: any_records(random, channels, pool as usize),
    }
}

/// What comes for a while: the shares of frames, releases and words, and one of so many frames
/// may lock a channel.
pub struct Manner {
    shares: [usize; 3],
    harm: usize,
}

pub fn manner(random: &mut Random) -> Manner {
    Manner {
        shares: *random.pick(&[[12, 6, 2], [18, 1, 1], [10, 9, 1], [8, 3, 6]]),
        harm: *random.pick(&[6, 30, 300]),
    }
}

enum Kind {
    Frame,
    Release,
    Word,
}

pub fn call(random: &mut Random, manner: &Manner, receiver: &Channels) -> Call {
    let [frames, releases, words] = manner.shares;
    let kinds = [
        (frames, Kind::Frame),
        (releases, Kind::Release),
        (words, Kind::Word),
    ];
    match random.pick_by_share(&kinds, |kind| kind.0).1 {
        Kind::Frame => Call::Frame(any_frame(random, manner.harm, receiver)),
        Kind::Release => Call::Release(named(random, receiver)),
        Kind::Word => {
            let room = random.between(0, 8);
            Call::Word(named(random, receiver), random.octets(room))
        }
    }
}

/// A channel, now and then one that has no record or is no channel.
fn named(random: &mut Random, receiver: &Channels) -> u32 {
    let records = &receiver.records;
    if records.is_empty() || random.once_in(12) {
        return random.between(0, CHANNEL_MOST as usize) as u32;
    }
    let busy = |one: &&Record| one.held > 0 || one.variables.state == State::Wait;
    let busy: Vec<&Record> = records.iter().filter(busy).collect();
    let channel = match random.below(3) {
        0 => random.pick(records).channel,
        _ if busy.is_empty() => random.pick(records).channel,
        _ => random.pick(&busy).channel,
    };
    match random.below(24) {
        0 => too_wide(random, channel.into()),
        1 => u32::from(channel) + 64 * random.between(1, 3) as u32,
        _ => channel.into(),
    }
}

/// A frame, mostly to a channel of this receiver.
fn any_frame(random: &mut Random, harm: usize, receiver: &Channels) -> Vec<u8> {
    let any_channel = random.between(0, CHANNEL_MOST as usize) as u32;
    let (mut channel, variables) = match receiver.records.len() {
        0 => (
            any_channel,
            Variables::start(20, 0).expect("within the limits"),
        ),
        _ => {
            let record = random.pick(&receiver.records);
            (record.channel.into(), record.variables)
        }
    };
    let mut spacecraft = receiver.spacecraft;
    match random.below(60) {
        0 | 1 => channel = any_channel,
        2 => spacecraft ^= 1 << random.below(10),
        3 => return of_wrong_command(random, spacecraft, channel),
        4 => return of_wrong_command(random, spacecraft, any_channel),
        5 => return Vec::new(),
        // A locked channel is opened again soon.
        6..=12 if variables.state == State::Lockout => {
            return frame::encode(spacecraft, channel, &Content::Unlock, Fault::None)
        }
        _ => (),
    }
    let mut octets = farm1_frames::frame(random, harm, &variables, spacecraft, channel);
    if random.once_in(500) {
        let behind = random.between(4097, 5000);
        octets.extend(random.octets(behind));
    }
    octets
}

/// Spoils what is lent, in one way or in two; now and then it is good still.
pub fn spoil(random: &mut Random, lent: &mut Lent) {
    spoil_once(random, lent);
    if random.once_in(6) {
        spoil_once(random, lent);
    }
}

fn spoil_once(random: &mut Random, lent: &mut Lent) {
    match random.below(16) {
        0 => lent.spacecraft = beyond(random, lent.spacecraft, SPACECRAFT_MOST),
        1 => lent.pool = beyond(random, lent.pool, POOL_MOST),
        2 => lent.pool = random.between(0, 20) as u32,
        3 => lent.pool = too_wide(random, lent.pool),
        4 => hold_more(random, lent),
        5 | 6 => more_records(random, lent),
        7 | 8 => repeat_channel(random, lent),
        9 => {
            let length = random.between(0, lent.table.len());
            lent.table.truncate(length);
        }
        10 => {
            let behind = random.between(1, 2 * RECORD);
            lent.table.extend(random.octets(behind));
        }
        11 if random.once_in(4) => {
            let times = TABLE_MOST / lent.table.len().max(1);
            lent.table = lent.table.repeat(random.between(1, times.max(1)));
        }
        11 => lent.table.clear(),
        12 => {
            let count = random.between(0, CHANNELS_MOST + 1);
            let channels = so_many(random, count);
            let records = any_records(random, channels, lent.pool as usize % 20);
            lent.table = table_octets::table(&records);
        }
        _ => damage(random, &mut lent.table),
    }
}

/// A number above its limit.
fn beyond(random: &mut Random, good: u32, most: u32) -> u32 {
    match random.below(4) {
        0 => most + 1,
        1 => most + 1 + good,
        2 => *random.pick(&[255, 256, 65_535, 65_536, u32::MAX]) | (most + 1),
        _ => too_wide(random, good),
    }
}

/// More is held than the pool has, by records or by a pool that is less.
fn hold_more(random: &mut Random, lent: &mut Lent) {
    let (mut records, _) = table_octets::read(&lent.table);
    if records.is_empty() {
        return;
    }
    let pool = lent.pool as u8;
    let record = random.below(records.len());
    records[record].held = match random.below(3) {
        0 => pool.wrapping_add(1),
        1 => pool,
        _ => random.between(0, 255) as u8,
    };
    lent.table = table_octets::table(&records);
}

/// Eight, nine or more records, all good but for their count.
fn more_records(random: &mut Random, lent: &mut Lent) {
    let (mut records, _) = table_octets::read(&lent.table);
    let count = match random.below(8) {
        0 => random.between(CHANNELS_MOST + 1, CHANNEL_MOST as usize + 1),
        1 => CHANNELS_MOST,
        _ => CHANNELS_MOST + 1,
    };
    for channel in so_many(random, count) {
        let known = records.iter().any(|one| u32::from(one.channel) == channel);
        if records.len() < count && !known {
            records.push(any_record(random, channel, 0));
        }
    }
    lent.table = table_octets::table(&records);
}

/// A record takes the channel of another, or stands twice.
fn repeat_channel(random: &mut Random, lent: &mut Lent) {
    let (mut records, _) = table_octets::read(&lent.table);
    if records.is_empty() {
        return;
    }
    let channel = random.pick(&records).channel;
    let place = random.below(records.len());
    match random.below(3) {
        0 => records.push(any_record(random, channel.into(), 0)),
        _ => records[place].channel = channel,
    }
    lent.table = table_octets::table(&records);
}

/// Changes octets or bits of records.
fn damage(random: &mut Random, table: &mut [u8]) {
    if table.is_empty() {
        return;
    }
    for _ in 0..*random.pick(&[1, 1, 1, 2, 5]) {
        let place = random.below(table.len());
        match random.below(3) {
            0 => table[place] = *random.pick(&[0, 1, 2, 3, 4, 8, 63, 64, 127, 128, 255]),
            1 => table[place] = random.number() as u8,
            _ => random.flip_a_bit(table),
        }
    }
}
