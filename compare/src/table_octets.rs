//! The records of several channels as they cross the boundary: 9 octets each, one behind the
//! other.

use crate::octets::{flags, state_number};
use independent::farm1::{Variables, STATES};
use independent::farm1_channels::{Cause, Record};

/// The octets of a record.
pub const RECORD: usize = 9;

/// The places of a record's octets that the laws below read.
const CHANNEL: usize = 3;
const HELD: usize = 5;

const MARK: u8 = 0x43;
const LAYOUT: u8 = 1;

/// The weights of the flags; no other is set.
const LOCKOUT: u8 = 4;
const WAIT: u8 = 2;
const RETRANSMIT: u8 = 1;
const FLAGS_END: u8 = 8;

pub fn record(record: &Record) -> [u8; RECORD] {
    let of = &record.variables;
    [
        MARK,
        LAYOUT,
        state_number(of.state),
        record.channel,
        of.window,
        record.held,
        of.v_r,
        flags(of),
        of.farm_b_counter,
    ]
}

pub fn table(records: &[Record]) -> Vec<u8> {
    records.iter().flat_map(record).collect()
}

/// Reads a record back; none where the octets are not laid out as one.
fn read_record(octets: &[u8]) -> Option<Record> {
    let state = STATES
        .into_iter()
        .find(|one| state_number(*one) == octets[2])?;
    if octets[0] != MARK || octets[1] != LAYOUT || octets[7] >= FLAGS_END {
        return None;
    }
    let flag = |weight: u8| octets[7] & weight != 0;
    Some(Record {
        channel: octets[CHANNEL],
        held: octets[HELD],
        variables: Variables {
            state,
            lockout_flag: flag(LOCKOUT),
            wait_flag: flag(WAIT),
            retransmit_flag: flag(RETRANSMIT),
            v_r: octets[6],
            farm_b_counter: octets[8],
            window: octets[4],
        },
    })
}

/// The records that a table has, and why it is none, if it is not.
pub fn read(table: &[u8]) -> (Vec<Record>, Vec<Cause>) {
    let pieces = table.chunks_exact(RECORD);
    let whole = pieces.remainder().is_empty();
    let pieces: Vec<Option<Record>> = pieces.map(read_record).collect();
    let mut causes = Vec::new();
    if pieces.contains(&None) {
        causes.push(Cause::NoRecord);
    }
    if !whole {
        causes.push(Cause::NotWhole);
    }
    (pieces.into_iter().flatten().collect(), causes)
}

/// Document 02, order 8, as the octets show it: what an event of this channel, or of none, does
/// to no table, with so many buffers in the pool. None where it holds.
pub fn broken(before: &[u8], after: &[u8], channel: Option<u8>, pool: u32) -> Option<&'static str> {
    let pairs = before.chunks(RECORD).zip(after.chunks(RECORD));
    let mut others = pairs.filter(|(one, _)| channel.is_none() || channel != Some(one[CHANNEL]));
    let held: usize = after.chunks(RECORD).map(|one| usize::from(one[HELD])).sum();
    if before.len() != after.len() || others.any(|(one, other)| one != other) {
        Some("the record of another channel is changed")
    } else if held > pool as usize {
        Some("more is held than the pool has")
    } else {
        None
    }
}
