//! The library's receiver of several channels, and what it must be after a call.

use super::receiver_end::{event_number, said};
use super::{compare_numbers, compare_octets};
use crate::inputs::farm1_channels::{Call, Lent};
use crate::library::{self, ReceivedOn};
use crate::table_octets::{self, broken, RECORD};
use independent::farm1_channels::{Channels, Record, Turn};
use independent::fault::Fault;
use independent::output::Written;
use independent::refusal::{DONE, ROOM, SETTING};

/// What a call is answered with.
pub enum Answer {
    Turn(Turn),
    /// The output after it too.
    Word(Written, Vec<u8>),
}

impl Answer {
    /// Of the receiver, or of none where the octets lent are no records: 12.
    pub fn of(receiver: Option<&mut Channels>, call: &Call, fault: Fault) -> Answer {
        match (call, receiver) {
            (Call::Frame(octets), Some(receiver)) => Answer::Turn(receiver.frame(octets, fault)),
            (Call::Release(channel), Some(receiver)) => {
                Answer::Turn(receiver.release(*channel, fault))
            }
            (Call::Word(channel, output), Some(receiver)) => {
                let mut output = output.clone();
                let written = receiver.word(*channel, &mut output, fault);
                Answer::Word(written, output)
            }
            (Call::Word(_, output), None) => {
                Answer::Word(Written::refused(SETTING), output.clone())
            }
            (_, None) => Answer::Turn(Turn::refused(SETTING)),
        }
    }

    pub fn number(&self) -> u8 {
        match self {
            Answer::Turn(turn) => turn.number,
            Answer::Word(written, _) => written.number,
        }
    }

    /// The channel whose record may change.
    fn channel(&self) -> Option<u8> {
        match self {
            Answer::Turn(turn) => turn.channel,
            Answer::Word(..) => None,
        }
    }
}

/// A new record of the library, compared with the independent one; none where it is refused,
/// or both differ.
pub fn start(start: [u32; 3], before: Vec<u8>) -> (u8, Option<Record>, Vec<String>) {
    let mut after = before.clone();
    let number = library::channel_new(start, &mut after);
    let [channel, window, v_r] = start;
    let started = Record::start(channel, window, v_r).and_then(|record| {
        let has_room = before.len() >= RECORD;
        has_room.then_some(record).ok_or(ROOM)
    });
    let mut expected = before;
    if let Ok(record) = &started {
        expected[..RECORD].copy_from_slice(&table_octets::record(record));
    }
    let mut differences = Vec::new();
    compare_numbers(number, started.err().unwrap_or(DONE), &mut differences);
    compare_octets("record", &after, &expected, &mut differences);
    let record = started.ok().filter(|_| differences.is_empty());
    (number, record, differences)
}

/// Makes the call of the library, and compares all that it leaves. The table that is lent is
/// then as the library left it; where it is not refused with 12, it keeps to the laws of any
/// event too.
pub fn compare(lent: &mut Lent, call: &Call, answer: &Answer, expected: &[u8]) -> Vec<String> {
    let before = lent.table.clone();
    let mut differences = Vec::new();
    match (call, answer) {
        (Call::Frame(octets), Answer::Turn(turn)) => frame(lent, octets, turn, &mut differences),
        (Call::Release(channel), Answer::Turn(turn)) => {
            let shared = [lent.spacecraft, lent.pool];
            let released = library::channels_release(shared, &mut lent.table, *channel);
            let expected = (turn.number, event_number(turn.event));
            if released != expected {
                differences.push(format!("release: {released:?}, not {expected:?}"));
            }
        }
        (Call::Word(channel, output), Answer::Word(written, after)) => {
            word(lent, *channel, output, (*written, after), &mut differences);
        }
        _ => unreachable!("each call has its answer"),
    }
    compare_octets("table", &lent.table, expected, &mut differences);
    if answer.number() != SETTING {
        let law = broken(&before, &lent.table, answer.channel(), lent.pool);
        differences.extend(law.map(|law| format!("law: {law}")));
    }
    differences
}

fn frame(lent: &mut Lent, octets: &[u8], turn: &Turn, differences: &mut Vec<String>) {
    let mut frame = octets.to_vec();
    let shared = [lent.spacecraft, lent.pool];
    let received = library::channels_frame(shared, &mut lent.table, &mut frame);
    let expected = ReceivedOn {
        channel: turn.channel.unwrap_or(0),
        received: said(turn.number, turn.event, &turn.accepted),
    };
    if received != expected {
        differences.push(format!("frame: {received:?}, not {expected:?}"));
    }
    if frame != octets {
        differences.push("the frame is changed".to_string());
    }
}

fn word(
    lent: &mut Lent,
    channel: u32,
    output: &[u8],
    (expected, after): (Written, &[u8]),
    differences: &mut Vec<String>,
) {
    let mut output = output.to_vec();
    let shared = [lent.spacecraft, lent.pool];
    let written = library::channels_word(shared, &mut lent.table, channel, &mut output);
    if written != expected {
        differences.push(format!("word: {written:?}, not {expected:?}"));
    }
    compare_octets("output", &output, after, differences);
}
