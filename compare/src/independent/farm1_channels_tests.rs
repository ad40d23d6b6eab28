use super::*;
use crate::bits::Field;
use crate::farm1::{Farm1, STATES};
use crate::frame::{self, Content, CONTROL_COMMAND_FLAG, RESERVED_SPARE};
use crate::random::Random;
use crate::refusal::{CHECK, FILL, HEADER, SHORT};
use crate::session::Received;
use crate::table_octets::{self, broken, table};

const SPACECRAFT: u32 = 0x2A5;

/// Channels 3, 10, 17 and so on, each with W 20 and V(R) 250.
fn started(channels: usize, pool: u32) -> Channels {
    let channel = |place: usize| 3 + 7 * place as u32;
    let records = (0..channels).map(|place| Record::start(channel(place), 20, 250).unwrap());
    Channels {
        spacecraft: SPACECRAFT,
        pool,
        records: records.collect(),
    }
}

fn octets(channel: u32, content: &Content) -> Vec<u8> {
    frame::encode(SPACECRAFT, channel, content, Fault::None)
}

fn ad(number: u32) -> Content {
    let unit = vec![0xAB, number as u8];
    Content::Ad { number, unit }
}

fn bd() -> Content {
    Content::Bd {
        unit: vec![1, 2, 3],
    }
}

/// The frame with a field changed, its FECF right.
fn changed(frame: &[u8], field: Field, value: usize) -> Vec<u8> {
    let mut all = bits::from_octets(&frame[..frame.len() - 2]);
    bits::put(&mut all, field, value);
    all.extend(crate::fecf::field(&all, Fault::None));
    bits::to_octets(&all)
}

/// A frame comes to a channel, and is not refused.
fn take(receiver: &mut Channels, channel: u32, content: &Content) -> Event {
    let turn = receiver.frame(&octets(channel, content), Fault::None);
    assert_eq!((turn.number, turn.channel), (DONE, Some(channel as u8)));
    turn.event.unwrap()
}

fn release(receiver: &mut Channels, channel: u32) -> Result<Event, u8> {
    let turn = receiver.release(channel, Fault::None);
    match turn.number {
        DONE => Ok(turn.event.unwrap()),
        number => {
            assert_eq!(turn, Turn::refused(number));
            Err(number)
        }
    }
}

/// State, V(R), flags lockout, wait and retransmit, units held.
fn seen(receiver: &Channels, place: usize) -> (State, u8, [bool; 3], u8) {
    let record = &receiver.records[place];
    let of = &record.variables;
    let flags = [of.lockout_flag, of.wait_flag, of.retransmit_flag];
    (of.state, of.v_r, flags, record.held)
}

/// Each of the three calls is 12, is no event and changes nothing.
fn is_setting(receiver: &Channels, cause: Cause) {
    assert_eq!(receiver.causes(Fault::None), [cause], "{receiver:?}");
    let mut after = receiver.clone();
    for frame in [octets(3, &ad(250)), octets(3, &bd()), Vec::new()] {
        assert_eq!(after.frame(&frame, Fault::None), Turn::refused(SETTING));
    }
    for channel in [3, 5, 64] {
        assert_eq!(after.release(channel, Fault::None), Turn::refused(SETTING));
        for room in [0, 4] {
            let mut output = vec![0x77; room];
            let written = after.word(channel, &mut output, Fault::None);
            assert_eq!(written, Written::refused(SETTING));
            assert_eq!(output, vec![0x77; room]);
        }
    }
    assert_eq!(after, *receiver);
}

#[test]
fn twelve_is_judged_first() {
    let good = started(2, 3);
    for spacecraft in [1024, 65_536 + SPACECRAFT, u32::MAX] {
        let receiver = Channels {
            spacecraft,
            ..good.clone()
        };
        is_setting(&receiver, Cause::Spacecraft);
    }
    for pool in [0, 17, 256 + 3, 65_536 + 3, u32::MAX] {
        is_setting(
            &Channels {
                pool,
                ..good.clone()
            },
            Cause::Pool,
        );
    }
    is_setting(&started(9, 16), Cause::OverEight);
    let mut receiver = good.clone();
    receiver.records[1].channel = 3;
    is_setting(&receiver, Cause::TwoForOne);
    receiver = good.clone();
    receiver.records[0].held = 2;
    receiver.records[1].held = 2;
    is_setting(&receiver, Cause::MoreHeld);
}

#[test]
fn ill_formed_records_are_twelve() {
    let spoils: [fn(&mut Record); 13] = [
        |one| one.channel = 64,
        |one| one.variables.window = 0,
        |one| one.variables.window = 21,
        |one| one.variables.window = 255,
        |one| one.variables.farm_b_counter = 4,
        |one| one.variables.lockout_flag = true,
        |one| one.variables.wait_flag = true,
        |one| one.variables.state = State::Wait,
        |one| {
            one.variables.state = State::Wait;
            one.variables.wait_flag = true;
        },
        |one| {
            one.variables.state = State::Wait;
            one.variables.retransmit_flag = true;
        },
        |one| {
            one.variables.state = State::Wait;
            one.variables.wait_flag = true;
            one.variables.retransmit_flag = true;
            one.variables.lockout_flag = true;
        },
        |one| one.variables.state = State::Lockout,
        |one| {
            one.variables.state = State::Lockout;
            one.variables.lockout_flag = true;
            one.variables.wait_flag = true;
        },
    ];
    for spoil in spoils {
        let mut receiver = started(2, 3);
        spoil(&mut receiver.records[1]);
        is_setting(&receiver, Cause::IllFormed);
    }
}

#[test]
fn limits() {
    for pool in 1..=16 {
        assert_eq!(started(8, pool).causes(Fault::None), []);
    }
    for (channel, window, v_r, good) in [
        (0, 2, 0, true),
        (63, 254, 255, true),
        (64, 20, 0, false),
        (3, 0, 0, false),
        (3, 21, 0, false),
        (3, 256, 0, false),
        (3, 20, 256, false),
        (256 + 3, 20, 0, false),
        (3, 65_536 + 20, 0, false),
    ] {
        assert_eq!(Record::start(channel, window, v_r).is_ok(), good);
    }
}

#[test]
fn without_records_all_is_address() {
    let mut receiver = started(0, 1);
    for content in [ad(250), bd(), Content::Unlock] {
        let turn = receiver.frame(&octets(3, &content), Fault::None);
        assert_eq!(turn, Turn::refused_frame(ADDRESS));
    }
    for channel in 0..64 {
        assert_eq!(release(&mut receiver, channel), Err(ADDRESS));
        let written = receiver.word(channel, &mut [0; 4], Fault::None);
        assert_eq!(written, Written::refused(ADDRESS));
    }
}

/// A refused frame is E9 of no channel and changes no record: each refusal.
#[test]
fn refused_frames() {
    let good = octets(3, &ad(250));
    let no_command = changed(&octets(3, &bd()), CONTROL_COMMAND_FLAG, 1);
    let mut damaged = good.clone();
    damaged[5] ^= 1;
    let cases: [(Vec<u8>, u8); 9] = [
        (Vec::new(), SHORT),
        (good[..7].to_vec(), SHORT),
        (good[..8].to_vec(), SHORT),
        ([&good[..], &[0x55; 7]].concat(), FILL),
        (damaged, CHECK),
        (changed(&good, RESERVED_SPARE, 1), HEADER),
        (frame::encode(1, 3, &ad(250), Fault::None), ADDRESS),
        (octets(4, &ad(250)), ADDRESS),
        (no_command, COMMAND),
    ];
    let started = started(2, 3);
    for (frame, number) in cases {
        let mut receiver = started.clone();
        let turn = receiver.frame(&frame, Fault::None);
        assert_eq!(turn, Turn::refused_frame(number));
        assert_eq!(receiver, started);
    }
    let fill = [&good[..], &[0x55; 6]].concat();
    assert_eq!(started.clone().frame(&fill, Fault::None).number, DONE);
}

/// 7 of an absent channel stands where the address is judged: behind 8 and 6, before 9.
#[test]
fn absent_channel_in_its_place() {
    let mut receiver = started(2, 3);
    let no_command = changed(&octets(4, &bd()), CONTROL_COMMAND_FLAG, 1);
    let mut damaged = octets(4, &bd());
    damaged[6] ^= 1;
    let spare = changed(&octets(4, &bd()), RESERVED_SPARE, 1);
    for (frame, number) in [(no_command, ADDRESS), (damaged, CHECK), (spare, HEADER)] {
        let turn = receiver.frame(&frame, Fault::None);
        assert_eq!(turn, Turn::refused_frame(number));
    }
}

/// The pool is full by another channel; its release frees a buffer and opens no other channel.
#[test]
fn wait_with_a_free_buffer() {
    let mut receiver = started(2, 1);
    assert_eq!(take(&mut receiver, 3, &ad(250)), Event::E1);
    assert_eq!(take(&mut receiver, 10, &ad(250)), Event::E2);
    let waiting = (State::Wait, 250, [false, true, true], 0);
    assert_eq!(seen(&receiver, 1), waiting);
    assert_eq!(release(&mut receiver, 10), Err(RELEASE));
    assert_eq!(release(&mut receiver, 3), Ok(Event::E10));
    assert!(receiver.has_room());
    for (number, event) in [(250, Event::E2), (251, Event::E3), (249, Event::E4)] {
        assert_eq!(take(&mut receiver, 10, &ad(number)), event);
        assert_eq!(seen(&receiver, 1), waiting);
    }
    // The other channel takes the buffer.
    assert_eq!(take(&mut receiver, 3, &ad(251)), Event::E1);
    assert_eq!(release(&mut receiver, 10), Err(RELEASE));
}

/// A release while none is held: E10 in Wait with room, and the pool stays.
#[test]
fn release_while_none_held() {
    let mut receiver = started(3, 2);
    assert_eq!(release(&mut receiver, 3), Err(RELEASE));
    take(&mut receiver, 3, &ad(250));
    take(&mut receiver, 3, &ad(251));
    assert_eq!(take(&mut receiver, 10, &ad(250)), Event::E2);
    take(&mut receiver, 17, &ad(250));
    assert_eq!(take(&mut receiver, 17, &ad(100)), Event::E5);
    assert_eq!(release(&mut receiver, 3), Ok(Event::E10));
    assert_eq!(receiver.held(), 1);
    assert_eq!(release(&mut receiver, 10), Ok(Event::E10));
    assert_eq!(receiver.held(), 1);
    assert_eq!(
        seen(&receiver, 1),
        (State::Open, 250, [false, false, true], 0)
    );
    assert_eq!(release(&mut receiver, 10), Err(RELEASE));
    // In Lockout too none held is 13, and the Wait_Flag stays.
    let locked = (State::Lockout, 250, [true, true, true], 0);
    assert_eq!(seen(&receiver, 2), locked);
    assert_eq!(release(&mut receiver, 17), Err(RELEASE));
    assert_eq!(seen(&receiver, 2), locked);
    assert_eq!(take(&mut receiver, 17, &ad(250)), Event::E1);
    assert_eq!(seen(&receiver, 2), locked);
}

#[test]
fn releases_and_words_of_absent_channels() {
    let mut receiver = started(8, 16);
    for channel in [0, 4, 63, 64, 64 + 3, 256 + 3, 65_536 + 3, u32::MAX] {
        assert_eq!(release(&mut receiver, channel), Err(ADDRESS));
        for room in [0, 3, 4] {
            let mut output = vec![0x77; room];
            let written = receiver.word(channel, &mut output, Fault::None);
            assert_eq!(written, Written::refused(ADDRESS));
            assert_eq!(output, vec![0x77; room]);
        }
    }
}

/// Document 01, CLCW: channel 3, no flags, counter 2, V(R) 17 is 01 0C 04 11.
#[test]
fn words() {
    let mut receiver = started(2, 1);
    receiver.records[0].variables.v_r = 17;
    take(&mut receiver, 3, &bd());
    take(&mut receiver, 3, &bd());
    let mut output = [0x77; 6];
    let done = Written {
        number: DONE,
        count: 4,
    };
    assert_eq!(receiver.word(3, &mut output, Fault::None), done);
    assert_eq!(output, [0x01, 0x0C, 0x04, 0x11, 0x77, 0x77]);
    let short = receiver.word(3, &mut output[..3], Fault::None);
    assert_eq!(short, Written::refused(ROOM));
}

/// Any arrival for any channel of the receiver, or for another.
fn any_event(random: &mut Random, receiver: &mut Channels) -> Turn {
    let place = random.below(receiver.records.len());
    let record = receiver.records[place];
    let channel = if random.once_in(20) {
        4
    } else {
        record.channel.into()
    };
    if random.once_in(3) {
        return receiver.release(channel, Fault::None);
    }
    let distance = *random.pick(&[0, 0, 0, 0, 1, 9, 10, 128, 246, 255]);
    let content = match random.below(12) {
        0 => bd(),
        1 => Content::Unlock,
        2 => Content::SetVr {
            value: random.below(256) as u32,
        },
        _ => ad(record.variables.beyond_v_r(distance).into()),
    };
    receiver.frame(&octets(channel, &content), Fault::None)
}

/// The sum held is never above the pool, an event leaves every other record, and 12 never comes
/// of itself; every state is met beside every other.
#[test]
fn isolation_and_the_pool() {
    let mut random = Random::new(8);
    let mut met = Vec::new();
    for pool in 1..=16 {
        let mut receiver = started(2 + pool as usize % 7, pool);
        for _ in 0..1500 {
            let before = table(&receiver.records);
            let turn = any_event(&mut random, &mut receiver);
            let after = table(&receiver.records);
            assert_eq!(broken(&before, &after, turn.channel, pool), None);
            assert!(turn.number != SETTING);
            met.push((
                receiver.records[0].variables.state,
                receiver.records[1].variables.state,
            ));
        }
    }
    for one in STATES {
        assert!(STATES.iter().all(|other| met.contains(&(one, *other))));
    }
}

/// The laws refuse a receiver that breaks them.
#[test]
fn broken_laws_are_found() {
    let before = table(&started(2, 1).records);
    let held_by = |place: usize| {
        let mut receiver = started(2, 1);
        receiver.records[place].held = 2;
        table(&receiver.records)
    };
    assert_eq!(broken(&before, &before, None, 1), None);
    assert!(broken(&before, &held_by(0), Some(3), 1).is_some());
    assert_eq!(broken(&before, &held_by(0), Some(3), 2), None);
    assert!(broken(&before, &held_by(1), Some(3), 2).is_some());
    assert!(broken(&before, &held_by(0), None, 2).is_some());
    assert!(broken(&before, &before[..9], Some(3), 2).is_some());
    let mut receiver = started(2, 1);
    take(&mut receiver, 3, &ad(250));
    let before = table(&receiver.records);
    receiver.frame(&octets(3, &bd()), Fault::ChannelsNeighbourWritten);
    let after = table(&receiver.records);
    assert!(broken(&before, &after, Some(3), 1).is_some());
}

/// One record with its buffers as the pool is the single receiver, but that E9 is of no channel.
#[test]
fn single_receiver_is_a_case() {
    let mut random = Random::new(9);
    for buffers in 1..=8 {
        let mut receiver = started(1, buffers);
        let mut farm = Farm1::start(20, 250, buffers as usize).unwrap();
        for _ in 0..1500 {
            let distance = *random.pick(&[0, 0, 0, 1, 9, 10, 200, 246, 255]);
            let content = match random.below(10) {
                0 => bd(),
                1 => Content::Unlock,
                2 => Content::SetVr {
                    value: random.below(256) as u32,
                },
                _ => ad(farm.beyond_v_r(distance).into()),
            };
            let (turn, received) = if random.once_in(3) {
                let turn = receiver.release(3, Fault::None);
                (turn, Received::release(&mut farm, Fault::None))
            } else {
                let frame = octets(3, &content);
                let address = (SPACECRAFT, 3);
                let received = Received::frame(&mut farm, &frame, address, Fault::None);
                (receiver.frame(&frame, Fault::None), received)
            };
            assert_eq!(turn.event.ok_or(turn.number), received.event);
            assert_eq!(turn.accepted, received.accepted);
            let record = &receiver.records[0];
            assert_eq!(
                (record.variables, record.held),
                (farm.variables, farm.taken)
            );
        }
    }
}

/// Only whether an expected frame in Open or Lockout is E1 or E2, and 13, may read the pool.
#[test]
fn what_reads_the_pool() {
    let mut random = Random::new(10);
    let mut receiver = started(2, 16);
    for _ in 0..3000 {
        let mut full = receiver.clone();
        full.records[1].held = (16 - receiver.records[0].held as usize) as u8;
        let record = receiver.records[0];
        let content = match random.below(6) {
            0 => bd(),
            1 => Content::Unlock,
            2 => Content::SetVr {
                value: random.below(256) as u32,
            },
            _ => {
                let waits = record.variables.state == State::Wait;
                let distance = *random.pick(&[0, 1, 9, 10, 128, 246, 255]);
                let distance = if waits { distance } else { distance.max(1) };
                ad(record.variables.beyond_v_r(distance).into())
            }
        };
        let frame = octets(3, &content);
        let turn = receiver.frame(&frame, Fault::None);
        assert_eq!(full.frame(&frame, Fault::None), turn);
        assert_eq!(full.records[0], receiver.records[0]);
        // Now and then the channel holds one, or waits.
        match random.below(4) {
            0 => _ = receiver.frame(&octets(3, &ad(record.variables.v_r.into())), Fault::None),
            1 => {
                receiver.records[1].held = 16 - receiver.records[0].held;
                let v_r = receiver.records[0].variables.v_r;
                receiver.frame(&octets(3, &ad(v_r.into())), Fault::None);
                receiver.records[1].held = 0;
            }
            2 => _ = receiver.release(3, Fault::None),
            _ => (),
        }
    }
}

/// Records read back from their octets, and octets that are none.
#[test]
fn records_as_octets() {
    let mut receiver = started(2, 2);
    take(&mut receiver, 3, &ad(250));
    take(&mut receiver, 3, &ad(251));
    take(&mut receiver, 10, &ad(250));
    take(&mut receiver, 10, &ad(100));
    let octets = table(&receiver.records);
    let expected = [
        0x43, 1, 1, 3, 20, 2, 252, 0, 0, 0x43, 1, 3, 10, 20, 0, 250, 7, 0,
    ];
    assert_eq!(octets, expected);
    assert_eq!(
        table_octets::read(&octets),
        (receiver.records.clone(), vec![])
    );
    assert_eq!(table_octets::read(&[]), (vec![], vec![]));
    for (place, value) in [(0, 0x52), (1, 2), (2, 0), (2, 4), (7, 8)] {
        let mut other = octets.clone();
        other[place] = value;
        let read = table_octets::read(&other);
        assert_eq!(read, (vec![receiver.records[1]], vec![Cause::NoRecord]));
    }
    for length in [1, 8, 10, 17] {
        assert_eq!(table_octets::read(&octets[..length]).1, [Cause::NotWhole]);
    }
}
