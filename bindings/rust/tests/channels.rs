//! Several channels: what the library's functions tell on every path, and the Rust type over
//! them.

#[allow(dead_code)]
#[path = "../src/library.rs"]
mod library;

use pondreszi::clcw::{self, Clcw};
use pondreszi::layout::{flag, record, NONE};
use pondreszi::*;

const SPACECRAFT: u16 = 42;
const POOL: u8 = 2;
const CERTIFICATES: u8 = 3;
const SCHEDULES: u8 = 5;

/// What the numbers that a function tells have before the call, so that one that is not written
/// is seen.
const UNTOLD: u8 = 0xA5;

fn settings(channel: u8) -> ChannelSettings {
    ChannelSettings {
        channel,
        window: 8,
        vr: 254,
    }
}

/// Two channels that share two buffers.
fn two_channels() -> Channels {
    Channels::new(SPACECRAFT, POOL, &[CERTIFICATES, SCHEDULES].map(settings)).unwrap()
}

fn ad(channel: u8, number: u8) -> Vec<u8> {
    frame::write_ad(SPACECRAFT, channel, number, &[channel, number]).unwrap()
}

/// The event of an AD frame. A unit is accepted in E1 only, and is the frame's.
fn event(channels: &mut Channels, channel: u8, number: u8) -> ReceiverEvent {
    let frame = ad(channel, number);
    let received = channels.frame(&frame).unwrap();
    assert_eq!(received.channel, channel);
    let unit = [channel, number];
    let accepted = (received.event == ReceiverEvent::E1).then_some(Unit::Ad(&unit));
    assert_eq!(received.unit, accepted);
    received.event
}

fn refusal<T>(answer: Result<T, Refused>) -> Option<Refusal> {
    answer.err().map(|refused| refused.refusal)
}

/// What the library tells of a frame.
#[derive(Clone, Copy, PartialEq, Eq, Debug)]
struct Told {
    number: u8,
    event: u8,
    channel: u8,
    unit: u8,
    first: u64,
    count: u64,
}

/// What is told of a frame that is refused, or of no table.
fn nothing(number: u8, event: u8) -> Told {
    Told {
        number,
        event,
        channel: NONE,
        unit: NONE,
        first: 0,
        count: 0,
    }
}

/// A table at the library's own functions, with any numbers.
#[derive(Clone)]
struct Raw {
    spacecraft: u32,
    pool: u32,
    table: Vec<u8>,
}

impl Raw {
    fn of(channels: &Channels) -> Raw {
        Raw {
            spacecraft: SPACECRAFT.into(),
            pool: POOL.into(),
            table: channels.octets().to_vec(),
        }
    }

    fn frame(&mut self, frame: &[u8]) -> Told {
        let (mut event, mut channel, mut unit) = (UNTOLD, UNTOLD, UNTOLD);
        let (mut first, mut count) = (UNTOLD.into(), UNTOLD.into());
        let number = unsafe {
            library::pondreszi_channels_frame(
                self.spacecraft,
                self.pool,
                self.table.as_mut_ptr(),
                self.table.len() as u64,
                frame.as_ptr(),
                frame.len() as u64,
                &mut event,
                &mut channel,
                &mut unit,
                &mut first,
                &mut count,
            )
        };
        Told {
            number,
            event,
            channel,
            unit,
            first,
            count,
        }
    }

    /// The number and the event.
    fn release(&mut self, channel: u32) -> (u8, u8) {
        let mut event = UNTOLD;
        let number = unsafe {
            library::pondreszi_channels_release(
                self.spacecraft,
                self.pool,
                self.table.as_mut_ptr(),
                self.table.len() as u64,
                channel,
                &mut event,
            )
        };
        (number, event)
    }

    /// The number and the count.
    fn word(&self, channel: u32, output: &mut [u8]) -> (u8, u64) {
        let mut count = UNTOLD.into();
        let number = unsafe {
            library::pondreszi_channels_word(
                self.spacecraft,
                self.pool,
                self.table.as_ptr(),
                self.table.len() as u64,
                channel,
                output.as_mut_ptr(),
                output.len() as u64,
                &mut count,
            )
        };
        (number, count)
    }

    /// All three functions refuse with 12, whatever else is wrong, and change nothing.
    fn assert_refused(mut self, why: &str) {
        let before = self.table.clone();
        let setting = Refusal::Setting.number();
        for frame in [&ad(CERTIFICATES, 254)[..], &ad(60, 0), &[]] {
            assert_eq!(self.frame(frame), nothing(setting, NONE), "{why}");
        }
        for channel in [CERTIFICATES.into(), 60, 64, u32::MAX] {
            assert_eq!(self.release(channel), (setting, NONE), "{why}");
            for octets in [0, CLCW_OCTETS] {
                let mut output = vec![UNTOLD; octets];
                assert_eq!(self.word(channel, &mut output), (setting, 0), "{why}");
                assert_eq!(output, vec![UNTOLD; octets], "{why}");
            }
        }
        assert_eq!(self.table, before, "{why}");
    }

    /// None of them does.
    fn assert_taken(mut self, why: &str) {
        let mut output = [0; CLCW_OCTETS];
        let setting = Refusal::Setting.number();
        assert_ne!(self.word(0, &mut output).0, setting, "{why}");
        assert_ne!(self.release(64).0, setting, "{why}");
        assert_ne!(self.frame(&[]).number, setting, "{why}");
    }
}

fn channel_new(channel: u32, window: u32, vr: u32, octets: &mut [u8]) -> u8 {
    let (first, count) = (octets.as_mut_ptr(), octets.len() as u64);
    unsafe { library::pondreszi_channel_new(channel, window, vr, first, count) }
}

#[test]
fn a_record_at_its_start() {
    let mut octets = [UNTOLD; RECORD_OCTETS + 3];
    assert_eq!(channel_new(63, 254, 255, &mut octets), 0);
    let open = ReceiverState::Open.number();
    let start = [0x43, 1, open, 63, 254, 0, 255, 0, 0];
    assert_eq!(octets[..RECORD_OCTETS], start);
    assert_eq!(octets[RECORD_OCTETS..], [UNTOLD; 3]);
    for short in 0..RECORD_OCTETS {
        let mut octets = vec![UNTOLD; short];
        assert_eq!(channel_new(63, 254, 255, &mut octets), 11);
        assert_eq!(octets, vec![UNTOLD; short]);
    }
}

#[test]
fn settings_of_a_record() {
    let good = [3, 8, 254];
    for (place, values) in [
        &[64, 255, 256, 256 + 3, u32::MAX][..],
        &[0, 1, 3, 253, 255, 256, 256 + 8, u32::MAX],
        &[256, 256 + 254, u32::MAX],
    ]
    .into_iter()
    .enumerate()
    {
        for value in values {
            let mut numbers = good;
            numbers[place] = *value;
            let [channel, window, vr] = numbers;
            // 12 is judged before 11.
            for octets in [0, RECORD_OCTETS] {
                let mut octets = vec![UNTOLD; octets];
                let before = octets.clone();
                assert_eq!(channel_new(channel, window, vr, &mut octets), 12);
                assert_eq!(octets, before);
            }
        }
    }
    let windows = (0..=255).filter(|window| {
        let other = ChannelSettings {
            window: *window,
            ..settings(3)
        };
        Channels::new(SPACECRAFT, POOL, &[other]).is_ok()
    });
    let even = (SMALLEST_WINDOW..=LARGEST_WINDOW).step_by(2);
    assert!(windows.eq(even));
}

#[test]
fn places_of_a_record() {
    let mut raw = Raw::of(&two_channels());
    let record_of = |raw: &Raw| raw.table[RECORD_OCTETS..].to_vec();
    let mut expected = record_of(&raw);
    assert_eq!(expected[record::CHANNEL], SCHEDULES);
    assert_eq!(expected[record::WINDOW], 8);
    assert_eq!(expected[record::STATE], ReceiverState::Open.number());
    for (vr, held) in [(255, 1), (0, 2)] {
        assert_eq!(raw.frame(&ad(SCHEDULES, expected[record::VR])).event, 1);
        expected[record::VR] = vr;
        expected[record::HELD] = held;
        assert_eq!(record_of(&raw), expected);
    }
    assert_eq!(raw.frame(&ad(SCHEDULES, 0)).event, 2);
    expected[record::STATE] = ReceiverState::Wait.number();
    expected[record::FLAGS] = flag::WAIT + flag::RETRANSMIT;
    assert_eq!(record_of(&raw), expected);
    assert_eq!(raw.frame(&ad(SCHEDULES, 100)).event, 5);
    expected[record::STATE] = ReceiverState::Lockout.number();
    expected[record::FLAGS] += flag::LOCKOUT;
    assert_eq!(record_of(&raw), expected);
    let bd = frame::write_bd(SPACECRAFT, SCHEDULES, b"unit").unwrap();
    assert_eq!(raw.frame(&bd).event, 6);
    expected[record::COUNTER] = 1;
    assert_eq!(record_of(&raw), expected);
}

/// Each octet of a record with each value, the others as of a channel that is Open.
#[test]
fn octets_that_are_no_record() {
    let channels = two_channels();
    for (place, taken) in [
        vec![0x43],
        vec![1],
        vec![ReceiverState::Open.number()],
        (0..=LARGEST_CHANNEL).filter(|c| *c != SCHEDULES).collect(),
        (SMALLEST_WINDOW..=LARGEST_WINDOW).step_by(2).collect(),
        (0..=POOL).collect(),
        (0..=LARGEST_NUMBER).collect(),
        vec![0, flag::RETRANSMIT],
        (0..=LARGEST_COUNTER).collect(),
    ]
    .into_iter()
    .enumerate()
    {
        for value in 0..=255 {
            let mut raw = Raw::of(&channels);
            raw.table[place] = value;
            let why = format!("{value} in octet {place}");
            if taken.contains(&value) {
                raw.assert_taken(&why);
            } else {
                raw.assert_refused(&why);
            }
        }
    }
}

/// The flags that each state can have.
#[test]
fn flags_of_each_state() {
    let (retransmit, wait, lockout) = (flag::RETRANSMIT, flag::WAIT, flag::LOCKOUT);
    for (state, taken) in [
        (ReceiverState::Open, vec![0, retransmit]),
        (ReceiverState::Wait, vec![wait + retransmit]),
        (
            ReceiverState::Lockout,
            [0, retransmit, wait + retransmit]
                .map(|flags| lockout + flags)
                .to_vec(),
        ),
    ] {
        for flags in 0..=255 {
            let mut kept = two_channels().octets().to_vec();
            kept[record::STATE] = state.number();
            kept[record::FLAGS] = flags;
            let restored = Channels::restore(SPACECRAFT, POOL, &kept);
            assert_eq!(restored.is_ok(), taken.contains(&flags));
        }
    }
}

#[test]
fn octets_that_are_no_table() {
    let raw = Raw::of(&two_channels());
    for octets in 0..raw.table.len() + RECORD_OCTETS {
        let mut other = raw.clone();
        other.table.resize(octets, 0);
        if octets % RECORD_OCTETS == 0 && octets <= raw.table.len() {
            other.assert_taken("whole records");
        } else {
            other.assert_refused("octets behind the records");
        }
    }
    let mut twice = raw.clone();
    twice.table.extend(&raw.table[..RECORD_OCTETS]);
    twice.assert_refused("two records for one channel");
    let every: Vec<u8> = (0..=LARGEST_RECORDS as u8).collect();
    for count in 0..=every.len() {
        let channels = every[..count].iter().map(|n| settings(*n));
        let channels = Channels::new(SPACECRAFT, POOL, &channels.collect::<Vec<_>>());
        let over = count > LARGEST_RECORDS;
        assert_eq!(refusal(channels), over.then_some(Refusal::Setting));
    }
    let mut nine = raw;
    nine.table.clear();
    for channel in every {
        let mut octets = [0; RECORD_OCTETS];
        assert_eq!(channel_new(channel.into(), 8, 0, &mut octets), 0);
        nine.table.extend(octets);
    }
    nine.assert_refused("nine records");
}

#[test]
fn pools_and_spacecraft() {
    let raw = Raw::of(&two_channels());
    let pools = u32::from(SMALLEST_POOL)..=u32::from(LARGEST_POOL);
    for pool in (0..300).chain([65_536 + 4, u32::MAX]) {
        let other = Raw {
            pool,
            ..raw.clone()
        };
        if pools.contains(&pool) {
            other.assert_taken("a pool");
        } else {
            other.assert_refused("no pool");
        }
    }
    let largest = u32::from(LARGEST_SPACECRAFT);
    for spacecraft in [0, largest, largest + 1, 65_536 + 42, u32::MAX] {
        let other = Raw {
            spacecraft,
            ..raw.clone()
        };
        if spacecraft <= largest {
            other.assert_taken("a spacecraft");
        } else {
            other.assert_refused("no spacecraft");
        }
    }
}

#[test]
fn more_held_than_the_pool() {
    for pool in SMALLEST_POOL..=LARGEST_POOL {
        for held in 0..=LARGEST_POOL {
            let mut raw = Raw::of(&two_channels());
            raw.pool = pool.into();
            raw.table[record::HELD] = held / 2;
            raw.table[RECORD_OCTETS + record::HELD] = held - held / 2;
            if held <= pool {
                raw.assert_taken("held");
            } else {
                raw.assert_refused("more held than the pool");
            }
        }
    }
    // The sum of two octets is not cut to one.
    let mut raw = Raw::of(&two_channels());
    raw.table[record::HELD] = 255;
    raw.table[RECORD_OCTETS + record::HELD] = 1;
    raw.assert_refused("256 held");
}

#[test]
fn a_channel_without_a_record() {
    let mut raw = Raw::of(&two_channels());
    let before = raw.table.clone();
    let address = Refusal::Address.number();
    for channel in (0..=LARGEST_CHANNEL).filter(|c| ![CERTIFICATES, SCHEDULES].contains(c)) {
        assert_eq!(raw.frame(&ad(channel, 254)), nothing(address, 9));
    }
    let others = frame::write_ad(SPACECRAFT + 1, CERTIFICATES, 254, b"unit").unwrap();
    assert_eq!(raw.frame(&others), nothing(address, 9));
    for channel in [0, 4, 6, 63, 64, 255, 256 + 3, 65_536 + 5, u32::MAX] {
        assert_eq!(raw.release(channel), (address, NONE));
        // 7 is judged before 11.
        for octets in [0, CLCW_OCTETS] {
            let mut output = vec![UNTOLD; octets];
            assert_eq!(raw.word(channel, &mut output), (address, 0));
            assert_eq!(output, vec![UNTOLD; octets]);
        }
    }
    assert_eq!(raw.table, before);
}

#[test]
fn a_refused_frame_is_of_no_channel() {
    let mut raw = Raw::of(&two_channels());
    let before = raw.table.clone();
    let mut longer = ad(CERTIFICATES, 254);
    longer.extend([0; LARGEST_FILL + 1]);
    let mut damaged = ad(CERTIFICATES, 254);
    damaged[5] ^= 1;
    // With its FECF made anew.
    let altered = |mut frame: Vec<u8>, place: usize| {
        frame[place] ^= 1;
        let rest = frame.len() - 2;
        let check = coding::fecf(&frame[..rest]);
        frame[rest..].copy_from_slice(&check.to_be_bytes());
        frame
    };
    let bd = frame::write_bd(SPACECRAFT, CERTIFICATES, b"unit").unwrap();
    let unlock = frame::write_unlock(SPACECRAFT, CERTIFICATES).unwrap();
    for (number, frame) in [
        (Refusal::Short, vec![]),
        (Refusal::Fill, longer),
        (Refusal::Check, damaged),
        (Refusal::Header, altered(bd, 4)),
        (Refusal::Command, altered(unlock, 5)),
    ] {
        assert_eq!(raw.frame(&frame), nothing(number.number(), 9));
    }
    assert_eq!(raw.table, before);
}

#[test]
fn a_frame_of_each_channel() {
    let mut raw = Raw::of(&two_channels());
    for channel in [SCHEDULES, CERTIFICATES] {
        let told = raw.frame(&ad(channel, 254));
        let expected = Told {
            number: 0,
            event: 1,
            channel,
            unit: Unit::AD,
            first: 5,
            count: 2,
        };
        assert_eq!(told, expected);
        let left = Told {
            event: 4,
            unit: NONE,
            first: 0,
            count: 0,
            ..expected
        };
        assert_eq!(raw.frame(&ad(channel, 254)), left);
    }
    let mut channels = two_channels();
    let bd = frame::write_bd(SPACECRAFT, SCHEDULES, b"unit").unwrap();
    let received = channels.frame(&bd).unwrap();
    assert_eq!(
        (received.channel, received.event, received.unit),
        (SCHEDULES, ReceiverEvent::E6, Some(Unit::Bd(b"unit")))
    );
    assert_eq!(channels.buffers_taken(), 0);
}

#[test]
fn an_output_too_short() {
    let raw = Raw::of(&two_channels());
    for octets in 0..CLCW_OCTETS + 3 {
        let mut output = vec![UNTOLD; octets];
        let told = raw.word(SCHEDULES.into(), &mut output);
        if octets < CLCW_OCTETS {
            assert_eq!(told, (Refusal::Room.number(), 0));
            assert_eq!(output, vec![UNTOLD; octets]);
            continue;
        }
        assert_eq!(told, (0, CLCW_OCTETS as u64));
        let word = clcw::read(&output[..CLCW_OCTETS], SCHEDULES).unwrap();
        assert_eq!(word.unwrap().word.report, 254);
        assert_eq!(output[CLCW_OCTETS..], vec![UNTOLD; octets - CLCW_OCTETS]);
    }
}

#[test]
fn a_release_of_a_channel_that_holds_none() {
    let mut raw = Raw::of(&two_channels());
    let none_held = (Refusal::Release.number(), NONE);
    assert_eq!(raw.release(SCHEDULES.into()), none_held);
    for number in [254, 255] {
        assert_eq!(raw.frame(&ad(CERTIFICATES, number)).event, 1);
    }
    // Open, then in Wait with no free buffer.
    assert_eq!(raw.release(SCHEDULES.into()), none_held);
    assert_eq!(raw.frame(&ad(SCHEDULES, 254)).event, 2);
    let before = raw.table.clone();
    assert_eq!(raw.release(SCHEDULES.into()), none_held);
    assert_eq!(raw.table, before);
    // In Lockout the flag Wait is no state Wait, a buffer free or not.
    assert_eq!(raw.frame(&ad(SCHEDULES, 100)).event, 5);
    assert_eq!(raw.release(CERTIFICATES.into()), (0, 10));
    let before = raw.table.clone();
    assert_eq!(raw.release(SCHEDULES.into()), none_held);
    assert_eq!(raw.table, before);
}

/// All events of one channel leave the other's record, and are told as a receiver of that
/// channel alone tells them.
#[test]
fn channels_are_isolated() {
    let mut channels = two_channels();
    let mut alone = Receiver::new(ReceiverSettings {
        spacecraft: SPACECRAFT,
        channel: SCHEDULES,
        window: 8,
        vr: 254,
        buffers: POOL,
    })
    .unwrap();
    let other = channels.record(CERTIFICATES).unwrap();
    let unlock = frame::write_unlock(SPACECRAFT, SCHEDULES).unwrap();
    let set_vr = frame::write_set_vr(SPACECRAFT, SCHEDULES, 100).unwrap();
    let bd = frame::write_bd(SPACECRAFT, SCHEDULES, b"unit").unwrap();
    let frames = [254, 0, 254, 255, 0, 1, 100, 0]
        .map(|number| ad(SCHEDULES, number))
        .into_iter()
        .chain([bd, set_vr.clone(), unlock, set_vr, ad(SCHEDULES, 100)]);
    for frame in frames {
        let received = channels.frame(&frame).unwrap();
        let expected = alone.frame(&frame).unwrap();
        assert_eq!(received.channel, SCHEDULES);
        assert_eq!(
            (received.event, received.unit),
            (expected.event, expected.unit)
        );
        assert_eq!(channels.word(SCHEDULES).unwrap(), alone.word());
        assert_eq!(channels.record(CERTIFICATES), Some(other));
    }
    for _ in 0..POOL + 1 {
        assert_eq!(channels.release(SCHEDULES), alone.release());
        assert_eq!(channels.word(SCHEDULES).unwrap(), alone.word());
        assert_eq!(channels.record(CERTIFICATES), Some(other));
    }
    let (before, _) = channels.octets().split_at(RECORD_OCTETS);
    assert_eq!(before, &two_channels().octets()[..RECORD_OCTETS]);
}

#[test]
fn wait_with_a_free_buffer() {
    let mut channels = two_channels();
    for number in [254, 255] {
        let accepted = event(&mut channels, CERTIFICATES, number);
        assert_eq!(accepted, ReceiverEvent::E1);
    }
    let left = event(&mut channels, SCHEDULES, 254);
    assert_eq!(left, ReceiverEvent::E2);
    assert_eq!(channels.waiting(), []);

    // The buffer that the other channel gives back does not open it.
    channels.release(CERTIFICATES).unwrap();
    assert_eq!(channels.buffers_taken(), 1);
    let waiting = channels.clone();
    for (number, expected) in [
        (254, ReceiverEvent::E2),
        (255, ReceiverEvent::E3),
        (253, ReceiverEvent::E4),
    ] {
        assert_eq!(event(&mut channels, SCHEDULES, number), expected);
        assert_eq!(channels, waiting);
    }

    // A release that names it does, and the pool stays as it was.
    assert_eq!(channels.waiting(), [SCHEDULES]);
    channels.release(SCHEDULES).unwrap();
    assert_eq!(channels.waiting(), []);
    assert_eq!(channels.buffers_taken(), 1);
    let word = clcw::read(&channels.word(SCHEDULES).unwrap(), SCHEDULES).unwrap();
    let expected = Clcw {
        channel: SCHEDULES,
        retransmit: true,
        report: 254,
        ..Clcw::default()
    };
    assert_eq!(word.unwrap().word, expected);
    let accepted = event(&mut channels, SCHEDULES, 254);
    assert_eq!(accepted, ReceiverEvent::E1);
    assert_eq!(channels.buffers_taken(), 2);
    assert_eq!(refusal(channels.release(CERTIFICATES)), None);
    assert_eq!(
        refusal(channels.release(CERTIFICATES)),
        Some(Refusal::Release)
    );
}

/// A channel that waits and holds a buffer gives it back when it is named.
#[test]
fn wait_with_a_buffer_held() {
    let mut channels = two_channels();
    for (channel, number, expected) in [
        (CERTIFICATES, 254, ReceiverEvent::E1),
        (SCHEDULES, 254, ReceiverEvent::E1),
        (SCHEDULES, 255, ReceiverEvent::E2),
    ] {
        assert_eq!(event(&mut channels, channel, number), expected);
    }
    channels.release(CERTIFICATES).unwrap();
    assert_eq!(channels.waiting(), []);
    let record = channels.record(SCHEDULES).unwrap();
    assert_eq!((record.state, record.held), (ReceiverState::Wait, 1));
    channels.release(SCHEDULES).unwrap();
    let record = channels.record(SCHEDULES).unwrap();
    assert_eq!((record.state, record.held), (ReceiverState::Open, 0));
    assert_eq!(channels.buffers_taken(), 0);
}

#[test]
fn no_channels() {
    let mut channels = Channels::new(SPACECRAFT, POOL, &[]).unwrap();
    for channel in 0..=LARGEST_CHANNEL {
        let refused = channels.frame(&ad(channel, 0)).unwrap_err();
        assert_eq!(refused.refusal, Refusal::Address);
        assert_eq!(refusal(channels.release(channel)), Some(Refusal::Address));
        assert_eq!(refusal(channels.word(channel)), Some(Refusal::Address));
    }
    assert_eq!(refusal(channels.frame(&[])), Some(Refusal::Short));
    assert_eq!(channels.records().count(), 0);
}

#[test]
fn as_many_channels_and_buffers_as_can_be() {
    let numbers: Vec<u8> = (LARGEST_CHANNEL + 1 - LARGEST_RECORDS as u8..)
        .take(8)
        .collect();
    let all: Vec<ChannelSettings> = numbers.iter().map(|n| settings(*n)).collect();
    let mut channels = Channels::new(SPACECRAFT, LARGEST_POOL, &all).unwrap();
    for number in [254, 255] {
        for channel in &numbers {
            let accepted = event(&mut channels, *channel, number);
            assert_eq!(accepted, ReceiverEvent::E1);
        }
    }
    assert_eq!(channels.buffers_taken(), LARGEST_POOL);
    for channel in &numbers {
        let left = event(&mut channels, *channel, 0);
        assert_eq!(left, ReceiverEvent::E2);
    }
    let held = channels
        .records()
        .map(|record| (record.channel, record.held));
    assert!(held.eq(numbers.iter().map(|n| (*n, 2))));
}

/// A sender of one channel, its units, and those that are on board.
struct Service {
    sender: Sender,
    channel: u8,
    offered: u8,
    on_board: Vec<Vec<u8>>,
}

impl Service {
    fn new(channel: u8) -> Service {
        let mut sender = Sender::new(SenderSettings {
            k: 3,
            t1_initial: 100,
            transmission_limit: 255,
            timeout_type: 0,
            spacecraft: SPACECRAFT,
            channel,
            vs: 254,
            nnr: 254,
        })
        .unwrap();
        sender.directive(Directive::InitiateWithoutCheck).unwrap();
        Service {
            sender,
            channel,
            offered: 0,
            on_board: Vec::new(),
        }
    }

    /// Takes every frame up that the answer hands down.
    fn follow(&mut self, mut answer: Answer, channels: &mut Channels) {
        while let Some(frame) = answer.frame {
            let received = channels.frame(&frame.octets).unwrap();
            assert_eq!(received.channel, self.channel);
            if let Some(Unit::Ad(unit)) = received.unit {
                self.on_board.push(unit.to_vec());
            }
            answer = self.sender.lower_layer(frame.kind.accept()).unwrap();
        }
    }

    /// Offers the next unit if it can, and takes a control word.
    fn pass(&mut self, units: u8, channels: &mut Channels) {
        if self.offered < units && !self.sender.waiting() {
            let answer = self
                .sender
                .request_ad(&[self.channel, self.offered])
                .unwrap();
            self.offered += 1;
            self.follow(answer, channels);
        }
        let word = channels.word(self.channel).unwrap();
        let answer = self.sender.control_word(&word).unwrap();
        self.follow(answer, channels);
    }
}

/// Two senders at one receiver that is taken down and restored after every event: all units are
/// on board, in order.
#[test]
fn sessions_go_on_after_resets() {
    const UNITS: u8 = 40;
    let mut services = [CERTIFICATES, SCHEDULES].map(Service::new);
    let mut channels = two_channels();
    let mut waits = 0;
    for turn in 0..1000 {
        for service in &mut services {
            service.pass(UNITS, &mut channels);
            channels = Channels::restore(SPACECRAFT, POOL, channels.octets()).unwrap();
        }
        // Now and then the application is done with a unit.
        let held = channels.records().filter(|record| record.held > 0);
        if let Some(record) = held.last().filter(|_| turn % 3 == 0) {
            channels.release(record.channel).unwrap();
        }
        for channel in channels.waiting() {
            waits += 1;
            channels.release(channel).unwrap();
        }
        channels = Channels::restore(SPACECRAFT, POOL, channels.octets()).unwrap();
    }
    assert!(waits > 0);
    for service in services {
        let units = (0..UNITS).map(|n| vec![service.channel, n]);
        assert!(units.eq(service.on_board));
        assert_eq!(service.sender.sent(), 0);
    }
}
