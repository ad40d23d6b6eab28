//! The numbers that the crate gives a name, seen in what the library does: limits, octets,
//! places and numbered cases. The script `header` asserts that include/pondreszi.h has the
//! same ones.

#[allow(dead_code)]
#[path = "../src/library.rs"]
mod library;

use pondreszi::clcw::{self, Clcw};
use pondreszi::frame::{self, Kind};
use pondreszi::layout::{self, answer, flag, rf, sender_flag, NONE};
use pondreszi::*;

const SENDER: SenderSettings = SenderSettings {
    k: 2,
    t1_initial: 0x1234,
    transmission_limit: 5,
    timeout_type: 0,
    spacecraft: 0x2A5,
    channel: 3,
    vs: 255,
    nnr: 255,
};

const RECEIVER: ReceiverSettings = ReceiverSettings {
    spacecraft: 0x2A5,
    channel: 3,
    window: 20,
    vr: 255,
    buffers: 2,
};

/// A sender after Initiate without check.
fn active(settings: SenderSettings) -> Sender {
    let mut sender = Sender::new(settings).unwrap();
    sender.directive(Directive::InitiateWithoutCheck).unwrap();
    sender
}

/// A control word of the sender's channel.
fn word(report: u8, flags: u8) -> [u8; CLCW_OCTETS] {
    let word = Clcw {
        channel: SENDER.channel,
        lockout: flags & flag::LOCKOUT != 0,
        wait: flags & flag::WAIT != 0,
        retransmit: flags & flag::RETRANSMIT != 0,
        counter: 0,
        report,
    };
    clcw::write(&word).unwrap()
}

fn two(octets: &[u8], place: usize) -> u16 {
    u16::from_be_bytes([octets[place], octets[place + 1]])
}

/// An event by the library's own function, with the octets of the answer.
struct Raw {
    state: Vec<u8>,
    store: Vec<u8>,
    output: [u8; LARGEST_FRAME],
    answer: [u8; ANSWER_OCTETS],
}

impl Raw {
    fn of(sender: &Sender) -> Raw {
        Raw {
            state: sender.octets().to_vec(),
            store: sender.store().to_vec(),
            output: [0; LARGEST_FRAME],
            answer: [0xA5; ANSWER_OCTETS],
        }
    }

    /// With so many octets lent of the answer.
    fn with_octets(
        &mut self,
        function: library::SenderEventWithOctets,
        octets: &[u8],
        answer_len: usize,
    ) -> u8 {
        unsafe {
            function(
                self.state.as_mut_ptr(),
                self.state.len() as u64,
                octets.as_ptr(),
                octets.len() as u64,
                self.store.as_mut_ptr(),
                self.store.len() as u64,
                self.output.as_mut_ptr(),
                self.output.len() as u64,
                self.answer.as_mut_ptr(),
                answer_len as u64,
            )
        }
    }

    fn request_ad(&mut self, unit: &[u8]) -> u8 {
        self.with_octets(library::pondreszi_sender_request_ad, unit, ANSWER_OCTETS)
    }

    fn control_word(&mut self, word: &[u8]) -> u8 {
        self.with_octets(library::pondreszi_sender_control_word, word, ANSWER_OCTETS)
    }

    fn directive(&mut self, directive: Directive) -> u8 {
        let (number, value) = directive.number_and_value();
        unsafe {
            library::pondreszi_sender_directive(
                self.state.as_mut_ptr(),
                self.state.len() as u64,
                number,
                value,
                self.store.as_mut_ptr(),
                self.store.len() as u64,
                self.output.as_mut_ptr(),
                self.output.len() as u64,
                self.answer.as_mut_ptr(),
                ANSWER_OCTETS as u64,
            )
        }
    }

    fn tick(&mut self) -> u8 {
        unsafe {
            library::pondreszi_sender_tick(
                self.state.as_mut_ptr(),
                self.state.len() as u64,
                self.store.as_mut_ptr(),
                self.store.len() as u64,
                self.output.as_mut_ptr(),
                self.output.len() as u64,
                self.answer.as_mut_ptr(),
                ANSWER_OCTETS as u64,
            )
        }
    }

    fn responses(&self) -> Vec<u8> {
        let count = usize::from(self.answer[answer::RESPONSES]);
        self.answer[answer::FIRST_RESPONSE..][..count].to_vec()
    }
}

/// The library's new sender of these numbers, in the order of its parameters.
fn sender_new(numbers: [u32; 8], store: &[u8], state: &mut [u8]) -> u8 {
    let [k, t1_initial, limit, timeout_type, spacecraft, channel, vs, nnr] = numbers;
    unsafe {
        library::pondreszi_sender_new(
            k,
            t1_initial,
            limit,
            timeout_type,
            spacecraft,
            channel,
            vs,
            nnr,
            store.as_ptr(),
            store.len() as u64,
            state.as_mut_ptr(),
            state.len() as u64,
        )
    }
}

/// The library's new receiver of these numbers, in the order of its parameters.
fn receiver_new([spacecraft, channel, window, vr, buffers]: [u32; 5], state: &mut [u8]) -> u8 {
    let (first, count) = (state.as_mut_ptr(), state.len() as u64);
    unsafe {
        library::pondreszi_receiver_new(spacecraft, channel, window, vr, buffers, first, count)
    }
}

/// A frame at the library's receiver: the number, the event and the unit.
fn receive(state: &mut [u8], frame: &[u8]) -> (u8, u8, u8) {
    let (mut event, mut unit, mut first, mut count) = (0xA5, 0xA5, 0, 0);
    let number = unsafe {
        library::pondreszi_receiver_frame(
            state.as_mut_ptr(),
            state.len() as u64,
            frame.as_ptr(),
            frame.len() as u64,
            &mut event,
            &mut unit,
            &mut first,
            &mut count,
        )
    };
    (number, event, unit)
}

fn refusal<T>(answer: Result<T, Refused>) -> Option<Refusal> {
    answer.err().map(|refused| refused.refusal)
}

#[test]
fn limits_of_frames_and_units() {
    for octets in 0..=LARGEST_UNIT + 2 {
        let unit = vec![7; octets];
        let written = frame::write_bd(1, 0, &unit);
        let taken = (SMALLEST_UNIT..=LARGEST_UNIT).contains(&octets);
        assert_eq!(
            refusal(written.clone()),
            (!taken).then_some(Refusal::Length)
        );
        let Ok(written) = written else { continue };
        assert_eq!(written[FRAME_HEADER_OCTETS..][..octets], unit);
        assert_ne!(written[FRAME_HEADER_OCTETS - 1], 7);
    }
    let largest = frame::write_bd(1, 0, &[7; LARGEST_UNIT]).unwrap();
    assert_eq!(largest.len(), LARGEST_FRAME);
    let mut smallest = frame::write_bd(1, 0, &[7; SMALLEST_UNIT]).unwrap();
    assert_eq!(smallest.len(), SMALLEST_FRAME);
    smallest.extend([0; LARGEST_FILL]);
    assert_eq!(frame::read(&smallest, 1, 0).unwrap().total, SMALLEST_FRAME);
    smallest.push(0);
    assert_eq!(refusal(frame::read(&smallest, 1, 0)), Some(Refusal::Fill));
}

#[test]
fn limits_of_cltus() {
    for octets in 0..=LARGEST_FRAME + 2 {
        let written = cltu::write(&vec![7; octets]);
        if !(SMALLEST_FRAME..=LARGEST_FRAME).contains(&octets) {
            assert_eq!(refusal(written), Some(Refusal::Length));
            continue;
        }
        let written = written.unwrap();
        assert_eq!(written.len(), cltu::octets(octets));
        assert!((SMALLEST_CLTU..=LARGEST_CLTU).contains(&written.len()));
        let decoded = cltu::read(&written, Mode::Detecting).unwrap().octets.len();
        assert!(decoded <= LARGEST_DECODED_FRAME);
        assert!(decoded <= octets + LARGEST_FILL);
        if octets == LARGEST_FRAME {
            assert_eq!(
                (written.len(), decoded),
                (LARGEST_CLTU, LARGEST_DECODED_FRAME)
            );
        }
    }
    assert_eq!(
        cltu::write(&[7; SMALLEST_FRAME]).unwrap().len(),
        SMALLEST_CLTU
    );
    let good = [0, 0, 0, 0, 0, 0, 0, 0xFE];
    let mut input = [
        &[0xEB, 0x90][..],
        &good.repeat(LARGEST_CLTU_INPUT / CODEBLOCK_OCTETS),
    ]
    .concat();
    input.truncate(LARGEST_CLTU_INPUT - CODEBLOCK_OCTETS);
    input.resize(LARGEST_CLTU_INPUT, 0xFF);
    for mode in Mode::ALL {
        let decoded = cltu::read(&input, mode).unwrap();
        assert_eq!(decoded.octets.len(), LARGEST_DECODED);
    }
    input.push(0xFF);
    assert_eq!(
        refusal(cltu::read(&input, Mode::Correcting)),
        Some(Refusal::Length)
    );
}

#[test]
fn octets_of_codeblocks_and_control_words() {
    for octets in 0..=CODEBLOCK_OCTETS + 2 {
        let mut block = vec![0x5A; octets];
        block.push(coding::codeblock_error_control(&block));
        let judged = coding::codeblock_judge(&block, Mode::Detecting);
        assert_eq!(judged.is_ok(), octets == CODEBLOCK_INFORMATION_OCTETS);
        assert_eq!(
            judged.err(),
            (block.len() != CODEBLOCK_OCTETS).then_some(Refusal::Length)
        );
    }
    for octets in 0..=CLCW_OCTETS + 2 {
        let read = refusal(clcw::read(&vec![0xFF; octets], 0));
        assert_eq!(read, (octets != CLCW_OCTETS).then_some(Refusal::Length));
    }
}

/// The modes by number, and what the library answers to another number.
#[test]
fn modes() {
    let mut block = [0, 0, 0, 0, 0, 0, 1, 0x74];
    block[6] ^= 1 << 7;
    let judge = |mode: u32, information: &mut [u8]| {
        let mut corrected = 9;
        let number = unsafe {
            library::pondreszi_codeblock_judge(
                block.as_ptr(),
                block.len() as u64,
                mode,
                information.as_mut_ptr(),
                information.len() as u64,
                &mut corrected,
            )
        };
        (number, corrected)
    };
    let mut information = [0xAA; CODEBLOCK_INFORMATION_OCTETS];
    let detecting = Mode::Detecting.number().into();
    let correcting = Mode::Correcting.number().into();
    let bad = Refusal::NoBlock.number();
    assert_eq!(judge(detecting, &mut information), (bad, 0));
    for other in [2, 256, 65_536, u32::MAX] {
        let setting = Refusal::Setting.number();
        assert_eq!(judge(other, &mut information), (setting, 0));
    }
    let room = Refusal::Room.number();
    assert_eq!(judge(correcting, &mut information[1..]), (room, 0));
    assert_eq!(information, [0xAA; CODEBLOCK_INFORMATION_OCTETS]);
    assert_eq!(judge(correcting, &mut information), (0, 1));
    assert_eq!(information, [0, 0, 0, 0, 0, 0, 1]);
}

#[test]
fn limits_of_addresses_and_counters() {
    let limit = |largest: bool| largest.then_some(Refusal::Setting);
    for (beyond, more) in [(false, 0), (true, 1)] {
        let spacecraft = LARGEST_SPACECRAFT + u16::from(more);
        let channel = LARGEST_CHANNEL + more;
        let counter = LARGEST_COUNTER + more;
        assert_eq!(refusal(frame::write_unlock(spacecraft, 0)), limit(beyond));
        assert_eq!(refusal(frame::write_unlock(0, channel)), limit(beyond));
        let word = Clcw {
            counter,
            ..Clcw::default()
        };
        assert_eq!(refusal(clcw::write(&word)), limit(beyond));
        let word = Clcw {
            channel,
            ..Clcw::default()
        };
        assert_eq!(refusal(clcw::write(&word)), limit(beyond));
    }
}

/// The first and the last octet that is taken.
fn ends(is_taken: impl Fn(u8) -> bool) -> Option<(u8, u8)> {
    let taken: Vec<u8> = (0..=255).filter(|octet| is_taken(*octet)).collect();
    Some((*taken.first()?, *taken.last()?))
}

#[test]
fn limits_of_receivers() {
    let windows = ends(|window| Receiver::new(ReceiverSettings { window, ..RECEIVER }).is_ok());
    assert_eq!(windows, Some((SMALLEST_WINDOW, LARGEST_WINDOW)));
    let buffers = ends(|buffers| {
        Receiver::new(ReceiverSettings {
            buffers,
            ..RECEIVER
        })
        .is_ok()
    });
    assert_eq!(buffers, Some((SMALLEST_BUFFERS, LARGEST_BUFFERS)));
}

#[test]
fn limits_of_senders() {
    let widths = ends(|k| Sender::new(SenderSettings { k, ..SENDER }).is_ok());
    assert_eq!(widths, Some((SMALLEST_K, LARGEST_K)));
    let mut sender = Sender::new(SENDER).unwrap();
    let set_timer = Directive::SetTimer(0).number_and_value().0;
    let set_limit = Directive::SetTransmissionLimit(0).number_and_value().0;
    for value in (0..300).chain(65_500..65_600) {
        let good = (u32::from(SMALLEST_T1)..=u32::from(LARGEST_T1)).contains(&value);
        assert_eq!(sender.directive_raw(set_timer, value).is_ok(), good);
        let least = u32::from(SMALLEST_TRANSMISSION_LIMIT);
        let good = (least..=u32::from(LARGEST_TRANSMISSION_LIMIT)).contains(&value);
        assert_eq!(sender.directive_raw(set_limit, value).is_ok(), good);
    }
    let types = ends(|timeout_type| {
        Sender::new(SenderSettings {
            timeout_type,
            ..SENDER
        })
        .is_ok()
    });
    assert_eq!(types, Some((0, LARGEST_TIMEOUT_TYPE)));
    let set_timeout_type = Directive::SetTimeoutType(0).number_and_value().0;
    for value in (0..300).chain([65_536, 1 << 24]) {
        let good = value <= u32::from(LARGEST_TIMEOUT_TYPE);
        assert_eq!(sender.directive_raw(set_timeout_type, value).is_ok(), good);
    }
    for zero in [
        SenderSettings {
            t1_initial: SMALLEST_T1 - 1,
            ..SENDER
        },
        SenderSettings {
            transmission_limit: SMALLEST_TRANSMISSION_LIMIT - 1,
            ..SENDER
        },
    ] {
        assert_eq!(refusal(Sender::new(zero)), Some(Refusal::Setting));
    }
}

/// Sequence numbers, where each function takes one.
#[test]
fn limits_of_numbers() {
    let mut output = [0; LARGEST_FRAME];
    let (first, room) = (output.as_mut_ptr(), output.len() as u64);
    let mut state = [0; SENDER_STATE_OCTETS];
    let sender = Sender::new(SENDER).unwrap();
    for (more, expected) in [(0, NONE), (1, Refusal::Setting.number())] {
        let (number, mut count) = (u32::from(LARGEST_NUMBER) + more, 0);
        let unit = [7].as_ptr();
        let written = unsafe {
            [
                library::pondreszi_frame_write_ad(1, 0, number, unit, 1, first, room, &mut count),
                library::pondreszi_frame_write_set_vr(1, 0, number, first, room, &mut count),
                library::pondreszi_clcw_write(0, 0, 0, 0, 0, number, first, room, &mut count),
            ]
        };
        assert_eq!(written, [expected; 3]);
        assert_eq!(receiver_new([0, 0, 2, number, 1], &mut state), expected);
        let numbers = |vs, nnr| [1, 1, 1, 0, 0, 0, vs, nnr];
        let largest = u32::from(LARGEST_NUMBER);
        for numbers in [numbers(number, largest), numbers(largest, number)] {
            let store = [0; store_octets(1)];
            assert_eq!(sender_new(numbers, &store, &mut state), expected);
        }
        for directive in [Directive::InitiateWithSetVr(0), Directive::SetVs(0)] {
            let mut sender = sender.clone();
            let (directive, _) = directive.number_and_value();
            let answer = sender.directive_raw(directive, number);
            assert_eq!(answer.is_ok(), expected == NONE);
        }
    }
}

/// None is cut to 8 or 16 bits on the way.
#[test]
fn settings_of_32_bits() {
    let setting = Refusal::Setting.number();
    let good = [2, 9, 5, 0, 33, 3, 4, 4];
    let store = [0; store_octets(2)];
    let mut state = [0; SENDER_STATE_OCTETS];
    assert_eq!(sender_new(good, &store, &mut state), NONE);
    for place in 0..good.len() {
        for more in [65_536, 1 << 24, 1 << 31] {
            let mut numbers = good;
            numbers[place] += more;
            assert_eq!(sender_new(numbers, &store, &mut state), setting);
        }
    }
    let good = [33, 3, 20, 4, 2];
    let mut state = [0; RECEIVER_STATE_OCTETS];
    assert_eq!(receiver_new(good, &mut state), NONE);
    for place in 0..good.len() {
        for more in [65_536, 1 << 24, 1 << 31] {
            let mut numbers = good;
            numbers[place] += more;
            assert_eq!(receiver_new(numbers, &mut state), setting);
        }
    }
}

#[test]
fn octets_of_states_store_and_answer() {
    let sender = active(SENDER);
    let mut raw = Raw::of(&sender);
    assert_eq!(
        raw.with_octets(
            library::pondreszi_sender_request_ad,
            &[1],
            ANSWER_OCTETS - 1
        ),
        11
    );
    assert_eq!(raw.answer, [0xA5; ANSWER_OCTETS]);
    assert_eq!(raw.request_ad(&[1]), NONE);
    assert!(!raw.answer.contains(&0xA5));
    raw.store.truncate(store_octets(SENDER.k) - 1);
    assert_eq!(raw.request_ad(&[1]), Refusal::Room.number());

    let settings =
        |store: &[u8], state: &mut [u8]| sender_new([1, 1, 1, 0, 0, 0, 0, 0], store, state);
    let mut state = [0xA5; SENDER_STATE_OCTETS + 1];
    let room = Refusal::Room.number();
    let short = SENDER_STATE_OCTETS - 1;
    assert_eq!(settings(&[0; store_octets(1) - 1], &mut state), room);
    assert_eq!(settings(&[0; store_octets(1)], &mut state[..short]), room);
    assert_eq!(state, [0xA5; SENDER_STATE_OCTETS + 1]);
    assert_eq!(settings(&[0; store_octets(1)], &mut state), NONE);
    assert_eq!(state[SENDER_STATE_OCTETS - 1..], [0, 0xA5]);

    let settings = |state: &mut [u8]| receiver_new([0, 0, 2, 0, 1], state);
    let mut state = [0xA5; RECEIVER_STATE_OCTETS + 1];
    assert_eq!(settings(&mut state[..RECEIVER_STATE_OCTETS - 1]), room);
    assert_eq!(state, [0xA5; RECEIVER_STATE_OCTETS + 1]);
    assert_eq!(settings(&mut state), NONE);
    assert_eq!(state[RECEIVER_STATE_OCTETS - 1..], [0, 0xA5]);
}

/// The need of every K, and one octet less.
#[test]
fn octets_of_stores() {
    let mut state = [0; SENDER_STATE_OCTETS];
    let store = [0; LARGEST_STORE];
    for k in SMALLEST_K..=LARGEST_K {
        let mut new = |octets| {
            sender_new(
                [k.into(), 1, 1, 0, 0, 0, 0, 0],
                &store[..octets],
                &mut state,
            )
        };
        assert_eq!(new(store_octets(k)), NONE);
        assert_eq!(new(store_octets(k) - 1), Refusal::Room.number());
    }
}

/// Set K with four units outstanding and one waiting: by the new K, or by these if more, and not by
/// the old K; and then the need falls as they are confirmed.
#[test]
fn stores_at_set_k() {
    let mut sender = active(SenderSettings { k: 4, ..SENDER });
    for n in 0..5 {
        sender.request_ad(&[n; LARGEST_UNIT]).unwrap();
        sender.lower_layer(LowerLayer::AdAccept).unwrap();
    }
    assert_eq!((sender.k(), sender.sent(), sender.waiting()), (4, 4, true));
    let room = Refusal::Room.number();
    let kept = Raw::of(&sender);
    for (k, need) in [(1, 4), (4, 4), (5, 5), (LARGEST_K, LARGEST_K)] {
        let mut raw = Raw::of(&sender);
        raw.store.resize(store_octets(need), 0xA5);
        raw.store.pop();
        assert_eq!(raw.directive(Directive::SetK(k)), room);
        assert_eq!(raw.state, kept.state);
        raw.store.push(0xA5);
        assert_eq!(raw.directive(Directive::SetK(k)), NONE);
        assert_eq!(raw.state[layout::sender::K], k);
        assert_eq!(store_need(k, 4), store_octets(need));
    }

    let mut raw = Raw::of(&sender);
    assert_eq!(raw.directive(Directive::SetK(1)), NONE);
    let confirm_three = word(SENDER.vs.wrapping_add(3), 0);
    let last = raw.store.pop().unwrap();
    assert_eq!(raw.control_word(&confirm_three), room);
    raw.store.push(last);
    assert_eq!(raw.control_word(&confirm_three), NONE);
    assert_eq!(raw.state[layout::sender::SENT], 1);
    raw.store.truncate(store_octets(1));
    assert_eq!(raw.directive(Directive::SetTimer(9)), NONE);
    assert_eq!(
        raw.store[..2 * LARGEST_UNIT],
        [[3; LARGEST_UNIT], [4; LARGEST_UNIT]].concat()
    );
    raw.store.pop();
    assert_eq!(raw.directive(Directive::SetTimer(9)), room);
}

/// The crate's sender lends enough: its store grows where K is set upwards, and its units stay.
#[test]
fn the_store_grows() {
    let mut sender = active(SenderSettings { k: 1, ..SENDER });
    sender.request_ad(&[7; LARGEST_UNIT]).unwrap();
    sender.request_ad(&[8; 3]).unwrap();
    assert_eq!(sender.store().len(), store_octets(1));
    let units = sender.store().to_vec();
    for value in [0, 128, 256 + 5] {
        let refused = sender.directive_raw(8, value).unwrap_err();
        assert_eq!(refused.refusal, Refusal::Setting);
    }
    assert_eq!(sender.store(), units);
    sender.directive(Directive::SetK(LARGEST_K)).unwrap();
    assert_eq!(
        (sender.k(), sender.store().len()),
        (LARGEST_K, LARGEST_STORE)
    );
    assert_eq!(sender.store()[..units.len()], units);
    for n in 0..LARGEST_K - 1 {
        sender.lower_layer(LowerLayer::AdAccept).unwrap();
        sender.request_ad(&[n; LARGEST_UNIT]).unwrap();
    }
    assert_eq!((sender.sent(), sender.waiting()), (LARGEST_K, true));
    sender.directive(Directive::SetK(1)).unwrap();
    let kept = (*sender.octets(), sender.store()[..LARGEST_STORE - 1].into());
    assert_eq!(
        refusal(Sender::restore(&kept.0, kept.1)),
        Some(Refusal::Room)
    );
    let sent = sender.store()[LARGEST_STORE - LARGEST_UNIT..].to_vec();
    assert_eq!(sent, [LARGEST_K - 2; LARGEST_UNIT]);
}

/// Octets of the former layout: the number alone, and the length too.
#[test]
fn the_former_layout_is_refused() {
    let sender = active(SENDER);
    let store = || sender.store().into();
    let mut state = *sender.octets();
    assert_eq!(state[1], 2);
    state[1] = 1;
    assert_eq!(
        refusal(Sender::restore(&state, store())),
        Some(Refusal::Setting)
    );
    assert_eq!(
        refusal(Sender::restore(&state[..88], store())),
        Some(Refusal::Setting)
    );
}

#[test]
fn places_of_a_receivers_state() {
    use layout::receiver::*;
    let mut receiver = Receiver::new(RECEIVER).unwrap();
    assert_eq!((receiver.octets()[VR], receiver.vr()), (255, 255));
    let frame = |number| frame::write_ad(0x2A5, 3, number, b"unit").unwrap();
    receiver.frame(&frame(255)).unwrap();
    receiver
        .frame(&frame::write_bd(0x2A5, 3, b"unit").unwrap())
        .unwrap();
    let state = *receiver.octets();
    assert_eq!(state[STATE], ReceiverState::Open.number());
    assert_eq!(two(&state, SPACECRAFT), RECEIVER.spacecraft);
    assert_eq!(state[CHANNEL], RECEIVER.channel);
    assert_eq!(state[WINDOW], RECEIVER.window);
    assert_eq!(state[BUFFERS], RECEIVER.buffers);
    assert_eq!((state[TAKEN], receiver.buffers_taken()), (1, 1));
    assert_eq!((state[VR], receiver.vr()), (0, 0));
    assert_eq!((state[FLAGS], state[COUNTER]), (0, 1));

    receiver.frame(&frame(0)).unwrap();
    receiver.frame(&frame(1)).unwrap();
    assert_eq!(receiver.octets()[STATE], ReceiverState::Wait.number());
    assert_eq!(receiver.octets()[FLAGS], flag::WAIT + flag::RETRANSMIT);
    receiver.release().unwrap();
    assert_eq!(receiver.octets()[FLAGS], flag::RETRANSMIT);
    receiver.frame(&frame(128)).unwrap();
    assert_eq!(receiver.octets()[STATE], ReceiverState::Lockout.number());
    assert_eq!(receiver.octets()[FLAGS], flag::LOCKOUT + flag::RETRANSMIT);
}

/// The control word has the flags in bits of its own (document 01, CLCW).
#[test]
fn flags_of_a_control_word() {
    let read = |third: u8| {
        let (mut valid, mut status, mut radio, mut flags) = (0, 0, 0, 0);
        let (mut counter, mut report) = (0, 0);
        let word = [0x01, 0x0C, third, 0];
        let number = unsafe {
            library::pondreszi_clcw_read(
                word.as_ptr(),
                word.len() as u64,
                3,
                &mut valid,
                &mut status,
                &mut radio,
                &mut flags,
                &mut counter,
                &mut report,
            )
        };
        (number, radio, flags)
    };
    assert_eq!(read(0x80), (NONE, rf::NO_RF, 0));
    assert_eq!(read(0x40), (NONE, rf::NO_BIT_LOCK, 0));
    assert_eq!(read(0x20), (NONE, 0, flag::LOCKOUT));
    assert_eq!(read(0x10), (NONE, 0, flag::WAIT));
    assert_eq!(read(0x08), (NONE, 0, flag::RETRANSMIT));
}

#[test]
fn events_states_and_units_of_the_receiver() {
    use ReceiverEvent::*;
    let mut state = *Receiver::new(RECEIVER).unwrap().octets();
    let ad = |number| frame::write_ad(0x2A5, 3, number, b"unit").unwrap();
    let bd = frame::write_bd(0x2A5, 3, b"unit").unwrap();
    let unlock = frame::write_unlock(0x2A5, 3).unwrap();
    let set_vr = frame::write_set_vr(0x2A5, 3, 7).unwrap();
    let check = Refusal::Check.number();
    let mut damaged = bd.clone();
    damaged[5] ^= 1;
    for (octets, number, event, unit, next) in [
        (ad(0), NONE, E3, NONE, ReceiverState::Open),
        (ad(255), NONE, E1, Unit::AD, ReceiverState::Open),
        (ad(255), NONE, E4, NONE, ReceiverState::Open),
        (bd, NONE, E6, Unit::BD, ReceiverState::Open),
        (ad(0), NONE, E1, Unit::AD, ReceiverState::Open),
        (ad(1), NONE, E2, NONE, ReceiverState::Wait),
        (damaged, check, E9, NONE, ReceiverState::Wait),
        (ad(128), NONE, E5, NONE, ReceiverState::Lockout),
        (unlock, NONE, E7, NONE, ReceiverState::Open),
        (set_vr, NONE, E8, NONE, ReceiverState::Open),
    ] {
        let received = receive(&mut state, &octets);
        assert_eq!(received, (number, event.number(), unit));
        assert_eq!(state[layout::receiver::STATE], next.number());
    }
    let mut event = 0xA5;
    let number = unsafe {
        library::pondreszi_receiver_release(state.as_mut_ptr(), state.len() as u64, &mut event)
    };
    assert_eq!((number, event), (NONE, E10.number()));
    state[0] ^= 1;
    let setting = Refusal::Setting.number();
    assert_eq!(receive(&mut state, &ad(7)), (setting, NONE, NONE));
}

#[test]
fn kinds_of_frames() {
    let kind = |octets: Vec<u8>| {
        let (mut kind, mut value, mut total, mut field) = (0xA5, 0xA5, 0, 0);
        let number = unsafe {
            let (first, count) = (octets.as_ptr(), octets.len() as u64);
            library::pondreszi_frame_read(
                first, count, 1, 0, &mut kind, &mut value, &mut total, &mut field,
            )
        };
        (number, kind, value)
    };
    let ad = frame::write_ad(1, 0, 9, b"unit").unwrap();
    let bd = frame::write_bd(1, 0, b"unit").unwrap();
    assert_eq!(kind(ad), (NONE, Kind::Ad.number(), 9));
    assert_eq!(kind(bd), (NONE, Kind::Bd.number(), 0));
    let unlock = frame::write_unlock(1, 0).unwrap();
    let set_vr = frame::write_set_vr(1, 0, 9).unwrap();
    assert_eq!(kind(unlock), (NONE, Kind::Unlock.number(), 0));
    assert_eq!(kind(set_vr), (NONE, Kind::SetVr.number(), 9));
}

/// The kind in an answer is that of the frame handed down, and tells what answers it.
#[test]
fn kinds_of_frames_handed_down() {
    let handed_down = |answer: Answer, kind: Kind, accept: LowerLayer| {
        let frame = answer.frame.unwrap();
        let read = frame::read(&frame.octets, SENDER.spacecraft, SENDER.channel);
        assert_eq!((frame.kind, read.unwrap().kind), (kind, kind));
        assert_eq!(
            (kind.accept(), kind.reject().number()),
            (accept, accept.number() + 1)
        );
    };
    let mut sender = active(SENDER);
    let answer = sender.request_ad(&[7]).unwrap();
    handed_down(answer, Kind::Ad, LowerLayer::AdAccept);
    let answer = sender.request_bd(&[7]).unwrap();
    handed_down(answer, Kind::Bd, LowerLayer::BdAccept);
    for (directive, kind) in [
        (Directive::InitiateWithUnlock, Kind::Unlock),
        (Directive::InitiateWithSetVr(9), Kind::SetVr),
    ] {
        let mut sender = Sender::new(SENDER).unwrap();
        let answer = sender.directive(directive).unwrap();
        handed_down(answer, kind, LowerLayer::BcAccept);
    }
    assert_eq!(active(SENDER).tick().unwrap().frame, None);
}

#[test]
fn places_of_a_new_senders_state() {
    use layout::sender::*;
    use sender_flag::*;
    let settings = SenderSettings { nnr: 253, ..SENDER };
    let state = *Sender::new(settings).unwrap().octets();
    assert_eq!(state[STATE], SenderState::Initial.number());
    assert_eq!(state[K], settings.k);
    assert_eq!(two(&state, T1_INITIAL), settings.t1_initial);
    assert_eq!(state[TRANSMISSION_LIMIT], settings.transmission_limit);
    assert_eq!(state[TIMEOUT_TYPE], 0);
    assert_eq!(two(&state, SPACECRAFT), settings.spacecraft);
    assert_eq!(state[CHANNEL], settings.channel);
    assert_eq!((state[VS], state[NNR]), (255, 253));
    assert_eq!((two(&state, TIMER), state[TRANSMISSION_COUNT]), (0, 1));
    assert_eq!(state[FLAGS], AD_OUT_READY + BC_OUT_READY + BD_OUT_READY);
    assert_eq!(
        state[SUSPEND_STATE..],
        [0; SENDER_STATE_OCTETS - SUSPEND_STATE]
    );
}

/// Two units are sent, of 3 and 1,017 octets, and one of 1 octet waits.
#[test]
fn places_of_a_senders_units() {
    use layout::sender::*;
    use sender_flag::*;
    let mut sender = active(SENDER);
    sender.request_ad(&[7; 3]).unwrap();
    assert_eq!(sender.octets()[FLAGS], BC_OUT_READY + BD_OUT_READY);
    sender.request_ad(&[8; LARGEST_UNIT]).unwrap();
    sender.lower_layer(LowerLayer::AdAccept).unwrap();
    sender.request_ad(&[9]).unwrap();
    sender.request_bd(&[9]).unwrap();
    let state = *sender.octets();
    assert_eq!(state[FLAGS], BC_OUT_READY + UNIT_WAITS);
    assert_eq!(state[SENT], 2);
    let lengths = [0, 2, 4].map(|more| two(&state, LENGTHS + more));
    assert_eq!(lengths, [3, LARGEST_UNIT as u16, 1]);
    assert_eq!(two(&state, TIMER), SENDER.t1_initial);
    let places = usize::from(LARGEST_K) + 1;
    assert_eq!(two(&state, LENGTHS + 2 * places - 2), 0);
    assert_eq!(LENGTHS + 2 * places, SENDER_STATE_OCTETS);

    // The first is sent again, and the second marked; then the lower layer is ready.
    sender.lower_layer(LowerLayer::AdAccept).unwrap();
    sender.control_word(&word(255, flag::RETRANSMIT)).unwrap();
    let state = *sender.octets();
    assert_eq!(
        (state[SENT], state[MARKED], state[TRANSMISSION_COUNT]),
        (2, 1, 2)
    );
    assert_eq!((state[VS], state[NNR]), (1, 255));
}

#[test]
fn places_of_a_senders_command() {
    use layout::sender::*;
    use sender_flag::*;
    let mut sender = Sender::new(SENDER).unwrap();
    sender.directive(Directive::InitiateWithSetVr(200)).unwrap();
    let state = *sender.octets();
    assert_eq!((state[BC_FRAME], state[BC_VALUE]), (2, 200));
    assert_eq!(state[FLAGS], AD_OUT_READY + BD_OUT_READY);
    for _ in 0..SENDER.t1_initial {
        sender.tick().unwrap();
    }
    assert_eq!(
        sender.octets()[FLAGS],
        AD_OUT_READY + BD_OUT_READY + BC_MARKED
    );
}

/// The first expiry suspends.
const SUSPENDING: SenderSettings = SenderSettings {
    t1_initial: 1,
    transmission_limit: 1,
    timeout_type: TimeoutType::Suspend.number(),
    ..SENDER
};

/// A unit is sent and one waits; then the sender is suspended.
fn suspended() -> Sender {
    let mut sender = active(SUSPENDING);
    sender.request_ad(&[7; 3]).unwrap();
    sender.request_ad(&[8]).unwrap();
    assert!(sender.tick().unwrap().suspended);
    sender
}

/// The values of an octet with which the state is still one.
fn values_taken(sender: &Sender, place: usize) -> Vec<u8> {
    let taken = |value: &u8| {
        let mut state = *sender.octets();
        state[place] = *value;
        Sender::restore(&state, sender.store().into()).is_ok()
    };
    (0..=255).filter(taken).collect()
}

/// Timeout_Type, Suspend_State and the notification, as a suspension has them.
#[test]
fn places_of_a_suspension() {
    use layout::sender::*;
    let sender = active(SUSPENDING);
    assert_eq!(sender.octets()[TIMEOUT_TYPE], TimeoutType::Suspend.number());
    assert_eq!(
        values_taken(&sender, TIMEOUT_TYPE),
        TimeoutType::ALL.map(TimeoutType::number)
    );
    // Only in Initial something is suspended.
    assert_eq!(values_taken(&sender, SUSPEND_STATE), [NONE]);

    // With units it is in S1 to S3 that it was left, without any also in S4, or nowhere.
    let sender = suspended();
    let state = sender.octets();
    assert_eq!(state[SUSPEND_STATE], SenderState::Active.number());
    assert_eq!(state[STATE], SenderState::Initial.number());
    assert_eq!(sender.suspended(), Some(SenderState::Active));
    assert_eq!((state[SENT], sender.waiting()), (1, true));
    assert_eq!(values_taken(&sender, SUSPEND_STATE), [1, 2, 3]);
    assert_eq!(values_taken(&sender, TIMER + 1), [0]);
    let mut empty = sender.clone();
    empty.lower_layer(LowerLayer::AdReject).unwrap();
    let all: Vec<u8> = (0..=LARGEST_SUSPEND_STATE).collect();
    assert_eq!(values_taken(&empty, SUSPEND_STATE), all);

    let mut raw = Raw::of(&active(SUSPENDING));
    raw.request_ad(&[7]);
    assert_eq!(raw.answer[answer::SUSPENDED], 0);
    assert_eq!(raw.tick(), NONE);
    assert_eq!(raw.answer[answer::EVENT], 18);
    assert_eq!(raw.answer[answer::SUSPENDED], 1);
    assert_eq!(raw.answer[answer::ALERT], NONE);
    assert_eq!(raw.answer[answer::DENIED], 0);
    assert_eq!(raw.directive(Directive::Resume), NONE);
    assert_eq!(raw.answer[answer::EVENT], 31);
    assert_eq!(raw.answer[answer::SUSPENDED], 0);
}

/// What the crate tells of each Timeout_Type at the limit.
#[test]
fn timeout_types() {
    let expired = |timeout_type: TimeoutType| {
        let mut sender = active(SenderSettings {
            timeout_type: timeout_type.number(),
            ..SUSPENDING
        });
        sender.request_ad(&[7]).unwrap();
        let answer = sender.tick().unwrap();
        (answer.alert, answer.suspended, sender.suspended())
    };
    let alert = (Some(Alert::T1), false, None);
    assert_eq!(expired(TimeoutType::Alert), alert);
    let suspend = (None, true, Some(SenderState::Active));
    assert_eq!(expired(TimeoutType::Suspend), suspend);
    let numbers = TimeoutType::ALL.map(TimeoutType::number);
    assert_eq!(numbers.last(), Some(&LARGEST_TIMEOUT_TYPE));
}

#[test]
fn places_of_an_answer() {
    let mut raw = Raw::of(&active(SENDER));
    let accept_ad = Response::AcceptAd.number();
    assert_eq!(raw.request_ad(&[7; 3]), NONE);
    assert_eq!(raw.answer[answer::REFUSAL], NONE);
    assert_eq!(raw.answer[answer::EVENT], 19);
    assert_eq!(raw.answer[answer::STATE], SenderState::Active.number());
    assert_eq!(two(&raw.answer, answer::FRAME), 10);
    assert_eq!(raw.answer[answer::KIND], Kind::Ad.number());
    assert_eq!(raw.answer[answer::ABORT], 0);
    assert_eq!(raw.answer[answer::ALERT], NONE);
    assert_eq!(raw.answer[answer::SUSPENDED], 0);
    assert_eq!(raw.responses(), [accept_ad]);

    let length = Refusal::Length.number();
    assert_eq!(raw.request_ad(&[]), length);
    assert_eq!(raw.answer[answer::REFUSAL], length);
    assert_eq!(raw.request_ad(&[8]), NONE);
    assert_eq!(raw.responses(), []);
    assert_eq!(raw.answer[answer::FIRST_RESPONSE], NONE);
    assert_eq!(raw.answer[answer::KIND], NONE);

    // A negative word: the frames under way are to be dropped.
    assert_eq!(raw.control_word(&word(255, flag::RETRANSMIT)), NONE);
    assert_eq!(raw.answer[answer::ABORT], 1);
    let state = SenderState::RetransmitWithoutWait.number();
    assert_eq!(raw.answer[answer::STATE], state);

    // One confirmed.
    assert_eq!(raw.control_word(&word(0, 0)), NONE);
    assert_eq!(raw.answer[answer::CONFIRMED_FIRST], 255);
    assert_eq!(raw.answer[answer::CONFIRMED], 1);
    assert_eq!(raw.answer[answer::DENIED], 0);
}

/// Terminate with one unit sent and one waiting.
#[test]
fn places_of_the_last_answer() {
    let mut raw = Raw::of(&active(SENDER));
    raw.request_ad(&[7]);
    raw.request_ad(&[8]);
    assert_eq!(raw.directive(Directive::Terminate), NONE);
    assert_eq!(raw.answer[answer::ALERT], Alert::Term.number());
    assert_eq!(raw.answer[answer::DENIED_FIRST], 255);
    assert_eq!(raw.answer[answer::DENIED], 1);
    assert_eq!(raw.answer[answer::CONFIRMED], 0);
    let responses = [
        Response::AcceptDirective,
        Response::RejectAd,
        Response::ConfirmDirective,
    ];
    assert_eq!(raw.responses(), responses.map(Response::number));
    let last = answer::FIRST_RESPONSE + LARGEST_RESPONSES;
    assert_eq!(last, answer::CONFIRMED_FIRST);
    assert_eq!(raw.answer[last - 1], NONE);
}

#[test]
fn states_of_the_sender() {
    use SenderState::*;
    let by_directive = |directive| {
        let mut sender = Sender::new(SENDER).unwrap();
        sender.directive(directive).unwrap().state
    };
    assert_eq!(Sender::new(SENDER).unwrap().state(), Initial);
    assert_eq!(by_directive(Directive::InitiateWithoutCheck), Active);
    let without_bc = by_directive(Directive::InitiateWithClcwCheck);
    assert_eq!(without_bc, InitialisingWithoutBc);
    assert_eq!(
        by_directive(Directive::InitiateWithUnlock),
        InitialisingWithBc
    );
    let by_flags = |flags| {
        let mut sender = active(SENDER);
        sender.request_ad(&[7]).unwrap();
        sender.control_word(&word(255, flags)).unwrap().state
    };
    assert_eq!(by_flags(flag::RETRANSMIT), RetransmitWithoutWait);
    assert_eq!(by_flags(flag::RETRANSMIT + flag::WAIT), RetransmitWithWait);
}

/// Table 7-8 with table 7-4.
#[test]
fn alerts() {
    let alert_of = |limit: u8, word: &[u8]| {
        let mut sender = active(SenderSettings {
            transmission_limit: limit,
            ..SENDER
        });
        sender.request_ad(&[7]).unwrap();
        sender.control_word(word).unwrap().alert
    };
    assert_eq!(alert_of(5, &word(0, flag::RETRANSMIT)), Some(Alert::Synch));
    assert_eq!(alert_of(5, &[0x81, 0x0C, 0, 0]), Some(Alert::Clcw));
    assert_eq!(alert_of(5, &word(255, flag::WAIT)), Some(Alert::Clcw));
    assert_eq!(
        alert_of(1, &word(255, flag::RETRANSMIT)),
        Some(Alert::Limit)
    );
    assert_eq!(alert_of(5, &word(9, 0)), Some(Alert::Nnr));
    assert_eq!(alert_of(5, &word(255, flag::LOCKOUT)), Some(Alert::Lockout));
    assert_eq!(alert_of(5, &word(255, 0)), None);

    let mut sender = active(SenderSettings {
        t1_initial: 1,
        transmission_limit: 1,
        ..SENDER
    });
    sender.request_ad(&[7]).unwrap();
    assert_eq!(sender.tick().unwrap().alert, Some(Alert::T1));
    let mut sender = active(SENDER);
    let answer = sender.directive(Directive::Terminate).unwrap();
    assert_eq!(answer.alert, Some(Alert::Term));
    let mut sender = active(SENDER);
    let answer = sender.lower_layer(LowerLayer::AdReject).unwrap();
    assert_eq!(answer.alert, Some(Alert::Llif));
}

#[test]
fn responses() {
    use Response::*;
    let mut sender = Sender::new(SENDER).unwrap();
    assert_eq!(sender.request_ad(&[7]).unwrap().responses, [RejectAd]);
    let answer = sender.directive(Directive::InitiateWithoutCheck).unwrap();
    assert_eq!(answer.responses, [AcceptDirective, ConfirmDirective]);
    assert_eq!(sender.request_ad(&[7]).unwrap().responses, [AcceptAd]);
    assert_eq!(sender.request_bd(&[7]).unwrap().responses, []);
    assert_eq!(sender.request_bd(&[7]).unwrap().responses, [RejectBd]);
    let answer = sender.lower_layer(LowerLayer::BdAccept).unwrap();
    assert_eq!(answer.responses, [AcceptBd]);
    let answer = sender.directive(Directive::Resume).unwrap();
    assert_eq!(answer.responses, [RejectDirective]);
    let mut sender = Sender::new(SENDER).unwrap();
    sender.directive(Directive::InitiateWithUnlock).unwrap();
    let answer = sender.control_word(&[0x81, 0x0C, 0, 0]).unwrap();
    assert_eq!(answer.responses, [DenyDirective]);
}

/// The row of table 7-8 that each is, and what it sets.
#[test]
fn directives() {
    use layout::sender::*;
    let after = |directive| {
        let mut sender = Sender::new(SENDER).unwrap();
        let row = sender.directive(directive).unwrap().event;
        (row, *sender.octets())
    };
    for (directive, row) in [
        (Directive::InitiateWithoutCheck, 23),
        (Directive::InitiateWithClcwCheck, 24),
        (Directive::InitiateWithUnlock, 25),
        (Directive::InitiateWithSetVr(9), 27),
        (Directive::Terminate, 29),
        (Directive::Resume, 30),
        (Directive::SetVs(9), 35),
        (Directive::SetK(9), 36),
        (Directive::SetTimer(9), 37),
        (Directive::SetTransmissionLimit(9), 38),
        (Directive::SetTimeoutType(1), 39),
    ] {
        assert_eq!(after(directive).0, row);
    }
    for left in 1..=LARGEST_SUSPEND_STATE {
        let mut sender = suspended();
        sender.lower_layer(LowerLayer::AdReject).unwrap();
        let mut state = *sender.octets();
        state[SUSPEND_STATE] = left;
        let mut sender = Sender::restore(&state, sender.store().into()).unwrap();
        let left = SenderState::from_number(left);
        assert_eq!(sender.suspended(), left);
        let answer = sender.directive(Directive::Resume).unwrap();
        assert_eq!(
            (answer.event, Some(answer.state)),
            (30 + answer.state.number(), left)
        );
        assert_eq!(sender.suspended(), None);
    }
    let of_type = after(Directive::SetTimeoutType(1)).1;
    assert_eq!(of_type[TIMEOUT_TYPE], TimeoutType::Suspend.number());
    assert_eq!(after(Directive::InitiateWithUnlock).1[BC_FRAME], 1);
    assert_eq!(after(Directive::InitiateWithSetVr(9)).1[BC_VALUE], 9);
    assert_eq!(after(Directive::SetVs(9)).1[VS..=NNR], [9, 9]);
    assert_eq!(after(Directive::SetK(9)).1[K], 9);
    assert_eq!(two(&after(Directive::SetTimer(9)).1, T1_INITIAL), 9);
    let limited = after(Directive::SetTransmissionLimit(9)).1;
    assert_eq!(limited[TRANSMISSION_LIMIT], 9);
}

/// The row of table 7-8 that each is.
#[test]
fn what_the_lower_layer_says() {
    use LowerLayer::*;
    let said = [AdAccept, AdReject, BcAccept, BcReject, BdAccept, BdReject];
    assert_eq!(said, LowerLayer::ALL);
    let row = |said| active(SENDER).lower_layer(said).unwrap().event;
    assert_eq!(said.map(row), [41, 42, 43, 44, 45, 46]);
}

/// Each refusal, as document 01 numbers it.
#[test]
fn refusals() {
    let bd = frame::write_bd(1, 0, b"unit").unwrap();
    let cltu = cltu::write(&bd).unwrap();
    let changed = |place: usize, bit: u8| {
        let mut octets = bd[..bd.len() - 2].to_vec();
        octets[place] ^= bit;
        let check = coding::fecf(&octets);
        octets.extend(check.to_be_bytes());
        octets
    };
    let read = |octets: &[u8]| refusal(frame::read(octets, 1, 0));
    let mut damaged = bd.clone();
    damaged[6] ^= 1;
    let mut receiver = Receiver::new(RECEIVER).unwrap();
    for (met, refusal) in [
        (refusal(cltu::read(&[0], Mode::Detecting)), Refusal::NoStart),
        (
            refusal(cltu::read(
                &[0xEB, 0x90, 0, 0, 0, 0, 0, 0, 0, 1],
                Mode::Detecting,
            )),
            Refusal::NoBlock,
        ),
        (
            refusal(cltu::read(&cltu[..10], Mode::Detecting)),
            Refusal::NoEnd,
        ),
        (read(&bd[..7]), Refusal::Short),
        (read(&[&bd[..], &[0; 7]].concat()), Refusal::Fill),
        (read(&changed(0, 0x40)), Refusal::Header),
        (read(&changed(4, 1)), Refusal::Header),
        (read(&changed(1, 2)), Refusal::Address),
        (read(&damaged), Refusal::Check),
        (read(&changed(0, 0x10)), Refusal::Command),
        (refusal(frame::write_bd(1, 0, &[])), Refusal::Length),
        (refusal(cltu::write_into(&bd, &mut [0; 25])), Refusal::Room),
        (refusal(frame::write_bd(1024, 0, b"unit")), Refusal::Setting),
        (refusal(receiver.release()), Refusal::Release),
    ] {
        assert_eq!(met, Some(refusal));
    }
    let numbers = Refusal::ALL.map(Refusal::number);
    assert_eq!(numbers, [1, 2, 3, 4, 5, 6, 7, 8, 9, 10, 11, 12, 13]);
}
