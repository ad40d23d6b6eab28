//! Receiver and sender: the library beside the independent side, event by event.

use std::hint::black_box;

use independent::bits;
use independent::clcw::{self, Report};
use independent::farm1::{Arrival, Farm1};
use independent::fault::Fault;
use independent::fop1::{self, Sender, STORE};
use independent::frame;
use independent::refusal::DONE;

use crate::frames::ad_frame;
use crate::library::{self, Received, SenderEvent, SenderMemory, SenderSettings};
use crate::measure::{measure_both, sample, Row, Side};
use crate::octets::{self, SenderState, ANSWER, RECEIVER_STATE, SENDER_STATE};
use crate::{CHANNEL, FRAME, SPACECRAFT};

/// The octets of the primary header.
const HEADER: u64 = 5;

/// W, V(R) and the buffers.
const RECEIVER: [u32; 3] = [20, 0, 8];

/// The library's receiver. Each AD frame is the one expected, and its unit is released.
struct LibraryReceiver {
    state: Vec<u8>,
    frames: Vec<Vec<u8>>,
    next: u8,
}

impl LibraryReceiver {
    fn frame_and_release(&mut self) -> (Received, (u8, u8)) {
        let frame = black_box(&mut self.frames[self.next as usize]);
        self.next = self.next.wrapping_add(1);
        let received = library::receiver_frame(&mut self.state, frame);
        (received, library::receiver_release(&mut self.state))
    }
}

impl Side for LibraryReceiver {
    fn clear(&mut self) {
        self.state.fill(0);
        self.next = 0;
        let number = library::receiver_new(SPACECRAFT, CHANNEL, RECEIVER, &mut self.state);
        assert!(number == DONE);
    }

    fn operate(&mut self) {
        black_box(self.frame_and_release());
    }
}

/// The independent receiver, with the same frames.
struct IndependentReceiver {
    farm: Farm1,
    frames: Vec<Vec<u8>>,
    next: u8,
}

impl IndependentReceiver {
    fn start() -> Farm1 {
        let [window, v_r, buffers] = RECEIVER.map(|number| number as usize);
        Farm1::start(window, v_r, buffers).unwrap()
    }

    /// No other frames come than accepted AD frames.
    fn frame_and_release(&mut self) -> (Received, (u8, u8)) {
        let frame = black_box(&self.frames[self.next as usize]);
        self.next = self.next.wrapping_add(1);
        let read = frame::read(frame, SPACECRAFT, CHANNEL, Fault::None);
        assert!(read.number == DONE && read.kind == frame::AD);
        let event = self.farm.take(Arrival::Ad(read.value), Fault::None);
        let received = Received {
            number: read.number,
            event: event.unwrap() as u8 + 1,
            unit: 1,
            first: HEADER,
            count: read.field as u64,
        };
        let event = self.farm.take(Arrival::Release, Fault::None);
        (received, (DONE, event.unwrap() as u8 + 1))
    }
}

impl Side for IndependentReceiver {
    fn clear(&mut self) {
        self.farm = IndependentReceiver::start();
        self.next = 0;
    }

    fn operate(&mut self) {
        black_box(self.frame_and_release());
    }
}

/// Two events: a frame that is accepted, and the release of its unit.
pub fn receiver(name: &str, unit: usize) -> Row<2> {
    let frames: Vec<Vec<u8>> = (0..=255).map(|number| ad_frame(number, unit)).collect();
    let library = LibraryReceiver {
        state: vec![0; RECEIVER_STATE],
        frames: frames.clone(),
        next: 0,
    };
    let independent = IndependentReceiver {
        farm: IndependentReceiver::start(),
        frames,
        next: 0,
    };
    measure_both(name, 2, (library, independent), |library, independent| {
        let answers = library.frame_and_release();
        let accepted = answers.0.event == 1;
        let same = answers == independent.frame_and_release();
        let state = octets::receiver_state(&independent.farm, SPACECRAFT, CHANNEL);
        accepted && same && library.state == state
    })
}

const SENDER: SenderSettings = SenderSettings {
    k: 10,
    t1_initial: 100,
    transmission_limit: 3,
    timeout_type: 0,
    spacecraft: SPACECRAFT,
    channel: CHANNEL,
    vs: 0,
    nnr: 0,
};

/// The directive that initiates the AD service without waiting for a control word.
const INITIATE: u32 = 1;

/// The control word that confirms the unit of this number.
fn confirming(number: u8) -> Vec<u8> {
    let report = Report {
        channel: CHANNEL,
        lockout: 0,
        wait: 0,
        retransmit: 0,
        counter: 0,
        value: number.wrapping_add(1).into(),
    };
    bits::to_octets(&clcw::encode(&report, Fault::None))
}

/// The events of a unit: four, one after the other.
const EVENTS: usize = 4;

/// The library's sender, with the events of each number.
struct LibrarySender {
    memory: SenderMemory,
    events: Vec<[SenderEvent; EVENTS]>,
    next: u8,
}

impl Side for LibrarySender {
    fn clear(&mut self) {
        let memory = &mut self.memory;
        for lent in [
            &mut memory.state,
            &mut memory.store,
            &mut memory.output,
            &mut memory.answer,
        ] {
            lent.fill(0);
        }
        self.next = 0;
        let number = library::sender_new(&SENDER, &mut memory.store, &mut memory.state);
        assert!(number == DONE);
        let mut initiate = SenderEvent::Directive {
            number: INITIATE,
            value: 0,
        };
        assert!(library::sender_event(&mut initiate, memory) == DONE);
    }

    fn operate(&mut self) {
        for event in black_box(&mut self.events[self.next as usize]) {
            black_box(library::sender_event(event, &mut self.memory));
        }
        self.next = self.next.wrapping_add(1);
    }
}

/// The independent sender, with the same events.
struct IndependentSender {
    sender: Sender,
    events: Vec<[fop1::Event; EVENTS]>,
    next: u8,
}

impl IndependentSender {
    fn start() -> Sender {
        let mut sender = Sender::start(&SENDER.independent(), STORE).unwrap();
        let initiate = fop1::Event::Directive {
            number: INITIATE as usize,
            value: 0,
        };
        assert!(sender.take(&initiate, FRAME, Fault::None).refusal == DONE);
        sender
    }
}

impl Side for IndependentSender {
    fn clear(&mut self) {
        self.sender = IndependentSender::start();
        self.next = 0;
    }

    fn operate(&mut self) {
        for event in black_box(&self.events[self.next as usize]) {
            black_box(self.sender.take(event, FRAME, Fault::None));
        }
        self.next = self.next.wrapping_add(1);
    }
}

/// The events of one unit on both sides: answers, frames, states and stores.
fn senders_alike(library: &mut LibrarySender, independent: &mut IndependentSender) -> bool {
    let number = library.next as usize;
    library.next = library.next.wrapping_add(1);
    independent.next = library.next;
    let mut alike = true;
    for place in 0..EVENTS {
        let memory = &mut library.memory;
        let refusal = library::sender_event(&mut library.events[number][place], memory);
        let event = &independent.events[number][place];
        let answer = independent.sender.take(event, FRAME, Fault::None);
        let frame = answer.frame.as_deref().unwrap_or(&[]);
        let mut store = memory.store.clone();
        octets::put_stored(&independent.sender, &mut store);
        let state = SenderState::read(&memory.state);
        alike &= refusal == DONE
            && memory.answer == octets::answer(&answer)
            && memory.output[..frame.len()] == *frame
            && frame.is_empty() == (place != 0)
            && state == Some(SenderState::of(&independent.sender))
            && memory.store == store;
    }
    alike && independent.sender.unacknowledged() == 0
}

/// Four events: a request, the lower layer's AD_Accept, the word that confirms, a tick.
pub fn sender(name: &str, unit: usize) -> Row<2> {
    let of_library = |number| {
        [
            SenderEvent::RequestAd(sample(number as usize, unit)),
            SenderEvent::LowerLayer(1),
            SenderEvent::ControlWord(confirming(number)),
            SenderEvent::Tick,
        ]
    };
    let of_independent = |number| {
        [
            fop1::Event::AdRequest(sample(number as usize, unit)),
            fop1::Event::AdAccept,
            fop1::Event::ControlWord(confirming(number)),
            fop1::Event::Tick,
        ]
    };
    let library = LibrarySender {
        memory: SenderMemory {
            state: vec![0; SENDER_STATE],
            store: vec![0; STORE],
            output: vec![0; FRAME],
            answer: vec![0; ANSWER],
        },
        events: (0..=255).map(of_library).collect(),
        next: 0,
    };
    let independent = IndependentSender {
        sender: IndependentSender::start(),
        events: (0..=255).map(of_independent).collect(),
        next: 0,
    };
    measure_both(name, EVENTS, (library, independent), senders_alike)
}
