//! Suspended senders as a host may restore them, octets that are nearly of one and no state, and
//! events while suspended.

use crate::library::SenderEvent;
use crate::octets::{put_stored, SenderState, LENGTHS, SENDER_STATE};
use crate::random::Random;
use independent::fop1::{
    Sender, SentFrame, K_MOST, SUSPEND_STATE_MOST, TIMEOUT_TYPE_MOST, UNIT_MOST,
};
use independent::frame::Content;
use independent::table_7_8::State;

/// The largest value of an octet.
const OCTET_MOST: usize = 255;
const TIMER_MOST: usize = 65_535;

/// The type-BC frame Unlock in a state's octets.
const UNLOCK: (u8, u8) = (1, 0);

fn any_unit(random: &mut Random) -> Vec<u8> {
    let length = match random.below(40) {
        0 => UNIT_MOST,
        1 => random.between(1, UNIT_MOST),
        _ => random.between(1, 12),
    };
    random.octets(length)
}

/// A suspended sender with the address and most settings of this one, its numbers, queues, flags and
/// count any that are well-formed.
pub fn sender(random: &mut Random, settings: &Sender) -> Sender {
    let suspend_state = random.between(1, SUSPEND_STATE_MOST.into()) as u8;
    let serving = suspend_state <= State::S3.number();
    let unacknowledged = match random.below(4) {
        0 => *random.pick(&[0, 1, 127, 128, OCTET_MOST]),
        _ => random.between(0, 12),
    };
    let most = match random.below(60) {
        0 => K_MOST,
        _ => 6,
    };
    let units = if serving {
        random.between(0, most.min(unacknowledged))
    } else {
        0
    };
    let marked = random.between(0, units);
    let v_s = random.number() as u8;
    // Often it is suspended again soon after Resume.
    let soon = random.once_in(2);
    let mut sent_queue = Vec::new();
    for place in 0..units {
        let number = v_s.wrapping_sub((units - place) as u8).into();
        let unit = any_unit(random);
        sent_queue.push(SentFrame {
            content: Content::Ad { number, unit },
            to_be_retransmitted: place >= units - marked,
        });
    }
    Sender {
        state: State::S6,
        v_s,
        nn_r: v_s.wrapping_sub(unacknowledged as u8),
        sent_queue,
        wait_queue: (serving && random.once_in(2)).then(|| any_unit(random)),
        ad_out_ready: random.once_in(2),
        bc_out_ready: random.once_in(2),
        bd_out_ready: random.once_in(2),
        timer: 0,
        t1_initial: match soon {
            true => random.between(1, 3) as u16,
            false => settings.t1_initial,
        },
        transmission_limit: match soon {
            true => random.between(1, 3) as u8,
            false => settings.transmission_limit,
        },
        timeout_type: (soon || random.once_in(2)) as u8,
        transmission_count: match random.below(4) {
            0 => random.between(1, OCTET_MOST) as u8,
            _ => random.between(1, 5) as u8,
        },
        suspend_state,
        ..settings.clone()
    }
}

/// The octets of its state and its store, with any lengths and octets where no unit is held.
pub fn octets(random: &mut Random, sender: &Sender) -> (Vec<u8>, Vec<u8>) {
    let of_state = SenderState::of(sender);
    let mut state = of_state.octets();
    let held = LENGTHS + 2 * of_state.lengths.len();
    for place in (held..SENDER_STATE).step_by(2) {
        let left = random.between(0, UNIT_MOST) as u16;
        state[place..place + 2].copy_from_slice(&left.to_be_bytes());
    }
    let mut store = random.octets(sender.store());
    put_stored(sender, &mut store);
    (state, store)
}

/// Drops the units sent and the unit waiting.
fn clear(state: &mut SenderState) {
    state.marks.clear();
    state.lengths.clear();
    state.waiting = false;
}

/// A unit is sent and none waits, or the other way.
fn hold_one(state: &mut SenderState, waiting: bool) {
    clear(state);
    state.lengths.push(1);
    state.waiting = waiting;
    if !waiting {
        state.marks.push(false);
        state.v_s = state.nn_r.wrapping_add(1);
    }
}

fn any_timer(random: &mut Random) -> u16 {
    random.between(1, TIMER_MOST) as u16
}

/// Makes the state of a suspended sender one that no sender has.
type Spoil = fn(&mut Random, &mut SenderState);

/// What makes octets no state though a suspended sender's could be like them, each for one reason
/// alone.
pub const ILL_FORMED: [(&str, Spoil); 10] = [
    ("Suspend_State above 4", |random, state| {
        let least = SUSPEND_STATE_MOST as usize + 1;
        state.suspend_state = match random.below(2) {
            0 => least as u8,
            _ => random.between(least, OCTET_MOST) as u8,
        };
    }),
    ("Suspend_State outside Initial", |random, state| {
        state.state = random.between(1, State::S5.number().into()) as u8;
        if state.state > State::S3.number() || state.suspend_state == SUSPEND_STATE_MOST {
            clear(state);
        }
        if state.state == State::S5.number() {
            state.control = UNLOCK;
        }
        state.timer = any_timer(random);
    }),
    ("Suspend_State 4 with units sent", |_, state| {
        state.suspend_state = SUSPEND_STATE_MOST;
        hold_one(state, false);
    }),
    ("Suspend_State 4 with a unit waiting", |_, state| {
        state.suspend_state = SUSPEND_STATE_MOST;
        hold_one(state, true);
    }),
    ("suspended with a running timer", |random, state| {
        state.timer = any_timer(random);
    }),
    ("suspended with a type-BC frame", |random, state| {
        state.control = *random.pick(&[UNLOCK, (2, 0), (2, 200)]);
        if random.once_in(2) {
            clear(state);
        }
    }),
    ("Initial with a running timer", |random, state| {
        state.suspend_state = 0;
        clear(state);
        state.timer = any_timer(random);
    }),
    ("Initial with units sent", |_, state| {
        state.suspend_state = 0;
        hold_one(state, false);
    }),
    ("Initial with a unit waiting", |_, state| {
        state.suspend_state = 0;
        hold_one(state, true);
    }),
    ("Timeout_Type above 1", |random, state| {
        state.timeout_type = random.between(TIMEOUT_TYPE_MOST + 1, OCTET_MOST) as u8;
    }),
];

/// Octets that are no state, and why.
pub fn ill_formed(random: &mut Random, settings: &Sender) -> (&'static str, Vec<u8>) {
    let mut state = SenderState::of(&sender(random, settings));
    let (why, spoil) = random.pick(&ILL_FORMED);
    spoil(random, &mut state);
    (why, state.octets())
}

/// Resume with any value.
fn resume(random: &mut Random) -> SenderEvent {
    let value = match random.below(4) {
        0 => 0,
        1 => *random.pick(&[1, 2, 4, 255, 256, 65_536, u32::MAX]),
        _ => random.number() as u32,
    };
    SenderEvent::Directive { number: 6, value }
}

/// What seldom comes otherwise; mostly none.
pub fn event(random: &mut Random) -> Option<SenderEvent> {
    let directive = |number: usize, value: u32| SenderEvent::Directive {
        number: number as u32,
        value,
    };
    Some(match random.below(60) {
        0..=5 => resume(random),
        6 => directive(random.between(1, 4), random.below(256) as u32),
        7 => SenderEvent::LowerLayer(2 * random.between(1, 3) as u32),
        8..=10 => directive(5, random.below(3) as u32),
        11..=16 => directive(random.between(7, 11), random.below(9) as u32),
        _ => return None,
    })
}
