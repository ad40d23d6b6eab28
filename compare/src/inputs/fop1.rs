//! Random runs of a sender: what it starts with, and its events.

use super::{each_too_wide, suspended, too_wide};
use crate::library::{SenderEvent, SenderSettings};
use crate::octets::SENDER_STATE;
use crate::random::Random;
use independent::bits;
use independent::clcw::{self, NO_BIT_LOCK_FLAG, NO_RF_AVAILABLE_FLAG, STATUS_FIELD};
use independent::fault::Fault;
use independent::fop1::{self, Sender, K_MOST, STORE, UNIT_MOST};
use independent::table_7_8::State;

/// A timer of so few ticks expires soon.
const SOON: u16 = 4;

/// Settings, of which one is too wide for an octet, or two.
pub fn fixed_settings() -> Vec<SenderSettings> {
    let good = [2, 9, 5, 0, 33, 3, 4, 4];
    let settings = |numbers: [u32; 8]| {
        let [k, t1_initial, transmission_limit, timeout_type, spacecraft, channel, vs, nnr] =
            numbers;
        SenderSettings {
            k,
            t1_initial,
            transmission_limit,
            timeout_type,
            spacecraft,
            channel,
            vs,
            nnr,
        }
    };
    each_too_wide(good).into_iter().map(settings).collect()
}

/// Settings, store and the room for a state of a sender whose window is the widest, with nothing
/// that ends its service soon.
pub fn widest(random: &mut Random) -> (SenderSettings, Vec<u8>, Vec<u8>) {
    let settings = settings(random);
    let widest = SenderSettings {
        k: K_MOST as u32,
        t1_initial: 65_535,
        transmission_limit: 255,
        vs: settings.nnr,
        ..settings
    };
    (widest, random.octets(STORE), random.octets(SENDER_STATE))
}

/// Settings, store and the room for a state, some of them beyond their limits.
pub fn start(random: &mut Random) -> (SenderSettings, Vec<u8>, Vec<u8>) {
    let mut settings = settings(random);
    if random.once_in(2) {
        for _ in 0..random.between(1, 2) {
            spoil(random, &mut settings);
        }
    }
    let need = fop1::store((settings.k as usize).min(K_MOST), 0);
    let store = match random.below(12) {
        0 => need - 1,
        1 => random.below(need),
        2 => random.between(need, need + 300),
        3 if random.once_in(8) => STORE,
        4 => need - UNIT_MOST,
        _ => need,
    };
    let state = match random.below(12) {
        0 => random.below(SENDER_STATE),
        1 => SENDER_STATE - 1,
        2 => random.between(SENDER_STATE, SENDER_STATE + 20),
        _ => SENDER_STATE,
    };
    (settings, random.octets(store), random.octets(state))
}

/// Settings within their limits.
fn settings(random: &mut Random) -> SenderSettings {
    let nnr = match random.below(4) {
        0 => random.between(224, 255) as u8,
        _ => random.number() as u8,
    };
    let ahead = match random.below(4) {
        0 => random.between(0, 32) as u8,
        1 => *random.pick(&[1, 31, 32, 33, 126, 127, 128, 254, 255]),
        _ => 0,
    };
    let timeout_type = if random.once_in(3) { 0 } else { 1 };
    // Some suspend soon and often.
    let soon = timeout_type == 1 && random.once_in(2);
    SenderSettings {
        // Mostly small, so that the stores are.
        k: match random.below(32) {
            0..=14 => random.between(1, 3) as u32,
            15..=28 => random.between(1, 16) as u32,
            29 => 32,
            30 => random.between(1, 32) as u32,
            _ if random.once_in(3) => random.between(33, K_MOST) as u32,
            _ => K_MOST as u32,
        },
        t1_initial: match random.below(4) {
            _ if soon => random.between(1, SOON.into()) as u32,
            0 => random.between(1, 3) as u32,
            1 => random.between(1, 65_535) as u32,
            _ => random.between(1, 60) as u32,
        },
        transmission_limit: match random.below(6) {
            _ if soon => random.between(1, 3) as u32,
            0 => 1,
            1 | 2 => random.between(2, 4) as u32,
            _ => random.between(1, 255) as u32,
        },
        timeout_type,
        spacecraft: random.between(0, 1023) as u32,
        channel: random.between(0, 63) as u32,
        vs: nnr.wrapping_add(ahead).into(),
        nnr: nnr.into(),
    }
}

/// One setting at or beyond its limit.
fn spoil(random: &mut Random, settings: &mut SenderSettings) {
    let ahead = *random.pick(&[32, 33, 127, 128, 255]);
    match random.below(10) {
        0 => settings.k = *random.pick(&[0, 1, 33, 127, 128, 129, 255]),
        1 => settings.t1_initial = *random.pick(&[0, 1, 256, 65_535, 65_536]),
        2 => settings.transmission_limit = *random.pick(&[0, 1, 255, 256]),
        3 => settings.spacecraft = *random.pick(&[0, 1023, 1024, 32_768, 65_535]),
        4 => settings.channel = *random.pick(&[0, 63, 64, 128, 255]),
        5 => settings.vs = (settings.nnr + ahead) % 256,
        6 => settings.vs = random.between(0, 255) as u32,
        7 => settings.timeout_type = *random.pick(&[0, 1, 2, 255]),
        _ => spoil_width(random, settings),
    }
}

/// One setting that an octet, or two, could not hold.
fn spoil_width(random: &mut Random, settings: &mut SenderSettings) {
    let mut all = [
        &mut settings.k,
        &mut settings.t1_initial,
        &mut settings.transmission_limit,
        &mut settings.timeout_type,
        &mut settings.spacecraft,
        &mut settings.channel,
        &mut settings.vs,
        &mut settings.nnr,
    ];
    let setting = &mut all[random.below(8)];
    **setting = too_wide(random, **setting);
}

/// What a run is like.
pub struct Manner {
    /// The shares of its events, in the order of `event`.
    shares: [usize; KINDS],
    /// Once in so many times something comes that may end the service.
    harm: usize,
    /// Units of all lengths up to this.
    unit_most: usize,
    /// Once in so many times a unit has the largest length.
    largest: usize,
    /// Next to nothing comes but units and their accepts, so that the widest window is full.
    pub full: bool,
    /// So many events at the least and at the most.
    pub events: (usize, usize),
}

/// The kinds of events.
const KINDS: usize = 10;

impl Manner {
    /// Once in so many times a unit has the largest length.
    pub fn full(largest: usize) -> Manner {
        Manner {
            shares: [400, 4, 2, 4, 400, 2, 2, 1, 2, 2],
            harm: 5000,
            unit_most: 12,
            largest,
            full: true,
            events: (700, 1500),
        }
    }

    /// Units are sent and acknowledged one after the other, so that all numbers are used and more.
    pub fn brisk(harm: usize) -> Manner {
        Manner {
            shares: [60, 2, 2, 6, 60, 2, 2, 1, 40, 2],
            harm,
            unit_most: 12,
            largest: 400,
            full: false,
            events: (2000, 4000),
        }
    }

    pub fn new(random: &mut Random, sender: &Sender) -> Manner {
        if sender.k > 32 || random.once_in(12) {
            let largest = *random.pick(&[1, 4, 40]);
            return Manner::full(largest);
        }
        if random.once_in(12) {
            let harm = *random.pick(&[20, 60, 5000]);
            return Manner::brisk(harm);
        }
        // Much is sent and little of it acknowledged.
        let deep = random.once_in(3);
        let mut shares = match deep {
            true => [120, 4, 4, 10, 120, 8, 8, 1, 8, 8],
            false => [60, 10, 12, 40, 60, 8, 10, 1, 50, 8],
        };
        for share in &mut shares {
            let most = *share;
            *share = match random.below(4) {
                0 => random.between(most / 8, most),
                1 => most / 4,
                _ => most,
            };
            *share = (*share).max(1);
        }
        // The timer expires while frames are still to be sent again.
        if sender.timeout_type == 1 && sender.t1_initial <= SOON {
            let (tick, accept) = (3, 4);
            shares[tick] = shares[accept];
        }
        Manner {
            shares,
            harm: match deep {
                true => *random.pick(&[300, 5000]),
                false => *random.pick(&[5, 40, 300, 5000]),
            },
            unit_most: *random.pick(&[12, 12, 12, 12, 12, 12, 12, 250, 250, 250, UNIT_MOST]),
            largest: 40,
            full: false,
            events: (100, 1500),
        }
    }
}

/// A value for V(S): often one near it, whose number was used.
fn value_of_v_s(random: &mut Random, sender: &Sender) -> u32 {
    match random.below(3) {
        0 => sender.v_s.wrapping_sub(random.below(12) as u8).into(),
        _ => random.below(256) as u32,
    }
}

/// The next event.
pub fn event(random: &mut Random, manner: &Manner, sender: &Sender) -> SenderEvent {
    if sender.suspended() {
        if let Some(event) = suspended::event(random) {
            return event;
        }
    } else if sender.state == State::S6 && random.once_in(3) {
        let number = match random.below(8) {
            _ if manner.full => 1,
            0 => 7,
            _ => random.between(1, 4) as u32,
        };
        let value = value_of_v_s(random, sender);
        return SenderEvent::Directive { number, value };
    }
    // No word ends this where V(S) is not NN(R).
    let initialising = matches!(sender.state, State::S4 | State::S5);
    if initialising && sender.unacknowledged() > 0 && random.once_in(20) {
        return SenderEvent::Directive {
            number: 5,
            value: 0,
        };
    }
    let kinds: [usize; KINDS] = std::array::from_fn(|kind| kind);
    let mut rest = random.below(manner.shares.iter().sum());
    let kind = kinds.into_iter().find(|kind| {
        let is_this = rest < manner.shares[*kind];
        rest = rest.saturating_sub(manner.shares[*kind]);
        is_this
    });
    match kind.expect("the shares add up") {
        0 => SenderEvent::RequestAd(unit(random, manner)),
        1 => SenderEvent::RequestBd(unit(random, manner)),
        2 => directive(random, manner, sender),
        3 => SenderEvent::Tick,
        4 => lower(random, manner, 1),
        5 => lower(random, manner, 3),
        6 => lower(random, manner, 5),
        7 => SenderEvent::LowerLayer(match random.below(2) {
            0 => *random.pick(&[0, 7, 8, 128, 255]),
            _ => {
                let good = random.between(1, 6) as u32;
                too_wide(random, good)
            }
        }),
        8 => SenderEvent::ControlWord(word(random, manner, sender)),
        _ => set_k(random, sender),
    }
}

/// Set K about K, about the units outstanding, or to any value, mostly a small one.
fn set_k(random: &mut Random, sender: &Sender) -> SenderEvent {
    let about = |random: &mut Random, value: usize| (value + random.below(3)).saturating_sub(1);
    let value = match random.below(16) {
        0 => random.between(1, K_MOST),
        1..=4 => random.between(1, 6),
        5..=9 => about(random, sender.outstanding()),
        _ => about(random, sender.k.into()),
    };
    SenderEvent::Directive {
        number: 8,
        value: value.clamp(1, K_MOST + 1) as u32,
    }
}

fn unit(random: &mut Random, manner: &Manner) -> Vec<u8> {
    let length = match random.below(40) {
        0 => 0,
        1 => UNIT_MOST + *random.pick(&[1, 1, 2, 7, 256]),
        2 if manner.largest > 1 => 1,
        _ if random.once_in(manner.largest) => UNIT_MOST,
        _ => random.between(1, manner.unit_most),
    };
    random.octets(length)
}

/// An accept by its number, or the reject that follows it.
fn lower(random: &mut Random, manner: &Manner, accept: u32) -> SenderEvent {
    match random.once_in(4 * manner.harm) {
        true => SenderEvent::LowerLayer(accept + 1),
        false => SenderEvent::LowerLayer(accept),
    }
}

/// Any directive; Terminate seldom.
fn directive(random: &mut Random, manner: &Manner, sender: &Sender) -> SenderEvent {
    let number = match random.below(12) {
        0 => random.between(0, 16) as u32,
        // Of these some octets are those of a directive.
        1 => random.between(1, 11) as u32 + *random.pick(&[256, 65_536, 1 << 24, 1 << 31]),
        2 => *random.pick(&[0, 12, 255, 256, u32::MAX]),
        3 if sender.state == State::S6 => 7,
        3..=5 if sender.suspended() => 5,
        3..=5 => random.between(1, 4) as u32,
        _ => random.between(6, 11) as u32,
    };
    let number = match number {
        5 if !sender.suspended() => 6,
        _ if random.once_in(manner.harm) => 5,
        _ => number,
    };
    let least_and_most: [u32; 2] = match number {
        8 => [1, 32.max(sender.k.into())],
        9 => [1, *random.pick(&[3, 60, 65_535])],
        10 => [1, *random.pick(&[1, 4, 255])],
        11 => [0, 1],
        _ => [0, 255],
    };
    let value = match random.below(8) {
        0 => *random.pick(&[0, 1, 2, 127, 128, 255, 256, 65_535, 65_536]),
        1 => least_and_most[1] + 1,
        2 => {
            let high = *random.pick(&[65_536, 1 << 24, 1 << 31]);
            high + random.between(1, K_MOST) as u32
        }
        3 if random.once_in(4) => random.number() as u32,
        4 | 5 if [4, 7].contains(&number) => value_of_v_s(random, sender),
        _ => random.between(least_and_most[0] as usize, least_and_most[1] as usize) as u32,
    };
    SenderEvent::Directive { number, value }
}

/// A control word: most of them of this channel, and such as a receiver sends.
fn word(random: &mut Random, manner: &Manner, sender: &Sender) -> Vec<u8> {
    let (beyond, flags) = match random.once_in(manner.harm) {
        true => wild_report(random, sender),
        false => fitting_report(random, sender),
    };
    let report = clcw::Report {
        channel: match random.below(40) {
            0 => random.between(0, 63) as u32,
            1 => sender.channel ^ 1,
            _ => sender.channel,
        },
        lockout: (flags & 4).into(),
        wait: (flags & 2).into(),
        retransmit: (flags & 1).into(),
        counter: random.below(4) as u32,
        value: sender.nn_r.wrapping_add(beyond).into(),
    };
    let mut word = clcw::encode(&report, Fault::None);
    if random.once_in(4) {
        bits::put(&mut word, STATUS_FIELD, random.below(8));
        bits::put(&mut word, NO_RF_AVAILABLE_FLAG, random.below(2));
        bits::put(&mut word, NO_BIT_LOCK_FLAG, random.below(2));
    }
    let mut octets = bits::to_octets(&word);
    match random.below(60) {
        0 => octets.truncate(random.below(4)),
        1 => {
            let behind = random.between(1, 4);
            octets.extend(random.octets(behind));
        }
        _ => (),
    }
    if octets.len() == 4 && random.once_in(2 * manner.harm) {
        match random.below(3) {
            0 => octets = random.octets(4),
            _ => random.flip_a_bit(&mut octets[..3]),
        }
    }
    octets
}

/// N(R) - NN(R) and the flags, whatever they are.
fn wild_report(random: &mut Random, sender: &Sender) -> (u8, u8) {
    let outstanding = sender.unacknowledged();
    let beyond = match random.below(6) {
        0 => 0,
        1 => outstanding,
        2 => outstanding.wrapping_add(1),
        3 => 255,
        4 => random.number() as u8,
        _ => random.below(outstanding as usize + 1) as u8,
    };
    (beyond, random.below(8) as u8)
}

/// N(R) - NN(R) and the flags such that the service goes on, if that can be.
fn fitting_report(random: &mut Random, sender: &Sender) -> (u8, u8) {
    let outstanding = sender.unacknowledged() as usize;
    let resending = matches!(sender.state, State::S2 | State::S3);
    let initialising = matches!(sender.state, State::S4 | State::S5);
    if initialising || outstanding == 0 {
        return (outstanding as u8, 0);
    }
    let some_of = |random: &mut Random, least: usize, most: usize| match random.below(3) {
        0 => least as u8,
        1 => random.between(least, most.min(least + 3)) as u8,
        _ => random.between(least, most) as u8,
    };
    if random.once_in(3) {
        let flags = *random.pick(&[1, 1, 3]);
        return (some_of(random, 0, outstanding - 1), flags);
    }
    let least = if resending { 1 } else { 0 };
    (some_of(random, least, outstanding), 0)
}
