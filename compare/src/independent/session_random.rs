//! Random sessions with passes where they are at rest, and random events of a sender alone.
//! Each draw gives a number below its limit.

use crate::bits;
use crate::clcw;
use crate::fault::Fault;
use crate::fop1::{self, Sender, UNIT_MOST};
use crate::frame::FRAME_MOST;
use crate::session::{Event, Session, Settings};
use crate::session_check::{Checker, Claim};
use crate::session_noise::{damage, fill, noise, word_noise};
use crate::session_pass::Pass;
use crate::table_7_8::State;

pub type Draw<'a> = &'a mut dyn FnMut(usize) -> usize;

/// Room for any frame.
pub const ROOM_MOST: usize = FRAME_MOST;

/// A window is wide from here on.
const WIDE: usize = 32;

/// A timer of so few ticks expires soon.
const SOON: usize = 8;

/// Most of the long units have so many octets at the most.
const LONG: usize = 250;

/// The events left where a session is terminated.
const LEFT_AT_TERMINATE: usize = 60;

/// The kinds of events, in the order of `drawn`; from the second number on those beyond
/// document 01.
const KINDS: usize = 23;
const BEYOND: usize = 16;

/// What a session is like.
struct Manner {
    /// The shares of its events, in the order of `drawn`.
    shares: [usize; KINDS],
    /// While suspended, Resume comes once in so many events besides.
    resume: usize,
    /// Rejects of the lower layer may come while suspended: nothing is claimed of that.
    rejects_while_suspended: bool,
    /// With so many frames or words under way, the oldest arrives before the next enters.
    under_way: usize,
}

/// The events of a session: random ones, and passes where it is at rest.
pub struct Course {
    manner: Manner,
    pass: Option<Pass>,
}

impl Course {
    pub fn new(draw: Draw, settings: &Settings) -> Course {
        Course {
            manner: manner(draw, settings),
            pass: None,
        }
    }

    /// The next event, with so many left. Some sessions are terminated before their end.
    pub fn next(&mut self, draw: Draw, left: usize, session: &Session, checker: &Checker) -> Event {
        if left == LEFT_AT_TERMINATE && draw(2) == 0 {
            self.pass = None;
            return Event::Terminate;
        }
        let at_rest = session.at_rest() && !checker.premise_broken;
        if self.pass.is_none() && at_rest && draw(3) == 0 {
            self.pass = Some(Pass::new(legal_units(draw), checker));
        }
        match &self.pass {
            Some(pass) => pass.event(),
            None => event(draw, &self.manner, session),
        }
    }

    /// What a pass claims after an event of it, which the checker has seen.
    pub fn check(&mut self, session: &Session, checker: &mut Checker) -> Claim {
        let Some(pass) = &mut self.pass else {
            return Ok(());
        };
        pass.check(session, checker)?;
        if pass.ended() {
            checker.met.passes += 1;
            self.pass = None;
        }
        Ok(())
    }
}

pub fn between(draw: Draw, least: usize, most: usize) -> usize {
    least + draw(most - least + 1)
}

/// Settings within their limits, K at most PW.
pub fn settings(draw: Draw) -> Settings {
    let half_window = match draw(12) {
        0 => fop1::K_MOST,
        1..=4 => between(draw, 1, 4),
        5..=8 => between(draw, 1, 32),
        _ => between(draw, 1, 127),
    };
    let k_most = half_window.min(fop1::K_MOST);
    let k = match draw(3) {
        _ if half_window == fop1::K_MOST => k_most,
        0 => k_most,
        1 => between(draw, 1, k_most.min(4)),
        _ => between(draw, 1, k_most),
    };
    let timeout_type = (draw(3) > 0) as usize;
    // Many suspend soon and often, few of those with a wide window, which is to be full.
    let soon = timeout_type == 1 && draw(if k > WIDE { 8 } else { 2 }) == 0;
    Settings {
        spacecraft: draw(1024),
        channel: draw(64),
        number: draw(256),
        k,
        t1_initial: match draw(4) {
            _ if soon => between(draw, 1, SOON),
            0 => 1,
            1 => between(draw, 1, 5),
            2 => between(draw, 1, 40),
            _ => between(draw, 1, 65_535),
        },
        transmission_limit: match draw(8) {
            _ if soon => between(draw, 1, 3),
            0 => 1,
            1 | 2 => between(draw, 2, 4),
            _ => between(draw, 1, 255),
        },
        timeout_type,
        window: 2 * half_window,
        buffers: between(draw, 1, 8),
    }
}

/// How busy a session with those settings is, how lossy, how soon it ends.
fn manner(draw: Draw, settings: &Settings) -> Manner {
    let mut shares = [0; KINDS];
    let most = [
        2000, 300, 800, 2500, 50, 300, 1, 1, 1, 1, 2000, 2500, 2000, 2000, 400, 50, 2000, 2000,
        2000, 2000, 1500, 800, 1500,
    ];
    for (share, most) in shares.iter_mut().zip(most) {
        *share = match draw(4) {
            0 => most,
            1 => most / 4,
            _ => draw(most + 1),
        };
    }
    // The events without which nothing moves.
    for moving in [0, 3, 10, 11, 12, 13] {
        shares[moving] = shares[moving].max(100);
    }
    if draw(8) == 0 {
        shares[BEYOND..].fill(0);
    }
    // Units come faster than they are taken, so that a wide window is full.
    if settings.k > WIDE && draw(3) > 0 {
        shares = shares.map(|share| share / 40 + 1);
        (shares[0], shares[3]) = (2000, 2500);
    }
    if settings.k <= WIDE && settings.timeout_type == 1 && settings.t1_initial <= SOON {
        shares[2] = shares[2].max(1000);
    }
    let under_way = match draw(3) {
        0 => usize::MAX,
        1 => between(draw, 1, 40),
        _ => between(draw, 1, 4),
    };
    Manner {
        shares,
        resume: [4, 20, 100, 400][draw(4)],
        rejects_while_suspended: draw(4) == 0,
        under_way,
    }
}

fn unit(draw: Draw) -> Vec<u8> {
    let length = match draw(40) {
        0 => 0,
        1 => between(draw, UNIT_MOST + 1, UNIT_MOST + 10),
        2 if draw(4) == 0 => UNIT_MOST,
        3 if draw(4) == 0 => between(draw, 1, UNIT_MOST),
        2..=4 => between(draw, 1, LONG),
        _ => between(draw, 1, 6),
    };
    (0..length).map(|_| draw(256) as u8).collect()
}

/// The units of a pass: few, or so many that the numbers come round.
fn legal_units(draw: Draw) -> Vec<Vec<u8>> {
    let count = match draw(400) {
        0 => between(draw, 250, 300),
        _ => between(draw, 1, 6),
    };
    let mut units = Vec::new();
    for _ in 0..count {
        let length = match draw(8) {
            0 if draw(4) == 0 => UNIT_MOST,
            1 if draw(4) == 0 => between(draw, 1, UNIT_MOST),
            0 | 1 => between(draw, 1, LONG),
            _ => between(draw, 1, 6),
        };
        units.push((0..length).map(|_| draw(256) as u8).collect());
    }
    units
}

fn room(draw: Draw) -> usize {
    match draw(20) {
        0 => draw(16),
        1 => draw(ROOM_MOST + 1),
        _ => ROOM_MOST,
    }
}

/// Directive 6 with a value, which is not looked at.
fn resume(draw: Draw) -> Event {
    Event::Resume {
        value: [0, 1, 255, 256, 65_536, 1 << 31][draw(6)],
    }
}

/// A reject of the lower layer.
fn reject(draw: Draw) -> Event {
    let rejects = [
        fop1::Event::AdReject,
        fop1::Event::BcReject,
        fop1::Event::BdReject,
    ];
    Event::Lower {
        response: rejects[draw(3)].clone(),
        room: room(draw),
    }
}

/// The next random event of a session.
fn event(draw: Draw, manner: &Manner, session: &Session) -> Event {
    if session.sender.suspended() {
        match draw(40) {
            0 => return Event::Terminate,
            1..=3 if manner.rejects_while_suspended => return reject(draw),
            _ if draw(manner.resume) == 0 => return resume(draw),
            _ => (),
        }
    }
    let event = drawn(draw, &manner.shares, session);
    match event {
        Event::Lower { ref response, .. }
            if response.is_reject()
                && session.sender.suspended()
                && !manner.rejects_while_suspended =>
        {
            resume(draw)
        }
        Event::Report if session.words.len() >= manner.under_way => Event::Word { room: ROOM_MOST },
        Event::Lower { .. } | Event::FrameAgain { .. }
            if session.frames.len() >= manner.under_way =>
        {
            Event::Frame
        }
        _ => event,
    }
}

/// The place of a unit for the recorder: most often one of the last NW, the oldest of them
/// too; or the one before them, or one that is not sent.
fn place(draw: Draw, session: &Session) -> usize {
    let (sent, reach) = (session.recorder.sent, session.recorder.reach);
    match draw(16) {
        0 => sent + draw(3),
        1 => sent.saturating_sub(reach + 1),
        2 => draw(sent + 1),
        3..=6 => sent.saturating_sub(reach),
        _ => sent.saturating_sub(between(draw, 1, reach)),
    }
}

fn drawn(draw: Draw, shares: &[usize; KINDS], session: &Session) -> Event {
    let mut rest = draw(shares.iter().sum());
    let mut kind = 0;
    while rest >= shares[kind] {
        rest -= shares[kind];
        kind += 1;
    }
    let lower = |response, room| Event::Lower { response, room };
    match kind {
        0 => Event::AdRequest {
            unit: unit(draw),
            room: room(draw),
        },
        1 => Event::BdRequest {
            unit: unit(draw),
            room: room(draw),
        },
        2 => Event::Tick { room: room(draw) },
        3 => lower(fop1::Event::AdAccept, room(draw)),
        4 => lower(fop1::Event::BcAccept, room(draw)),
        5 => lower(fop1::Event::BdAccept, room(draw)),
        6 => lower(fop1::Event::AdReject, room(draw)),
        7 => lower(fop1::Event::BcReject, room(draw)),
        8 => lower(fop1::Event::BdReject, room(draw)),
        9 => Event::Terminate,
        10 => Event::Word { room: room(draw) },
        11 => Event::Frame,
        12 => Event::Release,
        13 => Event::Report,
        14 if draw(2) == 0 => Event::FrameLost,
        14 => Event::WordLost,
        15 => resume(draw),
        BEYOND => Event::FrameStays {
            fill: match draw(2) {
                0 => Vec::new(),
                _ => fill(draw),
            },
        },
        17 => Event::WordStays { room: room(draw) },
        18 => Event::FrameAgain {
            place: place(draw, session),
        },
        19 => Event::Noise {
            octets: noise(draw, session),
        },
        20 => Event::WordNoise {
            octets: word_noise(draw, session),
            room: room(draw),
        },
        21 => Event::FrameDamaged {
            bits: match session.frames.front() {
                Some(octets) => damage(draw, octets.len()),
                None => Vec::new(),
            },
        },
        _ => Event::FrameFilled { fill: fill(draw) },
    }
}

/// The next event of a sender alone, with its room: any directive, any word.
pub fn sender_event(draw: Draw, sender: &Sender) -> (fop1::Event, usize) {
    let event = match draw(32) {
        0..=7 => fop1::Event::AdRequest(unit(draw)),
        8 | 9 => fop1::Event::BdRequest(unit(draw)),
        10..=13 => directive(draw, sender),
        14..=20 => fop1::Event::ControlWord(word(draw, sender)),
        21..=23 => fop1::Event::Tick,
        24..=28 => fop1::Event::AdAccept,
        29 => fop1::Event::BcAccept,
        30 => fop1::Event::BdAccept,
        _ => match draw(if sender.suspended() { 6 } else { 60 }) {
            0 => fop1::Event::AdReject,
            1 => fop1::Event::BcReject,
            2 => fop1::Event::BdReject,
            _ => fop1::Event::AdAccept,
        },
    };
    (event, room(draw))
}

fn directive(draw: Draw, sender: &Sender) -> fop1::Event {
    let number = match draw(10) {
        0 => draw(20),
        1 => usize::MAX - draw(3),
        2 => between(draw, 5, 11),
        3..=8 if sender.suspended() => 6,
        _ if sender.state == State::S6 => between(draw, 1, 4),
        3 if draw(4) == 0 => 5,
        3 | 4 => between(draw, 1, 4),
        _ => between(draw, 6, 11),
    };
    let value = match draw(8) {
        0 => draw(70_000),
        1 => draw(2),
        2 => usize::MAX - draw(2),
        3 => [1, 127, 128, 255, 256, 65_535, 65_536][draw(7)],
        4 => draw(256),
        _ => between(draw, 1, 8),
    };
    fop1::Event::Directive { number, value }
}

/// A control word: most of them good, with N(R) about the window.
fn word(draw: Draw, sender: &Sender) -> Vec<u8> {
    let beyond = match draw(8) {
        0 if draw(4) == 0 => draw(256) as u8,
        0..=2 => 0,
        3 | 4 => sender.unacknowledged(),
        _ => draw(sender.unacknowledged() as usize + 1) as u8,
    };
    let flags = match draw(12) {
        0 if draw(4) == 0 => draw(8) as u32,
        0..=2 => 3,
        3..=5 => 1,
        _ => 0,
    };
    let report = clcw::Report {
        channel: match draw(24) {
            0 => draw(64) as u32,
            _ => sender.channel,
        },
        lockout: flags & 4,
        wait: flags & 2,
        retransmit: flags & 1,
        counter: draw(4) as u32,
        value: sender.nn_r.wrapping_add(beyond).into(),
    };
    let mut word = bits::to_octets(&clcw::encode(&report, Fault::None));
    match draw(48) {
        0 => word.truncate(draw(4)),
        1 => word.push(0),
        2 => word[draw(4)] ^= 1 << draw(8),
        3 => word = (0..4).map(|_| draw(256) as u8).collect(),
        _ => (),
    }
    word
}
