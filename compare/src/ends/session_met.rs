//! What random sessions must meet: each kind of event, row and refusal, and the premises of each
//! claim.

use super::{refusal, Counts};
use independent::farm1::Event as FarmEvent;
use independent::fop1::K_MOST;
use independent::frame::FILL_MOST;
use independent::refusal::{
    ADDRESS, CHECK, COMMAND, DONE, FILL, HEADER, LENGTH, RELEASE, ROOM, SHORT,
};
use independent::session::{Event, Outcome, Session};
use independent::session_check::{Checker, Met as Premises};

/// The rows of Table 7-8 that sessions come to often.
const ROWS: [u8; 24] = [
    1, 2, 5, 6, 8, 9, 10, 11, 12, 16, 18, 19, 20, 21, 22, 29, 30, 31, 32, 41, 43, 45, 102, 104,
];

/// How often a comparison of sessions met each of these.
pub struct Met {
    kinds: Counts,
    /// The events beyond document 01, and by kind those of them that are nothing, which are
    /// counted nowhere else.
    beyond: Counts,
    nothing: Counts,
    /// The numbers with which noise is refused.
    noise: Counts,
    word_noise: Counts,
    /// The octets behind the frames that are filled, and behind those that stay.
    fill: Counts,
    stays_fill: Counts,
    refusals: Counts,
    rows: Counts,
    farm: Counts,
    /// How wide the windows are, and how full.
    windows: Counts,
    premises: Counts,
}

/// The numbers of the reader's refusals of noise.
const NOISE: [u8; 6] = [SHORT, FILL, HEADER, ADDRESS, CHECK, COMMAND];

/// One in so many events must be beyond document 01.
const SHARE_BEYOND: u64 = 10;

const ALL_BEYOND: &str = "all";
const LOCKED_OUT: &str = "locked out by a recorder of NW + 1";

/// The events beyond document 01.
const BEYOND: [&str; 7] = [
    "frame stays",
    "word stays",
    "frame again",
    "noise",
    "word noise",
    "frame damaged",
    "frame filled",
];

const WINDOWS: [&str; 3] = [
    "K above 32",
    "over 32 units outstanding",
    "127 units outstanding",
];

const KINDS: [&str; 12] = [
    "AD request",
    "BD request",
    "tick",
    "lower layer",
    "Terminate",
    "Resume",
    "word",
    "frame",
    "release",
    "report",
    "frame lost",
    "word lost",
];

fn fills() -> impl Iterator<Item = String> {
    (0..=FILL_MOST).map(|n| n.to_string())
}

impl Met {
    pub fn new(events: u64) -> Met {
        let of_farm = [
            FarmEvent::E1,
            FarmEvent::E2,
            FarmEvent::E3,
            FarmEvent::E4,
            FarmEvent::E6,
            FarmEvent::E9,
            FarmEvent::E10,
        ];
        let refusals = [DONE, LENGTH, ROOM, RELEASE];
        let kinds = KINDS.iter().chain(&BEYOND);
        let premises = Premises::default().named();
        let premises = premises.iter().map(|premise| premise.0);
        let mut beyond = Counts::new("beyond document 01", [ALL_BEYOND.to_string()].into_iter());
        beyond.least = events / SHARE_BEYOND;
        Met {
            kinds: Counts::new("kinds", kinds.map(|name| name.to_string())),
            beyond,
            nothing: Counts::new("nothing", BEYOND.iter().map(|name| name.to_string())),
            noise: Counts::new("noise", NOISE.into_iter().map(refusal)),
            word_noise: Counts::new("word noise", [ADDRESS, LENGTH].into_iter().map(refusal)),
            fill: Counts::new("octets of fill", fills()),
            stays_fill: Counts::new("octets of fill where a frame stays", fills()),
            refusals: Counts::new("refusals", refusals.into_iter().map(refusal)),
            rows: Counts::new("rows", ROWS.iter().map(|row| format!("E{row}"))),
            farm: Counts::new(
                "events of FARM-1",
                of_farm.iter().map(|event| format!("{event:?}")),
            ),
            windows: Counts::new("windows", WINDOWS.iter().map(|name| name.to_string())),
            premises: Counts::new(
                "premises of claims",
                premises.chain([LOCKED_OUT]).map(str::to_string),
            ),
        }
    }

    /// An event of the session, and what it gave.
    pub fn meet(&mut self, event: &Event, outcome: &Outcome, session: &Session) {
        let kind = match event {
            Event::AdRequest { .. } => "AD request",
            Event::BdRequest { .. } => "BD request",
            Event::Tick { .. } => "tick",
            Event::Lower { .. } => "lower layer",
            Event::Terminate => "Terminate",
            Event::Resume { .. } => "Resume",
            Event::Word { .. } => "word",
            Event::Frame => "frame",
            Event::Release => "release",
            Event::Report => "report",
            Event::FrameLost => "frame lost",
            Event::WordLost => "word lost",
            Event::FrameStays { .. } => "frame stays",
            Event::WordStays { .. } => "word stays",
            Event::FrameAgain { .. } => "frame again",
            Event::Noise { .. } => "noise",
            Event::WordNoise { .. } => "word noise",
            Event::FrameDamaged { .. } => "frame damaged",
            Event::FrameFilled { .. } => "frame filled",
        };
        if BEYOND.contains(&kind) {
            if *outcome == Outcome::default() {
                self.nothing.meet(kind);
                return;
            }
            self.beyond.meet(ALL_BEYOND);
        }
        self.kinds.meet(kind);
        self.meet_window(session);
        if let (Event::WordNoise { .. }, Some(answer)) = (event, &outcome.sender) {
            self.word_noise.meet(&refusal(answer.refusal));
            return;
        }
        if let (Event::Noise { .. }, Some(octets)) = (event, &outcome.frame) {
            let number = session.refusal_of_frame(octets).unwrap_or(DONE);
            self.noise.meet(&refusal(number));
        }
        match event {
            Event::FrameFilled { fill } => self.fill.meet(&fill.len().to_string()),
            Event::FrameStays { fill } => self.stays_fill.meet(&fill.len().to_string()),
            _ => (),
        }
        if let Some(answer) = &outcome.sender {
            self.refusals.meet(&refusal(answer.refusal));
            if answer.row != 0 {
                self.rows.meet(&format!("E{}", answer.row));
            }
        }
        if let Some(received) = &outcome.receiver {
            match received.event {
                Ok(event) => self.farm.meet(&format!("{event:?}")),
                Err(number) => self.refusals.meet(&refusal(number)),
            }
        }
    }

    fn meet_window(&mut self, session: &Session) {
        let (k, outstanding) = (session.sender.k, session.sender.outstanding());
        if k > 32 {
            self.windows.meet("K above 32");
        }
        match outstanding {
            0..=32 => (),
            K_MOST => self.windows.meet("127 units outstanding"),
            _ => self.windows.meet("over 32 units outstanding"),
        }
    }

    /// What a session's claims met.
    pub fn meet_premises(&mut self, checker: &Checker) {
        for (name, count) in checker.met.named() {
            self.premises.meet_often(name, count as u64);
        }
    }

    /// The claims failed where the recorder reaches too far.
    pub fn meet_lockout(&mut self) {
        self.premises.meet(LOCKED_OUT);
    }

    pub fn counts(self) -> Vec<Counts> {
        vec![
            self.kinds,
            self.beyond,
            self.nothing,
            self.noise,
            self.word_noise,
            self.fill,
            self.stays_fill,
            self.refusals,
            self.rows,
            self.farm,
            self.windows,
            self.premises,
        ]
    }
}
