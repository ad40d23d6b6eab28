//! A pass: from rest, six events for each unit accept and confirm it and end at rest again.

use crate::fop1;
use crate::session::{Event, Session};
use crate::session_check::{claim, Checker, Claim};
use crate::session_random::ROOM_MOST;

/// The events for each unit.
const EVENTS: usize = 6;

/// The events of a pass are made one after the other.
pub struct Pass {
    units: Vec<Vec<u8>>,
    /// The events made.
    made: usize,
    /// The counts of units accepted and confirmed before it.
    accepted: usize,
    confirmed: usize,
}

impl Pass {
    /// With legal units, one or more, from rest.
    pub fn new(units: Vec<Vec<u8>>, checker: &Checker) -> Pass {
        Pass {
            units,
            made: 0,
            accepted: checker.accepted.len(),
            confirmed: checker.confirmed.len(),
        }
    }

    /// The next event, the room lent in full.
    pub fn event(&self) -> Event {
        let room = ROOM_MOST;
        let unit = &self.units[self.made / EVENTS];
        match self.made % EVENTS {
            0 => Event::AdRequest {
                unit: unit.clone(),
                room,
            },
            1 => Event::Lower {
                response: fop1::Event::AdAccept,
                room,
            },
            2 => Event::Frame,
            3 => Event::Release,
            4 => Event::Report,
            _ => Event::Word { room },
        }
    }

    /// The event is made. After the sixth the unit is accepted and confirmed, and all is at
    /// rest.
    pub fn check(&mut self, session: &Session, checker: &mut Checker) -> Claim {
        self.made += 1;
        if self.made % EVENTS != 0 {
            return Ok(());
        }
        let done = self.made / EVENTS;
        let unit = &self.units[done - 1];
        let accepted = checker.accepted.last();
        let confirmed = checker.confirmed.last();
        claim(
            checker.accepted.len() == self.accepted + done
                && accepted.is_some_and(|last| last.octets == *unit),
            "a pass accepts its unit",
        )?;
        claim(
            checker.confirmed.len() == self.confirmed + done
                && confirmed.is_some_and(|last| last.octets == *unit),
            "a pass confirms its unit",
        )?;
        claim(session.at_rest(), "a pass ends at rest")?;
        checker.met.passed_units += 1;
        Ok(())
    }

    pub fn ended(&self) -> bool {
        self.made == EVENTS * self.units.len()
    }
}
