//! The claims about a session beyond document 01: noise changes nothing, a damaged frame is noise
//! and a loss, a frame with fill behind it is answered as the frame alone, and what a denied unit
//! means. That nothing else fails where frames and words stay, fill stands behind frames and the
//! recorder repeats frames is checked by the other claims.

use super::{claim, Before, Checker, Claim};
use crate::farm1;
use crate::fault::Fault;
use crate::fop1::{self, Run};
use crate::frame::FILL_MOST;
use crate::recorder::is_ad;
use crate::refusal::{ADDRESS, LENGTH};
use crate::session::{inverted, Event, Outcome, Received};
use crate::table_7_8::State;

impl Checker {
    fn is_noise(&self, octets: &[u8]) -> bool {
        self.table.refusal_of_frame(octets).is_some()
    }

    /// E9 with no unit, the receiver as it was, and nothing else.
    fn is_e9_alone(&self, before: &Before, outcome: &Outcome) -> Claim {
        let expected = Outcome {
            frame: outcome.frame.clone(),
            receiver: Some(Received {
                event: Ok(farm1::Event::E9),
                state: before.receiver.state,
                accepted: None,
            }),
            ..Outcome::default()
        };
        claim(*outcome == expected, "noise is E9 with no unit")?;
        let same = self.table.receiver == before.receiver && self.table.sender == before.sender;
        claim(same, "noise changes neither end")
    }

    /// Octets that the reader refuses are E9 and change nothing; others are nothing.
    pub(super) fn noise_changes_nothing(
        &mut self,
        before: &Before,
        octets: &[u8],
        outcome: &Outcome,
    ) -> Claim {
        if !self.is_noise(octets) {
            self.met.not_noise += 1;
            return claim(*outcome == Outcome::default(), "a frame is no noise");
        }
        self.met.noise += 1;
        let same = outcome.frame.as_deref() == Some(octets);
        claim(same, "noise comes as it is")?;
        self.is_e9_alone(before, outcome)
    }

    /// A damaged frame that the reader refuses is noise, and then the loss of the frame.
    pub(super) fn damage_is_noise_and_loss(&self, bits: &[usize]) -> Claim {
        let Some(octets) = self.table.frames.front() else {
            return Ok(());
        };
        let octets = inverted(octets, bits);
        if !self.is_noise(&octets) {
            return Ok(());
        }
        let bits = bits.to_vec();
        let (mut damaged, mut lost) = (self.table.clone(), self.table.clone());
        let given = damaged.step(&Event::FrameDamaged { bits }, Fault::None);
        let noise = lost.step(&Event::Noise { octets }, Fault::None);
        lost.step(&Event::FrameLost, Fault::None);
        claim(
            damaged == lost && given == noise,
            "a damaged frame is noise and a loss",
        )
    }

    pub(super) fn damage_changes_nothing(&mut self, before: &Before, outcome: &Outcome) -> Claim {
        let Some(octets) = &outcome.frame else {
            return claim(*outcome == Outcome::default(), "no damaged frame comes");
        };
        self.met.damaged += 1;
        claim(self.is_noise(octets), "a damaged frame is refused")?;
        self.is_e9_alone(before, outcome)
    }

    /// A frame with 0 to 6 octets behind it gives what the frame alone gives, also where it
    /// stays; with more it is nothing.
    pub(super) fn filled_is_the_frame_alone(&mut self, event: &Event, outcome: &Outcome) -> Claim {
        let (fill, without) = match event {
            Event::FrameFilled { fill } => (fill, Event::Frame),
            Event::FrameStays { fill } => (fill, Event::FrameStays { fill: Vec::new() }),
            _ => return Ok(()),
        };
        let Some(sent) = self.table.frames.front() else {
            return claim(*outcome == Outcome::default(), "no filled frame comes");
        };
        if fill.len() > FILL_MOST {
            self.met.too_much_fill += 1;
            return claim(*outcome == Outcome::default(), "too much fill is nothing");
        }
        let octets = [&sent[..], fill].concat();
        match (event, is_ad(sent)) {
            (Event::FrameStays { .. }, true) if !fill.is_empty() => self.met.stays_filled += 1,
            (Event::FrameFilled { .. }, true) => self.met.ad_filled += 1,
            (Event::FrameFilled { .. }, false) => self.met.bd_filled += 1,
            _ => (),
        }
        let (mut filled, mut alone) = (self.table.clone(), self.table.clone());
        filled.step(event, Fault::None);
        let given = alone.step(&without, Fault::None);
        let expected = Outcome {
            frame: given.frame.as_ref().map(|_| octets),
            ..given
        };
        claim(
            filled == alone && *outcome == expected,
            "a filled frame is answered as the frame alone",
        )
    }

    /// A word refused with 7 or 10 changes nothing; others are nothing.
    pub(super) fn word_noise_changes_nothing(
        &mut self,
        before: &Before,
        octets: &[u8],
        outcome: &Outcome,
    ) -> Claim {
        if !self.table.refuses_word(octets) {
            self.met.not_noise += 1;
            return claim(*outcome == Outcome::default(), "a word is no noise");
        }
        self.met.word_noise += 1;
        let answer = outcome.sender.as_ref();
        let answer = answer.ok_or("the sender answers noise")?;
        let refused = [ADDRESS, LENGTH].contains(&answer.refusal);
        claim(refused, "word noise is refused with 7 or 10")?;
        let nothing = answer.state == before.sender.state
            && answer.row == 0
            && answer.alert.is_none()
            && answer.frame.is_none()
            && !answer.abort
            && answer.responses.is_empty()
            && answer.confirmed == Run::default()
            && answer.denied == Run::default();
        claim(nothing, "word noise gives nothing")?;
        let same = self.table.sender == before.sender && self.table.receiver == before.receiver;
        claim(same, "word noise changes neither end")
    }

    /// At most K units are accepted and not confirmed. In S6, not suspended, a denied unit is on
    /// board exactly when its number is one to K before V(R); with no AD frame under way no more
    /// is accepted unless the recorder puts a frame there.
    pub(super) fn what_denied_means(&mut self, outcome: &Outcome) -> Claim {
        let (accepted, k) = (self.accepted.len(), self.settings.k);
        claim(
            accepted <= self.confirmed.len() + k,
            "at most K units are accepted and not confirmed",
        )?;
        if outcome.again.is_some() {
            self.settled = None;
        }
        claim(
            self.settled.is_none_or(|settled| accepted == settled),
            "in S6 with no AD frame under way no more is accepted",
        )?;
        if self.table.sender.state != State::S6 || self.table.sender.suspended() {
            return Ok(());
        }
        let under_way = !self.table.no_ad_frame();
        if !under_way {
            self.settled = Some(accepted);
        }
        for place in &self.denied {
            let on_board = *place < accepted;
            let behind = fop1::distance(self.table.receiver.v_r, self.sent[*place].number);
            claim(
                on_board == (1..=k).contains(&usize::from(behind)),
                "a denied unit is on board when its number is before V(R)",
            )?;
            match (on_board, under_way) {
                (true, false) => self.met.denied_on_board += 1,
                (false, false) => self.met.denied_not_on_board += 1,
                (true, true) => self.met.early_on_board += 1,
                (false, true) => self.met.early_not_on_board += 1,
            }
        }
        Ok(())
    }
}
