use std::collections::VecDeque;

use pondreszi::frame::Kind;
use pondreszi::{clcw, cltu, Answer, Directive, Receiver, Response, Sender, SenderEvent};
use pondreszi::{LowerLayer, SenderState, Unit};
use pondreszi::{CLCW_OCTETS, LARGEST_FRAME, LARGEST_K, LARGEST_TRANSMISSION_LIMIT};

use super::counts::{Counts, Report};
use super::random::Random;
use super::settings::{outside, Settings};
use crate::ending::Ending;

/// What a frame takes on the radio at the most, in passes.
const FRAME_PASSES: u64 = 4;

/// Where a frame has its Frame Sequence Number.
const NUMBER: usize = 4;

/// How long the application keeps its buffers at the most, in passes.
const BUSY_PASSES: u64 = 60;

/// A frame handed down and not yet sent.
struct UnderWay {
    kind: Kind,
    octets: Vec<u8>,
}

/// Both ends, and the radio between them.
pub struct Ends {
    settings: Settings,
    random: Random,
    counts: Counts,
    sender: Sender,
    receiver: Receiver,
    /// Transmission_Limit as it is now.
    limit: u8,
    /// The oldest first; at most one of type AD and one of type BC.
    under_way: VecDeque<UnderWay>,
    /// The passes that the radio is still taken.
    radio_passes: u64,
    busy_passes: u64,
    units: Vec<Vec<u8>>,
    /// The units accepted on board, in the order of acceptance.
    on_board: Vec<Vec<u8>>,
    /// The oldest unit not known to be on board, its number, and the next unit to be offered.
    oldest: usize,
    oldest_number: u8,
    next: usize,
    /// The units that were sent at least once.
    sent: usize,
    alerted: bool,
    suspended: bool,
}

impl Ends {
    pub fn new(settings: Settings) -> Result<Ends, Ending> {
        let units = (0..settings.units).map(certificate).collect();
        let mut ends = Ends {
            random: Random::new(settings.seed),
            counts: Counts::default(),
            sender: Sender::new(settings.sender).map_err(outside)?,
            receiver: Receiver::new(settings.receiver).map_err(outside)?,
            limit: settings.sender.transmission_limit,
            under_way: VecDeque::new(),
            radio_passes: 0,
            busy_passes: 0,
            units,
            on_board: Vec::new(),
            oldest: 0,
            oldest_number: settings.sender.vs,
            next: 0,
            sent: 0,
            alerted: false,
            suspended: false,
            settings,
        };
        ends.direct(Directive::InitiateWithoutCheck)?;
        Ok(ends)
    }

    pub fn are_done(&self) -> bool {
        self.oldest == self.units.len()
    }

    pub fn units(&self) -> usize {
        self.units.len()
    }

    pub fn progress(&self) -> String {
        format!(
            "{} of {} units confirmed, {} AD frames, {}",
            self.oldest,
            self.units.len(),
            self.counts.ad_frames,
            self.sender.state()
        )
    }

    pub fn report(&self) -> Report<'_> {
        Report {
            settings: &self.settings,
            counts: &self.counts,
            receiver: &self.receiver,
            limit: self.limit,
            sent: self.sent,
            on_board: self.on_board.len(),
            in_order: self.units.starts_with(&self.on_board),
        }
    }

    /// The time of one pass: the application on board, a unit offered, a frame sent, a control
    /// word; where nothing of it moved the sender, a tick.
    pub fn pass(&mut self) -> Result<(), Ending> {
        self.release_buffers()?;
        let mut moved = false;
        if self.takes_unit() && self.next < self.units.len() {
            moved = self.offer()?;
        }
        moved |= self.radio()?;
        if self.random.below(4) == 0 {
            moved |= self.carry_down()?;
        }
        if !moved {
            self.let_time_pass()?;
        }
        if self.suspended {
            self.suspended = false;
            self.resume()?;
        }
        if self.alerted {
            self.alerted = false;
            self.recover()?;
        }
        Ok(())
    }

    /// On board: the application gives buffers back at once, but is busy now and then, so that the
    /// receiver has to wait.
    fn release_buffers(&mut self) -> Result<(), Ending> {
        if self.busy_passes > 0 {
            self.busy_passes -= 1;
            return Ok(());
        }
        while self.receiver.buffers_taken() > 0 {
            self.receiver.release()?;
        }
        if self.random.percent(self.settings.busy) {
            self.busy_passes = self.random.below(BUSY_PASSES);
        }
        Ok(())
    }

    /// The AD service is initiated, and no unit waits.
    fn takes_unit(&self) -> bool {
        let state = self.sender.state();
        let initiated = [
            SenderState::Active,
            SenderState::RetransmitWithoutWait,
            SenderState::RetransmitWithWait,
        ];
        initiated.contains(&state) && !self.sender.waiting()
    }

    fn offer(&mut self) -> Result<bool, Ending> {
        let unit = self.units[self.next].clone();
        self.event(SenderEvent::RequestAd(&unit))
    }

    fn direct(&mut self, directive: Directive) -> Result<bool, Ending> {
        self.event(SenderEvent::Directive(directive))
    }

    /// An event of the sender; whether it moved anything.
    fn event(&mut self, event: SenderEvent) -> Result<bool, Ending> {
        let before = self.sender.state();
        let mut output = [0; LARGEST_FRAME];
        let answer = self.sender.event_into(event, &mut output)?;
        self.note(&answer)?;
        let moved = answer.frame.is_some()
            || answer.state != before
            || !answer.responses.is_empty()
            || answer.confirmed.count > 0;
        if let Some(frame) = answer.frame {
            self.under_way.push_back(UnderWay {
                kind: frame.kind,
                octets: frame.octets.to_vec(),
            });
        }
        Ok(moved)
    }

    /// What the answer says of units, and of the service.
    fn note(&mut self, answer: &Answer<&[u8]>) -> Result<(), Ending> {
        for response in &answer.responses {
            match response {
                Response::AcceptAd => self.next += 1,
                Response::RejectDirective => {
                    return Err(Ending::refused(format!("{response}.")));
                }
                _ => {}
            }
        }
        if answer.confirmed.count > 0 {
            let count = usize::from(answer.confirmed.count);
            if answer.confirmed.first != self.oldest_number || count > self.next - self.oldest {
                return Err(out_of_step());
            }
            self.counts.confirmed += count;
            self.advance(answer.confirmed.count);
        }
        if let Some(alert) = answer.alert {
            self.counts.add_alert(alert);
            self.alerted = true;
        }
        self.suspended |= answer.suspended;
        Ok(())
    }

    fn advance(&mut self, count: u8) {
        self.oldest += usize::from(count);
        self.oldest_number = self.oldest_number.wrapping_add(count);
    }

    /// The radio has the time of one pass; whether it sent a frame.
    fn radio(&mut self) -> Result<bool, Ending> {
        if self.under_way.is_empty() {
            return Ok(false);
        }
        if self.radio_passes > 0 {
            self.radio_passes -= 1;
            return Ok(false);
        }
        self.radio_passes = self.random.below(FRAME_PASSES);
        self.send_oldest()?;
        Ok(true)
    }

    /// The radio sends the oldest frame, and accepts it, which may hand down the next. It is sent
    /// even where the sender asked for an abort: the receiver tells by its number whether it
    /// still wants it.
    fn send_oldest(&mut self) -> Result<(), Ending> {
        let Some(frame) = self.under_way.pop_front() else {
            return Ok(());
        };
        if frame.kind == Kind::Ad {
            self.count_ad_frame(&frame.octets);
        } else {
            self.counts.bc_frames += 1;
        }
        self.carry_up(&frame)?;
        self.event(SenderEvent::LowerLayer(frame.kind.accept()))?;
        Ok(())
    }

    /// A frame's number tells its unit, since at most 127 are outstanding; one that is confirmed by
    /// now lies behind the oldest.
    fn count_ad_frame(&mut self, octets: &[u8]) {
        self.counts.ad_frames += 1;
        let ahead = octets[NUMBER].wrapping_sub(self.oldest_number);
        let unit = self.oldest + usize::from(ahead);
        if ahead <= LARGEST_K && unit >= self.sent {
            self.sent = unit + 1;
        } else {
            self.counts.sent_again += 1;
        }
    }

    /// The radio: a frame goes up in a CLTU, which may be lost, damaged, or arrive again.
    fn carry_up(&mut self, frame: &UnderWay) -> Result<(), Ending> {
        if self.random.percent(self.settings.frame_loss) {
            self.counts.lost_frames += 1;
            return Ok(());
        }
        self.arrive(&frame.octets)?;
        while frame.kind == Kind::Ad && self.random.percent(self.settings.repeats) {
            self.counts.repeated_frames += 1;
            self.arrive(&frame.octets)?;
        }
        Ok(())
    }

    fn arrive(&mut self, frame: &[u8]) -> Result<(), Ending> {
        let mut octets = cltu::write(frame)?;
        self.add_noise(&mut octets);
        let Ok(decoded) = cltu::read(&octets, self.settings.mode) else {
            self.counts.refused_frames += 1;
            return Ok(());
        };
        self.counts.corrected += decoded.corrected;
        match self.receiver.frame(&decoded.octets) {
            Err(_) => self.counts.refused_frames += 1,
            Ok(received) => {
                if let Some(Unit::Ad(unit)) = received.unit {
                    self.on_board.push(unit.to_vec());
                }
            }
        }
        Ok(())
    }

    fn add_noise(&mut self, octets: &mut [u8]) {
        if self.settings.noise == 0 {
            return;
        }
        for octet in octets {
            for bit in 0..8 {
                if self.random.below(1_000_000) < self.settings.noise {
                    *octet ^= 1 << bit;
                }
            }
        }
    }

    /// The receiver's control word comes down, or is lost; whether it moved the sender.
    fn carry_down(&mut self) -> Result<bool, Ending> {
        let Some(word) = self.word() else {
            return Ok(false);
        };
        let mut moved = self.event(SenderEvent::ControlWord(&word))?;
        while self.random.percent(self.settings.repeats) {
            self.counts.repeated_words += 1;
            moved |= self.event(SenderEvent::ControlWord(&word))?;
        }
        Ok(moved)
    }

    fn word(&mut self) -> Option<[u8; CLCW_OCTETS]> {
        self.counts.words += 1;
        if self.random.percent(self.settings.word_loss) {
            self.counts.lost_words += 1;
            return None;
        }
        Some(self.receiver.word())
    }

    /// Where nothing moves: the remedies of docs/OPERATIONS.md, "Two traps of the standard",
    /// otherwise a tick.
    fn let_time_pass(&mut self) -> Result<bool, Ending> {
        let state = self.sender.state();
        if state == SenderState::RetransmitWithoutWait
            && self.sender.marked() > 0
            && self.under_way.is_empty()
        {
            return self.event(SenderEvent::LowerLayer(LowerLayer::AdAccept));
        }
        if state == SenderState::Active
            && self.sender.sent() > 0
            && self.sender.timer().is_none()
            && self.under_way.is_empty()
        {
            // A further unit would start the timer. None is left, so the service begins anew.
            return self.direct(Directive::Terminate);
        }
        self.event(SenderEvent::Tick)
    }

    /// docs/OPERATIONS.md, "The trap at the limit": Resume alone would suspend again, so the limit
    /// is raised before it. Where it cannot be, the service is ended and begun anew. While a
    /// control word is awaited (S4) every expiry suspends, whatever the limit.
    fn resume(&mut self) -> Result<(), Ending> {
        self.counts.suspensions += 1;
        let awaits_word = self.sender.suspended() == Some(SenderState::InitialisingWithoutBc);
        let at_most = self.limit == LARGEST_TRANSMISSION_LIMIT;
        if !awaits_word && !at_most {
            let more = self.settings.sender.transmission_limit;
            self.limit = self.limit.saturating_add(more);
            self.direct(Directive::SetTransmissionLimit(self.limit))?;
        }
        self.direct(Directive::Resume)?;
        if !awaits_word && at_most {
            self.direct(Directive::Terminate)?;
        }
        Ok(())
    }

    /// docs/OPERATIONS.md, "Before the service begins again" and "After an alert". Once no frame is
    /// under way, a control word that is made then tells V(R): the units numbered before it are
    /// on board, the others are not and go again. Flags would end the CLCW check with an alert,
    /// so Unlock takes them down.
    fn recover(&mut self) -> Result<(), Ending> {
        while !self.under_way.is_empty() {
            self.send_oldest()?;
        }
        let octets = loop {
            if let Some(octets) = self.word() {
                break octets;
            }
        };
        let word = clcw::read(&octets, self.settings.receiver.channel)?;
        let word = word.ok_or_else(out_of_step)?.word;
        let on_board = word.report.wrapping_sub(self.oldest_number);
        if usize::from(on_board) > self.next - self.oldest {
            return Err(out_of_step());
        }
        self.counts.confirmed_by_report += usize::from(on_board);
        self.advance(on_board);
        self.next = self.oldest;
        self.direct(Directive::SetVs(word.report))?;
        if word.lockout || word.wait || word.retransmit {
            self.direct(Directive::InitiateWithUnlock)?;
        } else {
            self.direct(Directive::InitiateWithClcwCheck)?;
        }
        Ok(())
    }
}

/// Only wrong bits that no check saw lead here.
fn out_of_step() -> Ending {
    Ending::refused("the receiver reports a number that was not sent; see the noise.".to_owned())
}

fn certificate(number: usize) -> Vec<u8> {
    format!("CERT {number:06} expires 2027-03-{:02}", number % 31 + 1).into_bytes()
}
