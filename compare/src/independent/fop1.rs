//! FOP-1 (clauses 7.2.2 and 7.9.2, Table 7-8), by the rules of document 01, with document
//! 02's orders 7 and 9.

use crate::clcw;
use crate::fault::Fault;
use crate::frame::{self, Content};
use crate::refusal::{DONE, LENGTH, ROOM, SETTING};
use crate::table_7_8::{self, Action, Cell, Reason, State, STATES};

pub use crate::frame::UNIT_MOST;

/// Document 01, Limits.
const SPACECRAFT_MOST: usize = 1023;
const CHANNEL_MOST: usize = 63;
const NUMBER_MOST: usize = 255;
const K_LEAST: usize = 1;
const TIMER_LEAST: usize = 1;
const TIMER_MOST: usize = 65_535;
const LIMIT_LEAST: usize = 1;
const LIMIT_MOST: usize = 255;

/// "and K to 127" (document 02, order 7).
pub const K_MOST: usize = 127;

/// The rows of Set K and of Terminate.
const SET_K: u8 = 36;
const TERMINATE: u8 = 29;

/// The lent store: "units for K, or for all outstanding if more, and one waiting" (document 02,
/// order 7), each of the largest length.
pub fn store(k: usize, outstanding: usize) -> usize {
    (k.max(outstanding) + 1) * UNIT_MOST
}

/// The longest store that any sender needs.
pub const STORE: usize = (K_MOST + 1) * UNIT_MOST;

/// "Setting 1 is no longer refusal 12; 2 and above still are." (document 02, order 9)
pub const TIMEOUT_TYPE_MOST: usize = 1;

/// The greatest Suspend_State (clause 7.2.2): S5 is never suspended.
pub const SUSPEND_STATE_MOST: u8 = 4;

/// What is given at the start.
#[derive(Clone, Copy, PartialEq, Eq, Debug)]
pub struct Settings {
    pub spacecraft: usize,
    pub channel: usize,
    pub v_s: usize,
    pub nn_r: usize,
    /// FOP_Sliding_Window_Width.
    pub k: usize,
    pub t1_initial: usize,
    pub transmission_limit: usize,
    pub timeout_type: usize,
}

/// What comes to the sender.
#[derive(Clone, PartialEq, Eq, Debug)]
pub enum Event {
    AdRequest(Vec<u8>),
    BdRequest(Vec<u8>),
    Directive { number: usize, value: usize },
    ControlWord(Vec<u8>),
    Tick,
    AdAccept,
    AdReject,
    BcAccept,
    BcReject,
    BdAccept,
    BdReject,
}

impl Event {
    /// A reject of the lower layer, of whichever type.
    pub fn is_reject(&self) -> bool {
        matches!(self, Event::AdReject | Event::BcReject | Event::BdReject)
    }
}

/// The responses to directives, AD units and BD units but the confirms of AD units,
/// which are the runs.
#[derive(Clone, Copy, PartialEq, Eq, Debug)]
pub enum Response {
    DirectiveAccept,
    DirectiveReject,
    DirectivePositiveConfirm,
    DirectiveNegativeConfirm,
    AdAccept,
    AdReject,
    BdAccept,
    BdReject,
}

/// Units by their first number and their count, 0 and 0 where there is none.
#[derive(Clone, Copy, PartialEq, Eq, Debug, Default)]
pub struct Run {
    pub first: u8,
    pub count: u8,
}

/// The answer to an event (document 01, FOP-1).
#[derive(Clone, PartialEq, Eq, Debug)]
pub struct Answer {
    /// The number of document 01, Refusals.
    pub refusal: u8,
    /// The Event Number of Table 7-8, 0 where the event is none of them.
    pub row: u8,
    pub state: State,
    /// The frame handed down, and its kind.
    pub frame: Option<Vec<u8>>,
    pub kind: u8,
    pub abort: bool,
    pub responses: Vec<Response>,
    pub alert: Option<Reason>,
    /// A Suspend notification (clause 7.4.2.6).
    pub suspend: bool,
    pub confirmed: Run,
    pub denied: Run,
}

impl Answer {
    /// Nothing but the state.
    fn of_state(state: State) -> Answer {
        Answer {
            refusal: DONE,
            row: 0,
            state,
            frame: None,
            kind: frame::NONE,
            abort: false,
            responses: Vec::new(),
            alert: None,
            suspend: false,
            confirmed: Run::default(),
            denied: Run::default(),
        }
    }

    fn refused(refusal: u8, state: State) -> Answer {
        Answer {
            refusal,
            ..Answer::of_state(state)
        }
    }
}

/// A frame on the Sent_Queue, which is AD, Unlock or Set V(R).
#[derive(Clone, PartialEq, Eq, Debug)]
pub struct SentFrame {
    pub content: Content,
    pub to_be_retransmitted: bool,
}

impl SentFrame {
    pub fn number(&self) -> Option<u8> {
        match self.content {
            Content::Ad { number, .. } => Some(number as u8),
            _ => None,
        }
    }
}

/// The variables (clause 7.2.2) and the own address.
#[derive(Clone, PartialEq, Eq, Debug)]
pub struct Sender {
    pub spacecraft: u32,
    pub channel: u32,
    pub state: State,
    pub v_s: u8,
    pub wait_queue: Option<Vec<u8>>,
    /// The oldest frame first.
    pub sent_queue: Vec<SentFrame>,
    pub ad_out_ready: bool,
    pub bc_out_ready: bool,
    pub bd_out_ready: bool,
    pub nn_r: u8,
    pub t1_initial: u16,
    /// The ticks left, 0 where the timer is stopped.
    pub timer: u16,
    pub transmission_limit: u8,
    pub timeout_type: u8,
    pub transmission_count: u8,
    pub k: u8,
    pub suspend_state: u8,
}

/// An event of Table 7-8 with what its actions use.
#[derive(Clone, PartialEq, Eq, Debug, Default)]
pub struct Occurrence {
    /// The Event Number.
    pub row: u8,
    /// N(R) of a control word.
    pub n_r: u8,
    /// The value of a directive, within its limit.
    pub value: usize,
    /// The unit of a request.
    pub unit: Vec<u8>,
}

impl Occurrence {
    fn of_row(row: u8) -> Occurrence {
        Occurrence {
            row,
            ..Occurrence::default()
        }
    }
}

/// Number - from, modulo 256 (clause 7.9.2.3).
pub fn distance(number: u8, from: u8) -> u8 {
    number.wrapping_sub(from)
}

fn unit_within_limits(unit: &[u8], fault: Fault) -> Result<(), u8> {
    match frame::within_limits(unit, fault) {
        true => Ok(()),
        false => Err(LENGTH),
    }
}

impl Sender {
    /// A sender at its start, or refusal 12, or 11 for a lent store of so many octets (document
    /// 01, FOP-1).
    pub fn start(settings: &Settings, lent: usize) -> Result<Sender, u8> {
        let within_limits = settings.spacecraft <= SPACECRAFT_MOST
            && settings.channel <= CHANNEL_MOST
            && settings.v_s <= NUMBER_MOST
            && settings.nn_r <= NUMBER_MOST
            && (K_LEAST..=K_MOST).contains(&settings.k)
            && (TIMER_LEAST..=TIMER_MOST).contains(&settings.t1_initial)
            && (LIMIT_LEAST..=LIMIT_MOST).contains(&settings.transmission_limit)
            && settings.timeout_type <= TIMEOUT_TYPE_MOST;
        if !within_limits {
            return Err(SETTING);
        }
        if lent < store(settings.k, 0) {
            return Err(ROOM);
        }
        Ok(Sender {
            spacecraft: settings.spacecraft as u32,
            channel: settings.channel as u32,
            state: State::S6,
            v_s: settings.v_s as u8,
            wait_queue: None,
            sent_queue: Vec::new(),
            ad_out_ready: true,
            bc_out_ready: true,
            bd_out_ready: true,
            nn_r: settings.nn_r as u8,
            t1_initial: settings.t1_initial as u16,
            timer: 0,
            transmission_limit: settings.transmission_limit as u8,
            timeout_type: settings.timeout_type as u8,
            transmission_count: 1,
            k: settings.k as u8,
            suspend_state: 0,
        })
    }

    /// q = V(S) - NN(R), modulo 256.
    pub fn unacknowledged(&self) -> u8 {
        distance(self.v_s, self.nn_r)
    }

    /// The AD service is suspended: SS > 0 (clause 7.2.2).
    pub fn suspended(&self) -> bool {
        self.suspend_state > 0
    }

    /// The state that the suspension left, or where nothing is suspended the state. What is held goes
    /// by it.
    pub fn effective_state(&self) -> State {
        let left = STATES
            .into_iter()
            .find(|state| state.number() == self.suspend_state);
        left.unwrap_or(self.state)
    }

    /// The units of the lent store: those sent, the oldest first, then the one waiting.
    pub fn stored(&self) -> Vec<Vec<u8>> {
        let mut units = Vec::new();
        for frame in &self.sent_queue {
            if let Content::Ad { unit, .. } = &frame.content {
                units.push(unit.clone());
            }
        }
        units.extend(self.wait_queue.clone());
        units
    }

    /// The units outstanding: those on the Sent_Queue.
    pub fn outstanding(&self) -> usize {
        let units = self.sent_queue.iter();
        units.filter(|frame| frame.number().is_some()).count()
    }

    /// The K of a Set K that is not refused with 12.
    fn new_k(&self, event: &Event) -> Option<usize> {
        let Event::Directive { number, value } = event else {
            return None;
        };
        let occurrence = self.judge_directive(*number, *value, Fault::None).ok()?;
        (occurrence.row == SET_K).then_some(occurrence.value)
    }

    /// The octets that the store must have between the events.
    pub fn store(&self) -> usize {
        store(self.k.into(), self.outstanding())
    }

    /// The octets that the store must have at an event: "a smaller one is refusal 11, at Set K by
    /// the new K, and K stays" (document 02, order 7).
    pub fn store_at(&self, event: &Event, fault: Fault) -> usize {
        let old_k = self.k.into();
        let k = match (self.new_k(event), fault) {
            (None, _) | (_, Fault::StoreByOldK) => old_k,
            (Some(new_k), Fault::StoreByLargerK) => new_k.max(old_k),
            (Some(new_k), _) => new_k,
        };
        let outstanding = match fault {
            Fault::StoreByKAlone => 0,
            _ => self.outstanding(),
        };
        match fault {
            Fault::StoreWithoutWaiting => store(k, outstanding) - UNIT_MOST,
            _ => store(k, outstanding),
        }
    }

    /// Takes an event with a store that suffices and so much room lent for a frame.
    pub fn take(&mut self, event: &Event, room: usize, fault: Fault) -> Answer {
        self.take_with_store(event, usize::MAX, room, fault)
    }

    /// Takes an event with so long a store and so much room for a frame lent. A refused
    /// event changes nothing (document 01, FOP-1: 10, 12, 7, 11, then the table).
    pub fn take_with_store(
        &mut self,
        event: &Event,
        lent: usize,
        room: usize,
        fault: Fault,
    ) -> Answer {
        let mut next = self.clone();
        let occurrence = match self.judge(event, fault) {
            Err(refusal) => return self.refuse(event, refusal),
            Ok(occurrence) => occurrence,
        };
        if lent < self.store_at(event, fault) {
            return Answer::refused(ROOM, self.state);
        }
        if *event == Event::Tick {
            next.timer = next.timer.saturating_sub(1);
        }
        let answer = match occurrence {
            Some(occurrence) => next.perform(&occurrence, fault),
            None => Answer::of_state(self.state),
        };
        if answer.frame.as_ref().map_or(0, Vec::len) > room {
            if fault == Fault::FopRefusedTickCounts && *event == Event::Tick {
                self.timer = 0;
            }
            return Answer::refused(ROOM, self.state);
        }
        *self = next;
        answer
    }

    /// The answer to a refused event. An invalid directive has the table's reject too
    /// (document 01, FOP-1).
    fn refuse(&self, event: &Event, refusal: u8) -> Answer {
        let Event::Directive { .. } = event else {
            return Answer::refused(refusal, self.state);
        };
        let mut same = self.clone();
        let mut answer = same.perform(&Occurrence::of_row(40), Fault::None);
        assert!(same == *self);
        answer.refusal = refusal;
        answer
    }

    /// Which event of the table it is, if any, or refusal 10, 12 or 7.
    pub fn judge(&self, event: &Event, fault: Fault) -> Result<Option<Occurrence>, u8> {
        let occurrence = match event {
            Event::AdRequest(unit) => self.judge_ad_request(unit, fault)?,
            Event::BdRequest(unit) => self.judge_bd_request(unit, fault)?,
            Event::Directive { number, value } => self.judge_directive(*number, *value, fault)?,
            Event::ControlWord(octets) => self.judge_word(octets, fault)?,
            Event::Tick if self.timer != 1 => return Ok(None),
            Event::Tick => Occurrence::of_row(self.row_of_expiry()),
            Event::AdAccept => Occurrence::of_row(41),
            Event::AdReject => Occurrence::of_row(42),
            Event::BcAccept => Occurrence::of_row(43),
            Event::BcReject => Occurrence::of_row(44),
            Event::BdAccept => Occurrence::of_row(45),
            Event::BdReject => Occurrence::of_row(46),
        };
        Ok(Some(occurrence))
    }

    fn judge_ad_request(&self, unit: &[u8], fault: Fault) -> Result<Occurrence, u8> {
        unit_within_limits(unit, fault)?;
        let row = match self.wait_queue {
            None => 19,
            Some(_) => 20,
        };
        let unit = unit.to_vec();
        Ok(Occurrence {
            unit,
            ..Occurrence::of_row(row)
        })
    }

    fn judge_bd_request(&self, unit: &[u8], fault: Fault) -> Result<Occurrence, u8> {
        unit_within_limits(unit, fault)?;
        let row = if self.bd_out_ready { 21 } else { 22 };
        let unit = unit.to_vec();
        Ok(Occurrence {
            unit,
            ..Occurrence::of_row(row)
        })
    }

    /// By the number of the directive (document 01, FOP-1). The value of one without a
    /// qualifier is not looked at (Table 7-3).
    fn judge_directive(&self, number: usize, value: usize, fault: Fault) -> Result<Occurrence, u8> {
        let least_and_most = match number {
            4 | 7 => (0, NUMBER_MOST),
            8 => (K_LEAST, K_MOST),
            9 => (TIMER_LEAST, TIMER_MOST),
            10 => (LIMIT_LEAST, LIMIT_MOST),
            11 if fault == Fault::FopTimeoutTypeOneRefused => (0, 0),
            11 => (0, TIMEOUT_TYPE_MOST),
            _ => (0, usize::MAX),
        };
        if value < least_and_most.0 || value > least_and_most.1 {
            return Err(SETTING);
        }
        let row = match number {
            1 => 23,
            2 => 24,
            3 if self.bc_out_ready => 25,
            3 => 26,
            4 if self.bc_out_ready => 27,
            4 => 28,
            5 => 29,
            6 => 30 + self.suspend_state,
            7 => 35,
            8 => 36,
            9 => 37,
            10 => 38,
            11 => 39,
            _ => return Err(SETTING),
        };
        Ok(Occurrence {
            value,
            ..Occurrence::of_row(row)
        })
    }

    /// An invalid CLCW is E15, whatever its channel (document 01, CLCW).
    fn judge_word(&self, octets: &[u8], fault: Fault) -> Result<Occurrence, u8> {
        let word = clcw::read(octets, self.channel, Fault::None);
        if word.number != DONE {
            return Err(word.number);
        }
        let row = match word.valid {
            0 => 15,
            _ => self.row_of_word(&word, fault),
        };
        Ok(Occurrence {
            n_r: word.report,
            ..Occurrence::of_row(row)
        })
    }

    /// The row of a valid CLCW of this channel.
    fn row_of_word(&self, word: &clcw::Read, fault: Fault) -> u8 {
        let [lockout, wait, retransmit] = [4, 2, 1].map(|flag| word.flags & flag != 0);
        let new = distance(word.report, self.nn_r);
        let valid = match fault {
            Fault::FopPlainNumbers => (self.nn_r..=self.v_s).contains(&word.report),
            _ => new <= self.unacknowledged(),
        };
        if lockout {
            return 14;
        }
        if !valid {
            return 13;
        }
        let all = word.report == self.v_s;
        match (all, retransmit, wait) {
            (true, false, false) if new == 0 => 1,
            (true, false, false) => 2,
            (true, false, true) => 3,
            (true, true, _) => 4,
            (false, false, false) if new == 0 => 5,
            (false, false, false) => 6,
            (false, false, true) => 7,
            (false, true, _) => self.row_of_negative(new, wait),
        }
    }

    /// Retransmit Flag = 1, and some outstanding frames not yet acknowledged.
    fn row_of_negative(&self, new: u8, wait: bool) -> u8 {
        let exhausted = self.transmission_count >= self.transmission_limit;
        match (self.transmission_limit, new, exhausted, wait) {
            (1, 0, _, _) => 102,
            (1, _, _, _) => 101,
            (_, 0, false, false) => 10,
            (_, 0, false, true) => 11,
            (_, 0, true, false) => 12,
            (_, 0, true, true) => 103,
            (_, _, _, false) => 8,
            (_, _, _, true) => 9,
        }
    }

    fn row_of_expiry(&self) -> u8 {
        let exhausted = self.transmission_count >= self.transmission_limit;
        match (exhausted, self.timeout_type) {
            (false, 0) => 16,
            (false, _) => 104,
            (true, 0) => 17,
            (true, _) => 18,
        }
    }

    /// The actions of the cell in their order, then the state change (clause 7.9.1.2).
    /// Where the cell is Not Applicable nothing is done.
    fn perform(&mut self, occurrence: &Occurrence, fault: Fault) -> Answer {
        let mut answer = Answer::of_state(self.state);
        answer.row = occurrence.row;
        if let Cell::Do(actions, next) = self.cell(occurrence.row, fault) {
            for action in actions {
                self.act(*action, occurrence, &mut answer, fault);
            }
            self.state = next;
            answer.state = next;
        }
        answer
    }

    /// The cell of the row in the state, or with a fault another one.
    fn cell(&self, row: u8, fault: Fault) -> Cell {
        let cell = table_7_8::cell(row, self.state);
        if !self.suspended() {
            return cell;
        }
        match (fault, row, cell) {
            (Fault::FopTerminateEndsSuspension, TERMINATE, _) => {
                table_7_8::cell(TERMINATE, State::S1)
            }
            (Fault::FopResumesToActive, 31..=34, Cell::Do(actions, _)) => {
                Cell::Do(actions, State::S1)
            }
            (Fault::FopConfirmsWhileSuspended, 2 | 6, _) => {
                Cell::Do(&[Action::RemoveAcknowledged], State::S6)
            }
            _ => cell,
        }
    }

    fn act(&mut self, action: Action, occurrence: &Occurrence, answer: &mut Answer, fault: Fault) {
        match action {
            Action::Ignore => (),
            Action::Accept => answer.responses.push(accept_of(occurrence.row)),
            Action::Reject => answer.responses.push(reject_of(occurrence.row)),
            Action::Confirm => answer.responses.push(Response::DirectivePositiveConfirm),
            Action::Alert(reason) => self.alert(reason, answer, fault),
            Action::RemoveAcknowledged => self.remove_acknowledged(occurrence.n_r, answer, fault),
            Action::ReleaseBc => self.sent_queue.clear(),
            Action::StartTimer => self.timer = self.t1_initial,
            Action::CancelTimer if fault == Fault::FopTimerRunsOn => (),
            Action::CancelTimer => self.timer = 0,
            Action::LookForFdu => self.look_for_fdu(answer, fault),
            Action::LookForDirective => self.look_for_directive(answer),
            Action::InitiateAdRetransmission => self.initiate_retransmission(answer, fault),
            Action::InitiateBcRetransmission => self.initiate_retransmission(answer, fault),
            Action::AddToWaitQueue => self.wait_queue = Some(occurrence.unit.clone()),
            Action::TransmitBd => self.transmit_bd(&occurrence.unit, answer),
            Action::Initialise => self.initialise(answer, fault),
            Action::TransmitUnlock => self.transmit_bc(Content::Unlock, answer),
            Action::TransmitSetVr => {
                let value = occurrence.value as u32;
                self.transmit_bc(Content::SetVr { value }, answer)
            }
            _ => self.set(action, occurrence, answer, fault),
        }
    }

    /// The actions that set variables.
    fn set(&mut self, action: Action, occurrence: &Occurrence, answer: &mut Answer, fault: Fault) {
        match action {
            Action::VsBecomesValue => self.v_s = occurrence.value as u8,
            Action::NnrBecomesValue => self.nn_r = occurrence.value as u8,
            Action::SetK => self.k = occurrence.value as u8,
            Action::SetT1Initial => self.t1_initial = occurrence.value as u16,
            Action::SetTransmissionLimit => self.transmission_limit = occurrence.value as u8,
            Action::SetTt => self.timeout_type = occurrence.value as u8,
            Action::SsBecomes(number) => self.suspend_state = number,
            Action::Suspend => self.suspend(answer, fault),
            Action::Resume => self.resume(answer, fault),
            Action::IfSsZero(then, otherwise) => {
                let zero = self.suspend_state == 0;
                for action in if zero { then } else { otherwise } {
                    self.act(*action, occurrence, answer, fault);
                }
            }
            Action::AdOutReady => self.ad_out_ready = true,
            Action::BcOutReady => self.bc_out_ready = true,
            Action::BdOutReady => self.bd_out_ready = true,
            _ => unreachable!("an action of the sender's queues"),
        }
    }

    /// Clause 7.9.2.4.
    fn purge_sent_queue(&mut self, answer: &mut Answer, fault: Fault) {
        for frame in std::mem::take(&mut self.sent_queue) {
            match frame.number() {
                Some(_) if fault == Fault::FopDeniesNone => (),
                Some(number) => extend(&mut answer.denied, number),
                None => answer.responses.push(Response::DirectiveNegativeConfirm),
            }
        }
    }

    /// Clause 7.9.2.5.
    fn purge_wait_queue(&mut self, answer: &mut Answer) {
        if self.wait_queue.take().is_some() {
            answer.responses.push(Response::AdReject);
        }
    }

    /// Transmit type-AD frame (clause 7.9.2.6).
    fn transmit_ad(&mut self, unit: Vec<u8>, answer: &mut Answer, fault: Fault) {
        let content = Content::Ad {
            number: self.v_s.into(),
            unit,
        };
        self.v_s = self.v_s.wrapping_add(1);
        if self.sent_queue.is_empty() {
            self.transmission_count = 1;
        }
        self.add_to_sent_queue(content.clone());
        if fault != Fault::FopNoTimer {
            self.timer = self.t1_initial;
        }
        self.ad_out_ready = false;
        self.hand_down(&content, answer);
    }

    /// Transmit type-BC frame (clause 7.9.2.7).
    fn transmit_bc(&mut self, content: Content, answer: &mut Answer) {
        self.add_to_sent_queue(content.clone());
        self.transmission_count = 1;
        self.timer = self.t1_initial;
        self.bc_out_ready = false;
        self.hand_down(&content, answer);
    }

    /// Transmit type-BD frame (clause 7.9.2.10).
    fn transmit_bd(&mut self, unit: &[u8], answer: &mut Answer) {
        self.bd_out_ready = false;
        let unit = unit.to_vec();
        self.hand_down(&Content::Bd { unit }, answer);
    }

    fn add_to_sent_queue(&mut self, content: Content) {
        self.sent_queue.push(SentFrame {
            content,
            to_be_retransmitted: false,
        });
    }

    fn hand_down(&self, content: &Content, answer: &mut Answer) {
        assert!(answer.frame.is_none());
        let octets = frame::encode(self.spacecraft, self.channel, content, Fault::None);
        answer.frame = Some(octets);
        answer.kind = content.kind();
    }

    /// Initiate AD retransmission, initiate BC retransmission (clauses 7.9.2.11 and
    /// 7.9.2.12).
    fn initiate_retransmission(&mut self, answer: &mut Answer, fault: Fault) {
        answer.abort = fault != Fault::FopNoAbort;
        self.transmission_count += 1;
        self.timer = self.t1_initial;
        for frame in &mut self.sent_queue {
            frame.to_be_retransmitted = fault != Fault::FopNeverResends;
        }
    }

    /// Remove acknowledged frames from Sent_Queue (clause 7.9.2.13).
    fn remove_acknowledged(&mut self, n_r: u8, answer: &mut Answer, fault: Fault) {
        let new = distance(n_r, self.nn_r);
        for frame in std::mem::take(&mut self.sent_queue) {
            match frame.number() {
                Some(number) if distance(number, self.nn_r) < new => {
                    extend(&mut answer.confirmed, number)
                }
                _ => self.sent_queue.push(frame),
            }
        }
        if fault == Fault::FopConfirmsOneMore && !self.sent_queue.is_empty() {
            answer.confirmed.count += 1;
        }
        self.nn_r = n_r;
        self.transmission_count = 1;
    }

    /// Clause 7.9.2.14.
    fn alert(&mut self, reason: Reason, answer: &mut Answer, fault: Fault) {
        self.timer = 0;
        self.purge_sent_queue(answer, fault);
        self.purge_wait_queue(answer);
        answer.alert = Some(reason);
    }

    /// Look for directive (clause 7.9.2.15; its figure is that of CCSDS 232.1-B).
    fn look_for_directive(&mut self, answer: &mut Answer) {
        if !self.bc_out_ready {
            return;
        }
        if let Some(content) = self.take_oldest_mark() {
            self.bc_out_ready = false;
            self.hand_down(&content, answer);
        }
    }

    /// Look for FDU (clause 7.9.2.16; its figure is that of CCSDS 232.1-B).
    fn look_for_fdu(&mut self, answer: &mut Answer, fault: Fault) {
        if !self.ad_out_ready {
            return;
        }
        let new_first = fault == Fault::FopNewBeforeMarked && self.wait_queue.is_some();
        if !new_first {
            if let Some(content) = self.take_oldest_mark() {
                if fault == Fault::FopTimerOnResend {
                    self.timer = self.t1_initial;
                }
                self.ad_out_ready = false;
                self.hand_down(&content, answer);
                return;
            }
        }
        let in_window = match fault {
            Fault::FopNeverSends => false,
            Fault::FopWindowByLength => self.sent_queue.len() < self.k as usize,
            _ => self.unacknowledged() < self.k,
        };
        if in_window {
            if let Some(unit) = self.wait_queue.take() {
                answer.responses.push(Response::AdAccept);
                self.transmit_ad(unit, answer, fault);
            }
        }
    }

    /// Clears the mark of the oldest frame that has one.
    fn take_oldest_mark(&mut self) -> Option<Content> {
        for frame in &mut self.sent_queue {
            if frame.to_be_retransmitted {
                frame.to_be_retransmitted = false;
                return Some(frame.content.clone());
            }
        }
        None
    }

    /// Clause 7.9.2.17.
    fn initialise(&mut self, answer: &mut Answer, fault: Fault) {
        self.purge_sent_queue(answer, fault);
        self.purge_wait_queue(answer);
        self.transmission_count = 1;
        self.suspend_state = 0;
    }

    /// Clause 7.9.2.18.
    fn suspend(&mut self, answer: &mut Answer, fault: Fault) {
        answer.suspend = true;
        match fault {
            Fault::FopSuspensionForgetsMarks => {
                for frame in &mut self.sent_queue {
                    frame.to_be_retransmitted = false;
                }
            }
            Fault::FopSuspensionDropsWaiting => self.wait_queue = None,
            _ => (),
        }
    }

    /// Clause 7.9.2.19.
    fn resume(&mut self, answer: &mut Answer, fault: Fault) {
        if fault != Fault::FopResumeStartsNoTimer {
            self.timer = self.t1_initial;
        }
        self.suspend_state = 0;
        if fault == Fault::FopResumeLooksForFdu {
            self.look_for_fdu(answer, fault);
        }
    }
}

/// The numbers of a run follow one another.
fn extend(run: &mut Run, number: u8) {
    if run.count == 0 {
        run.first = number;
    }
    assert!(distance(number, run.first) == run.count);
    run.count += 1;
}

/// Accept answers the directive of rows E23 to E40, the BD unit of E45.
fn accept_of(row: u8) -> Response {
    match row {
        23..=40 => Response::DirectiveAccept,
        45 => Response::BdAccept,
        _ => unreachable!("E{row} accepts nothing"),
    }
}

/// Reject answers the AD unit of rows E19 and E20, the BD unit of E22, the directive of
/// E23 to E40.
fn reject_of(row: u8) -> Response {
    match row {
        19 | 20 => Response::AdReject,
        22 => Response::BdReject,
        23..=40 => Response::DirectiveReject,
        _ => unreachable!("E{row} rejects nothing"),
    }
}

#[cfg(test)]
#[path = "fop1_tests.rs"]
mod tests;
