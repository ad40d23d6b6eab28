//! Two ends and a link that loses frames and control words.

use pondreszi::{
    clcw, cltu, frame, Answer, Directive, Mode, Receiver, ReceiverSettings, Response, Run, Sender,
    SenderSettings, SenderState, Unit,
};

pub const SPACECRAFT: u16 = 42;
pub const CHANNEL: u8 = 3;

/// V(S) and V(R) at the start, so that numbers wrap early.
const FIRST: u8 = 250;

pub struct Link {
    pub sender: Sender,
    pub receiver: Receiver,
    /// The units accepted on board, in the order of acceptance.
    pub accepted: Vec<Vec<u8>>,
    pub alerts: usize,
    /// Frames handed down.
    pub frames: usize,
    random: u32,
    loss: u32,
    units: Vec<Vec<u8>>,
    /// The oldest unit not known to be accepted, and its number.
    oldest: usize,
    oldest_number: u8,
    /// The next unit to be numbered.
    next: usize,
}

pub fn certificates(count: usize) -> Vec<Vec<u8>> {
    (0..count)
        .map(|n| format!("CERT {n:04} expires 2027-03-{:02}", n % 31 + 1).into_bytes())
        .collect()
}

impl Link {
    pub fn new(units: Vec<Vec<u8>>, loss: u32, seed: u32) -> Link {
        let receiver = Receiver::new(ReceiverSettings {
            spacecraft: SPACECRAFT,
            channel: CHANNEL,
            window: 16,
            vr: FIRST,
            buffers: 2,
        });
        let sender = Sender::new(SenderSettings {
            k: 8,
            t1_initial: 3,
            transmission_limit: 3,
            timeout_type: 0,
            spacecraft: SPACECRAFT,
            channel: CHANNEL,
            vs: FIRST,
            nnr: FIRST,
        });
        let mut link = Link {
            sender: sender.unwrap(),
            receiver: receiver.unwrap(),
            accepted: Vec::new(),
            alerts: 0,
            frames: 0,
            random: seed | 1,
            loss,
            units,
            oldest: 0,
            oldest_number: FIRST,
            next: 0,
        };
        link.direct(Directive::InitiateWithoutCheck);
        link
    }

    pub fn is_done(&self) -> bool {
        self.oldest == self.units.len()
    }

    /// Offers a unit, or lets time pass.
    pub fn pass(&mut self) {
        if self.receiver.buffers_taken() > 0 && self.random() & 1 == 0 {
            self.receiver.release().unwrap();
        }
        let active = matches!(
            self.sender.state(),
            SenderState::Active
                | SenderState::RetransmitWithoutWait
                | SenderState::RetransmitWithWait
        );
        if active && !self.sender.waiting() && self.next < self.units.len() {
            let unit = self.units[self.next].clone();
            let answer = self.sender.request_ad(&unit).unwrap();
            return self.follow(answer);
        }
        if !self.loses() {
            let answer = self.sender.control_word(&self.receiver.word()).unwrap();
            self.follow(answer);
        }
        // A unit outstanding with no timer running would wait for ever.
        if self.sender.sent() > 0 && self.sender.timer().is_none() {
            return self.direct(Directive::Terminate);
        }
        let answer = self.sender.tick().unwrap();
        self.follow(answer);
    }

    fn direct(&mut self, directive: Directive) {
        let answer = self.sender.directive(directive).unwrap();
        self.follow(answer);
    }

    /// Carries the frame handed down, and tells the sender that the lower layer took it,
    /// which can hand down the next.
    fn follow(&mut self, mut answer: Answer) {
        loop {
            self.note(&answer);
            let Some(frame) = answer.frame else { break };
            let read = frame::read(&frame.octets, SPACECRAFT, CHANNEL).unwrap();
            assert_eq!(read.kind, frame.kind);
            self.carry(&frame.octets);
            answer = self.sender.lower_layer(frame.kind.accept()).unwrap();
        }
    }

    fn note(&mut self, answer: &Answer) {
        if answer.confirmed != Run::default() {
            assert_eq!(answer.confirmed.first, self.oldest_number);
            self.advance(answer.confirmed.count);
        }
        let accepts = |r: &&Response| **r == Response::AcceptAd;
        self.next += answer.responses.iter().filter(accepts).count();
        if answer.alert.is_some() {
            self.alerts += 1;
            self.recover();
        }
    }

    /// docs/OPERATIONS.md, "After an alert". The link holds nothing back, so the rule of "Before
    /// the service begins again" is met: V(S) becomes V(R); the units numbered before it were
    /// accepted, the others are offered again.
    fn recover(&mut self) {
        let word = clcw::read(&self.receiver.word(), CHANNEL).unwrap();
        let word = word.unwrap().word;
        let accepted = word.report.wrapping_sub(self.oldest_number);
        assert!(usize::from(accepted) <= self.next - self.oldest);
        self.advance(accepted);
        self.next = self.oldest;
        self.direct(Directive::SetVs(word.report));
        if word.lockout || word.wait || word.retransmit {
            return self.direct(Directive::InitiateWithUnlock);
        }
        self.direct(Directive::InitiateWithClcwCheck);
    }

    fn advance(&mut self, count: u8) {
        self.oldest += usize::from(count);
        self.oldest_number = self.oldest_number.wrapping_add(count);
    }

    fn carry(&mut self, frame: &[u8]) {
        self.frames += 1;
        let mut octets = cltu::write(frame).unwrap();
        // One wrong bit is mended, two in one codeblock are bad.
        octets[4] ^= 4;
        if self.loses() {
            octets[9] ^= 4;
        }
        let Ok(decoded) = cltu::read(&octets, Mode::Correcting) else {
            return;
        };
        let received = self.receiver.frame(&decoded.octets).unwrap();
        if let Some(Unit::Ad(unit)) = received.unit {
            self.accepted.push(unit.to_vec());
        }
    }

    fn loses(&mut self) -> bool {
        self.random() % 100 < self.loss
    }

    fn random(&mut self) -> u32 {
        self.random ^= self.random << 13;
        self.random ^= self.random >> 17;
        self.random ^= self.random << 5;
        self.random / 8
    }
}
