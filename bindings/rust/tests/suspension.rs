//! A deep pass: units go up as often as the limit says, the sender is suspended, and the service is
//! resumed once control words can come in.

use pondreszi::{
    Alert, Answer, Directive, LowerLayer, Receiver, ReceiverSettings, Response, Sender,
    SenderSettings, SenderState, TimeoutType, Unit,
};

const SPACECRAFT: u16 = 42;
const CHANNEL: u8 = 3;
const UNITS: u8 = 4;
const LIMIT: u8 = 2;
const T1: u16 = 9;

/// As many as K, and one that waits.
fn units() -> Vec<Vec<u8>> {
    (0..=UNITS).map(|n| vec![n; 20]).collect()
}

/// The frames that the answer and then the accepts of the lower layer hand down.
fn handed_down(sender: &mut Sender, mut answer: Answer) -> Vec<Vec<u8>> {
    let mut frames = Vec::new();
    while let Some(frame) = answer.frame {
        answer = sender.lower_layer(frame.kind.accept()).unwrap();
        frames.push(frame.octets);
    }
    frames
}

/// Ticks until the timer expires.
fn expire(sender: &mut Sender) -> Answer {
    for _ in 1..T1 {
        let answer = sender.tick().unwrap();
        assert!(answer.frame.is_none() && !answer.suspended);
    }
    sender.tick().unwrap()
}

/// An active sender.
fn active() -> Sender {
    let mut sender = Sender::new(SenderSettings {
        k: UNITS,
        t1_initial: T1,
        transmission_limit: LIMIT,
        timeout_type: TimeoutType::Suspend.number(),
        spacecraft: SPACECRAFT,
        channel: CHANNEL,
        vs: 254,
        nnr: 254,
    })
    .unwrap();
    sender.directive(Directive::InitiateWithoutCheck).unwrap();
    sender
}

/// Units sent as often as the limit says, one more waiting, and the sender suspended; with the
/// frames handed down.
fn suspended() -> (Sender, Vec<Vec<u8>>) {
    let mut sender = active();
    let mut frames = Vec::new();
    for unit in units() {
        let answer = sender.request_ad(&unit).unwrap();
        frames.extend(handed_down(&mut sender, answer));
    }
    assert!(sender.waiting());
    for _ in 1..LIMIT {
        let answer = expire(&mut sender);
        frames.extend(handed_down(&mut sender, answer));
    }
    let answer = expire(&mut sender);
    assert!(answer.suspended && answer.alert.is_none());
    assert_eq!((answer.denied.count, answer.responses.len()), (0, 0));
    (sender, frames)
}

/// The sender as it is after a reset.
fn kept(sender: &Sender) -> Sender {
    let store = sender.store().to_vec().into();
    Sender::restore(sender.octets(), store).unwrap()
}

#[test]
fn a_deep_pass() {
    let units = units();
    let (sender, frames) = suspended();
    assert_eq!(frames.len(), usize::from(UNITS * LIMIT));
    let mut receiver = Receiver::new(ReceiverSettings {
        spacecraft: SPACECRAFT,
        channel: CHANNEL,
        window: 2 * UNITS,
        vr: 254,
        buffers: 1,
    })
    .unwrap();
    // The first of the frames is lost.
    let mut accepted = Vec::new();
    for frame in &frames[1..] {
        let received = receiver.frame(frame).unwrap();
        if let Some(Unit::Ad(unit)) = received.unit {
            accepted.push(unit.to_vec());
            receiver.release().unwrap();
        }
    }
    assert_eq!(accepted, units[..usize::from(UNITS)]);

    // Over a reset, a word that comes too early, Terminate and a unit that is offered.
    let mut sender = kept(&sender);
    let before = sender.clone();
    assert_eq!(sender.state(), SenderState::Initial);
    let answer = sender.control_word(&receiver.word()).unwrap();
    assert_eq!((answer.confirmed.count, answer.denied.count), (0, 0));
    let answer = sender.directive(Directive::Terminate).unwrap();
    let done = [Response::AcceptDirective, Response::ConfirmDirective];
    assert_eq!((answer.alert, &answer.responses[..]), (None, &done[..]));
    let answer = sender.request_ad(b"one more").unwrap();
    assert_eq!(answer.responses, [Response::RejectAd]);
    assert_eq!(sender, before);

    let answer = sender.directive(Directive::Resume).unwrap();
    assert_eq!((answer.state, answer.frame), (SenderState::Active, None));
    assert_eq!((sender.sent(), sender.waiting()), (UNITS, true));
    assert_eq!((sender.vs(), sender.timer()), (before.vs(), Some(T1)));
    let answer = sender.control_word(&receiver.word()).unwrap();
    assert_eq!(
        (answer.confirmed.first, answer.confirmed.count),
        (254, UNITS)
    );
    // The unit that waited goes at once.
    assert_eq!(answer.responses, [Response::AcceptAd]);
    let last = answer.frame.unwrap();
    let received = receiver.frame(&last.octets).unwrap();
    assert_eq!(received.unit, Some(Unit::Ad(&units[usize::from(UNITS)])));
}

/// With the count at the limit the next expiry suspends again; with a higher limit units are sent
/// again.
#[test]
fn the_limit_before_resume() {
    let (mut sender, frames) = suspended();
    let first = sender.clone();
    sender.directive(Directive::Resume).unwrap();
    assert!(expire(&mut sender).suspended);
    assert_eq!(sender, first);

    let limit = Directive::SetTransmissionLimit(LIMIT + 1);
    sender.directive(limit).unwrap();
    sender.directive(Directive::Resume).unwrap();
    let answer = expire(&mut sender);
    assert!(!answer.suspended);
    let again = handed_down(&mut sender, answer);
    assert_eq!(again, frames[..usize::from(UNITS)]);
}

/// A reject of the lower layer denies the units and leaves the suspension; an Initiate ends it.
#[test]
fn rejects_and_initiates() {
    let (mut sender, _) = suspended();
    let mut other = sender.clone();
    let answer = sender.lower_layer(LowerLayer::BdReject).unwrap();
    assert_eq!(
        (answer.alert, answer.denied.count),
        (Some(Alert::Llif), UNITS)
    );
    assert_eq!(answer.responses, [Response::RejectAd]);
    assert_eq!(sender.suspended(), Some(SenderState::Active));
    assert_eq!((sender.sent(), sender.waiting()), (0, false));
    assert_eq!(kept(&sender), sender);

    let answer = other.directive(Directive::InitiateWithoutCheck).unwrap();
    assert_eq!((answer.alert, answer.denied.count), (None, UNITS));
    let responses = [
        Response::AcceptDirective,
        Response::RejectAd,
        Response::ConfirmDirective,
    ];
    assert_eq!(answer.responses, responses);
    assert_eq!(
        (other.state(), other.suspended()),
        (SenderState::Active, None)
    );
}

/// While a control word is awaited the first expiry suspends.
#[test]
fn a_control_word_awaited() {
    let mut sender = active();
    sender.directive(Directive::Terminate).unwrap();
    sender.directive(Directive::InitiateWithClcwCheck).unwrap();
    assert!(expire(&mut sender).suspended);
    let awaited = SenderState::InitialisingWithoutBc;
    assert_eq!(sender.suspended(), Some(awaited));
    let answer = kept(&sender).directive(Directive::Resume).unwrap();
    assert_eq!(answer.state, awaited);
}
