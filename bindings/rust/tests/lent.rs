//! What `core` alone has answers as what needs `alloc`: a sender with a lent store and output, and
//! the writers into a lent output.

use pondreszi::{cltu, frame, store_octets, Directive, LowerLayer, Refusal, Refused};
use pondreszi::{Answer, RefusedEvent, Sender, SenderEvent, SenderSettings, LARGEST_FRAME};

const SETTINGS: SenderSettings = SenderSettings {
    k: 3,
    t1_initial: 2,
    transmission_limit: 2,
    timeout_type: 1,
    spacecraft: 42,
    channel: 3,
    vs: 254,
    nnr: 254,
};

fn events() -> Vec<SenderEvent<'static>> {
    let accept = SenderEvent::LowerLayer(LowerLayer::AdAccept);
    vec![
        SenderEvent::RequestAd(b"early"),
        SenderEvent::Directive(Directive::InitiateWithoutCheck),
        SenderEvent::RequestAd(b"first"),
        accept,
        SenderEvent::RequestAd(b"second"),
        SenderEvent::RequestBd(b"aside"),
        SenderEvent::ControlWord(&[0x01, 0x0C, 0x08, 255]),
        accept,
        SenderEvent::Tick,
        SenderEvent::Tick,
        SenderEvent::DirectiveRaw(12, 0),
        SenderEvent::ControlWord(&[]),
        SenderEvent::Directive(Directive::Resume),
        SenderEvent::LowerLayer(LowerLayer::AdReject),
        SenderEvent::Directive(Directive::InitiateWithSetVr(7)),
    ]
}

/// The same answer, whoever holds its frame.
fn assert_same(own: Result<Answer, RefusedEvent>, lent: Result<Answer<&[u8]>, RefusedEvent>) {
    let (own, lent) = match (own, lent) {
        (Ok(own), Ok(lent)) => (own, lent),
        (own, lent) => return assert_eq!(own.unwrap_err(), lent.unwrap_err()),
    };
    let frame = own.frame.map(|frame| (frame.kind, frame.octets));
    let lent_frame = lent.frame.map(|frame| (frame.kind, frame.octets.to_vec()));
    assert_eq!(frame, lent_frame);
    assert_eq!((own.event, own.state), (lent.event, lent.state));
    assert_eq!((own.abort, own.alert), (lent.abort, lent.alert));
    assert_eq!(own.responses, lent.responses);
    assert_eq!(own.suspended, lent.suspended);
    assert_eq!((own.confirmed, own.denied), (lent.confirmed, lent.denied));
}

fn own_event(sender: &mut Sender, event: SenderEvent) -> Result<Answer, RefusedEvent> {
    match event {
        SenderEvent::RequestAd(unit) => sender.request_ad(unit),
        SenderEvent::RequestBd(unit) => sender.request_bd(unit),
        SenderEvent::Directive(directive) => sender.directive(directive),
        SenderEvent::DirectiveRaw(number, value) => sender.directive_raw(number, value),
        SenderEvent::Tick => sender.tick(),
        SenderEvent::LowerLayer(said) => sender.lower_layer(said),
        SenderEvent::ControlWord(word) => sender.control_word(word),
    }
}

#[test]
fn a_lent_store_and_output_change_no_answer() {
    let mut own = Sender::new(SETTINGS).unwrap();
    let mut store = [0; store_octets(SETTINGS.k)];
    let mut lent = Sender::new_with_store(SETTINGS, &mut store[..]).unwrap();
    let mut suspended = false;
    for event in events() {
        let mut output = [0; LARGEST_FRAME];
        assert_same(
            own_event(&mut own, event),
            lent.event_into(event, &mut output),
        );
        assert_eq!((own.octets(), own.store()), (lent.octets(), lent.store()));
        suspended |= own.suspended().is_some();
    }
    assert!(suspended);
}

#[test]
fn a_short_output_or_store_is_refused_and_changes_nothing() {
    let mut sender = Sender::new_with_store(SETTINGS, [0; store_octets(SETTINGS.k)]).unwrap();
    let initiate = SenderEvent::Directive(Directive::InitiateWithoutCheck);
    sender.event_into(initiate, &mut []).unwrap();
    let before = sender.clone();
    let mut output = [0; 10];
    let refused = sender.event_into(SenderEvent::RequestAd(b"unit"), &mut output);
    assert_eq!(refused.unwrap_err().refusal, Refusal::Room);
    let wider = SenderEvent::Directive(Directive::SetK(SETTINGS.k + 1));
    let mut output = [0; LARGEST_FRAME];
    let refused = sender.event_into(wider, &mut output);
    assert_eq!(refused.unwrap_err().refusal, Refusal::Room);
    assert_eq!(sender, before);

    // A longer store that begins with the same octets takes the larger K.
    let mut store = [0; store_octets(SETTINGS.k + 1)];
    store[..sender.store().len()].copy_from_slice(sender.store());
    let mut sender = Sender::restore_with_store(before.octets(), store).unwrap();
    sender.event_into(wider, &mut []).unwrap();
    assert_eq!(sender.k(), SETTINGS.k + 1);
}

#[test]
fn writers_into_a_lent_output() {
    let written = |write: &dyn Fn(&mut [u8]) -> Result<usize, Refused>, own: Vec<u8>| {
        let mut output = [0xA5; LARGEST_FRAME];
        assert_eq!(write(&mut output).unwrap(), own.len());
        assert_eq!(output[..own.len()], own);
        assert_eq!(output[own.len()..], vec![0xA5; LARGEST_FRAME - own.len()]);
        let short = write(&mut output[..own.len() - 1]).unwrap_err();
        assert_eq!(short.refusal, Refusal::Room);
    };
    let unit = b"unit";
    let ad = frame::write_ad(42, 3, 7, unit).unwrap();
    written(
        &|output| cltu::write_into(&ad, output),
        cltu::write(&ad).unwrap(),
    );
    written(
        &|output| frame::write_ad_into(42, 3, 7, unit, output),
        ad.clone(),
    );
    let bd = frame::write_bd(42, 3, unit).unwrap();
    written(&|output| frame::write_bd_into(42, 3, unit, output), bd);
    let unlock = frame::write_unlock(42, 3).unwrap();
    written(&|output| frame::write_unlock_into(42, 3, output), unlock);
    let set_vr = frame::write_set_vr(42, 3, 9).unwrap();
    written(&|output| frame::write_set_vr_into(42, 3, 9, output), set_vr);
}
