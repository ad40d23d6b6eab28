//! States that are kept over a reset, and octets that are none.

mod link;

use link::{certificates, Link, CHANNEL, SPACECRAFT};
use pondreszi::{frame, store_need, Receiver, Refusal, Sender, LARGEST_UNIT};

/// Both ends are taken down and restored after every pass, and deliver all the same.
#[test]
fn a_session_goes_on_after_resets() {
    let units = certificates(120);
    let mut whole = Link::new(units.clone(), 25, 99);
    let mut reset = Link::new(units.clone(), 25, 99);
    while !whole.is_done() {
        whole.pass();
        reset.pass();
        let kept = (
            reset.sender.octets().to_vec(),
            reset.sender.store().to_vec(),
        );
        reset.sender = Sender::restore(&kept.0, kept.1.into()).unwrap();
        let kept = reset.receiver.octets().to_vec();
        reset.receiver = Receiver::restore(&kept).unwrap();
        assert_eq!(reset.sender, whole.sender);
        assert_eq!(reset.receiver, whole.receiver);
    }
    assert_eq!(reset.accepted, units);
}

#[test]
fn octets_that_are_no_state_are_refused() {
    let link = Link::new(certificates(1), 0, 1);
    let state = link.sender.octets();
    for length in [0, 1, 88, state.len() - 1] {
        let refused = Sender::restore(&state[..length], link.sender.store().into());
        assert_eq!(refused.unwrap_err().refusal, Refusal::Setting);
    }
    for place in [0, 1, 2, 7, 17, 22] {
        let mut other = *state;
        other[place] = 0xFF;
        let refused = Sender::restore(&other, link.sender.store().into());
        assert_eq!(refused.unwrap_err().refusal, Refusal::Setting, "{place}");
    }
    let mut longer = state.to_vec();
    longer.push(0);
    let refused = Sender::restore(&longer, link.sender.store().into());
    assert_eq!(refused.unwrap_err().refusal, Refusal::Setting);
    let need = store_need(link.sender.k(), link.sender.sent());
    let refused = Sender::restore(state, vec![0; need - 1].into());
    assert_eq!(refused.unwrap_err().refusal, Refusal::Room);

    let state = link.receiver.octets();
    for length in [0, 11] {
        let refused = Receiver::restore(&state[..length]);
        assert_eq!(refused.unwrap_err().refusal, Refusal::Setting);
    }
    for place in [0, 1, 2, 3, 5, 6, 7, 8, 10, 11] {
        let mut other = *state;
        other[place] = 0xFF;
        let refused = Receiver::restore(&other);
        assert_eq!(refused.unwrap_err().refusal, Refusal::Setting, "{place}");
    }
}

#[test]
fn a_refused_event_changes_nothing() {
    let mut link = Link::new(certificates(1), 0, 1);
    let before = (link.sender.clone(), link.receiver.clone());
    assert_eq!(
        link.sender.request_ad(&[]).unwrap_err().refusal,
        Refusal::Length
    );
    assert_eq!(
        link.sender
            .request_bd(&[0; LARGEST_UNIT + 1])
            .unwrap_err()
            .refusal,
        Refusal::Length
    );
    assert_eq!(
        link.sender.directive_raw(0, 0).unwrap_err().refusal,
        Refusal::Setting
    );
    assert_eq!(
        link.sender.control_word(&[0; 3]).unwrap_err().refusal,
        Refusal::Length
    );
    let others = frame::write_ad(SPACECRAFT + 1, CHANNEL, 250, b"unit").unwrap();
    assert_eq!(
        link.receiver.frame(&others).unwrap_err().refusal,
        Refusal::Address
    );
    assert_eq!(
        link.receiver.frame(&[]).unwrap_err().refusal,
        Refusal::Short
    );
    assert_eq!(
        link.receiver.release().unwrap_err().refusal,
        Refusal::Release
    );
    assert_eq!((link.sender, link.receiver), before);
}
