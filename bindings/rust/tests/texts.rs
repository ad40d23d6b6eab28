//! What is displayed: the standard's words for states, alerts and responses, document 01's for
//! refusals.

use pondreszi::frame::Kind;
use pondreszi::{Alert, LowerLayer, ReceiverEvent, ReceiverState, Refusal, Response, SenderState};
use pondreszi::{Directive, Refused, Sender, SenderSettings};
use std::error::Error;
use std::fmt::Display;

fn texts<T: Display>(all: &[T]) -> Vec<String> {
    all.iter().map(T::to_string).collect()
}

#[test]
fn states_as_clauses_7_2_and_7_3_name_them() {
    let sender = [
        "Active (S1)",
        "Retransmit without Wait (S2)",
        "Retransmit with Wait (S3)",
        "Initialising without BC Frame (S4)",
        "Initialising with BC Frame (S5)",
        "Initial (S6)",
    ];
    assert_eq!(texts(&SenderState::ALL), sender);
    let receiver = ["Open (S1)", "Wait (S2)", "Lockout (S3)"];
    assert_eq!(texts(&ReceiverState::ALL), receiver);
}

#[test]
fn alerts_as_table_7_4_names_them() {
    let alerts = [
        "Alert[synch]",
        "Alert[CLCW]",
        "Alert[limit]",
        "Alert[NN(R)]",
        "Alert[lockout]",
        "Alert[T1]",
        "Alert[term]",
        "Alert[LLIF]",
    ];
    assert_eq!(texts(&Alert::ALL), alerts);
}

#[test]
fn responses_as_clauses_7_4_and_7_5_name_them() {
    let responses = [
        "Accept Response to Request to Transfer FDU (AD Service)",
        "Reject Response to Request to Transfer FDU (AD Service)",
        "Accept Response to Request to Transfer FDU (BD Service)",
        "Reject Response to Request to Transfer FDU (BD Service)",
        "Accept Response to Directive",
        "Reject Response to Directive",
        "Positive Confirm Response to Directive",
        "Negative Confirm Response to Directive",
    ];
    assert_eq!(texts(&Response::ALL), responses);
}

#[test]
fn events_frames_and_accepts() {
    assert_eq!(ReceiverEvent::E10.to_string(), "E10");
    let kinds = [
        "AD frame",
        "BD frame",
        "BC frame, Unlock",
        "BC frame, Set V(R)",
    ];
    assert_eq!(texts(&Kind::ALL), kinds);
    assert_eq!(LowerLayer::BcReject.to_string(), "BC_Reject");
}

#[test]
fn refusals_by_number_name_and_place() {
    assert_eq!(Refusal::NoBlock.to_string(), "refusal 2, no block");
    let refused = pondreszi::cltu::read(&[0xEB, 0x90, 0], pondreszi::Mode::Detecting).unwrap_err();
    assert_eq!(refused.to_string(), "refusal 3, no end, at octet 2");
    let source = refused.source().unwrap();
    assert_eq!(source.to_string(), "refusal 3, no end");
    let without_place: Refused = Refusal::Check.into();
    assert_eq!(without_place.to_string(), "refusal 8, check");
    for refusal in Refusal::ALL {
        assert!(!refusal.meaning().is_empty() && !refusal.meaning().ends_with('.'));
    }
}

/// A refused event tells its refusal, hands no frame down, and is an error like any other.
#[test]
fn a_refused_event() {
    let mut sender = Sender::new(SenderSettings {
        k: 1,
        t1_initial: 1,
        transmission_limit: 1,
        timeout_type: 0,
        spacecraft: 0,
        channel: 0,
        vs: 0,
        nnr: 0,
    })
    .unwrap();
    let refused = sender.directive(Directive::SetK(128)).unwrap_err();
    assert_eq!(refused.answer.responses, [Response::RejectDirective]);
    assert!(refused.answer.frame.is_none());
    let error: Box<dyn Error> = refused.into();
    assert_eq!(error.to_string(), "refusal 12, setting");
}
