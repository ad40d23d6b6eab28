//! Prints a C file that asserts each value of include/pondreszi.h, as this crate has it.
//! tests/values.rs and tests/channels.rs hold them to the library; the script `header` compiles
//! what is printed here.

use pondreszi::frame::Kind;
use pondreszi::layout::{answer, flag, receiver, record, rf, sender, sender_flag, NONE};
use pondreszi::*;
use std::fmt::Display;

/// The names of the header behind `PONDRESZI_`, with their values.
type Values = Vec<(&'static str, u64)>;

/// Each name with the value of the expression.
macro_rules! values {
    ($($name:literal = $value:expr,)+) => {
        vec![$(($name, u64::from($value)),)+]
    };
}

/// The same of counts and places.
macro_rules! counts {
    ($($name:literal = $value:expr,)+) => {
        vec![$(($name, $value as u64),)+]
    };
}

/// The version of this crate, which is the header's too.
fn version() -> Values {
    let number = |text: &str| text.parse::<u64>().expect("a number");
    let major = number(env!("CARGO_PKG_VERSION_MAJOR"));
    let minor = number(env!("CARGO_PKG_VERSION_MINOR"));
    let patch = number(env!("CARGO_PKG_VERSION_PATCH"));
    values! {
        "VERSION_MAJOR" = major,
        "VERSION_MINOR" = minor,
        "VERSION_PATCH" = patch,
        "VERSION" = major * 10000 + minor * 100 + patch,
    }
}

fn counts_of_octets() -> Values {
    counts! {
        "SMALLEST_FRAME" = SMALLEST_FRAME,
        "LARGEST_FRAME" = LARGEST_FRAME,
        "SMALLEST_UNIT" = SMALLEST_UNIT,
        "LARGEST_UNIT" = LARGEST_UNIT,
        "FRAME_HEADER_OCTETS" = FRAME_HEADER_OCTETS,
        "LARGEST_FILL" = LARGEST_FILL,
        "SMALLEST_CLTU" = SMALLEST_CLTU,
        "LARGEST_CLTU" = LARGEST_CLTU,
        "LARGEST_CLTU_INPUT" = LARGEST_CLTU_INPUT,
        "LARGEST_DECODED_FRAME" = LARGEST_DECODED_FRAME,
        "LARGEST_DECODED" = LARGEST_DECODED,
        "CODEBLOCK_INFORMATION_OCTETS" = CODEBLOCK_INFORMATION_OCTETS,
        "CODEBLOCK_OCTETS" = CODEBLOCK_OCTETS,
        "CLCW_OCTETS" = CLCW_OCTETS,
        "LARGEST_STORE" = LARGEST_STORE,
        "SENDER_STATE_OCTETS" = SENDER_STATE_OCTETS,
        "ANSWER_OCTETS" = ANSWER_OCTETS,
        "RECEIVER_STATE_OCTETS" = RECEIVER_STATE_OCTETS,
        "RECORD_OCTETS" = RECORD_OCTETS,
        "LARGEST_RECORDS" = LARGEST_RECORDS,
        "LARGEST_RESPONSES" = LARGEST_RESPONSES,
    }
}

fn limits() -> Values {
    values! {
        "LARGEST_SPACECRAFT" = LARGEST_SPACECRAFT,
        "LARGEST_CHANNEL" = LARGEST_CHANNEL,
        "LARGEST_NUMBER" = LARGEST_NUMBER,
        "LARGEST_COUNTER" = LARGEST_COUNTER,
        "SMALLEST_WINDOW" = SMALLEST_WINDOW,
        "LARGEST_WINDOW" = LARGEST_WINDOW,
        "SMALLEST_BUFFERS" = SMALLEST_BUFFERS,
        "LARGEST_BUFFERS" = LARGEST_BUFFERS,
        "SMALLEST_POOL" = SMALLEST_POOL,
        "LARGEST_POOL" = LARGEST_POOL,
        "SMALLEST_K" = SMALLEST_K,
        "LARGEST_K" = LARGEST_K,
        "SMALLEST_T1" = SMALLEST_T1,
        "LARGEST_T1" = LARGEST_T1,
        "SMALLEST_TRANSMISSION_LIMIT" = SMALLEST_TRANSMISSION_LIMIT,
        "LARGEST_TRANSMISSION_LIMIT" = LARGEST_TRANSMISSION_LIMIT,
        "LARGEST_TIMEOUT_TYPE" = LARGEST_TIMEOUT_TYPE,
        "LARGEST_SUSPEND_STATE" = LARGEST_SUSPEND_STATE,
    }
}

fn refusals() -> Values {
    values! {
        "DONE" = NONE,
        "DETECTING" = Mode::Detecting.number(),
        "CORRECTING" = Mode::Correcting.number(),
        "NO_START" = Refusal::NoStart.number(),
        "NO_BLOCK" = Refusal::NoBlock.number(),
        "NO_END" = Refusal::NoEnd.number(),
        "SHORT" = Refusal::Short.number(),
        "FILL" = Refusal::Fill.number(),
        "HEADER" = Refusal::Header.number(),
        "ADDRESS" = Refusal::Address.number(),
        "CHECK" = Refusal::Check.number(),
        "COMMAND" = Refusal::Command.number(),
        "LENGTH" = Refusal::Length.number(),
        "ROOM" = Refusal::Room.number(),
        "SETTING" = Refusal::Setting.number(),
        "RELEASE" = Refusal::Release.number(),
    }
}

fn frames_and_words() -> Values {
    values! {
        "FRAME_NONE" = NONE,
        "FRAME_AD" = Kind::Ad.number(),
        "FRAME_BD" = Kind::Bd.number(),
        "FRAME_UNLOCK" = Kind::Unlock.number(),
        "FRAME_SET_VR" = Kind::SetVr.number(),
        "FLAG_RETRANSMIT" = flag::RETRANSMIT,
        "FLAG_WAIT" = flag::WAIT,
        "FLAG_LOCKOUT" = flag::LOCKOUT,
        "RF_NO_BIT_LOCK" = rf::NO_BIT_LOCK,
        "RF_NO_RF" = rf::NO_RF,
    }
}

fn receiver() -> Values {
    values! {
        "FARM_OPEN" = ReceiverState::Open.number(),
        "FARM_WAIT" = ReceiverState::Wait.number(),
        "FARM_LOCKOUT" = ReceiverState::Lockout.number(),
        "FARM_NONE" = NONE,
        "FARM_E1" = ReceiverEvent::E1.number(),
        "FARM_E2" = ReceiverEvent::E2.number(),
        "FARM_E3" = ReceiverEvent::E3.number(),
        "FARM_E4" = ReceiverEvent::E4.number(),
        "FARM_E5" = ReceiverEvent::E5.number(),
        "FARM_E6" = ReceiverEvent::E6.number(),
        "FARM_E7" = ReceiverEvent::E7.number(),
        "FARM_E8" = ReceiverEvent::E8.number(),
        "FARM_E9" = ReceiverEvent::E9.number(),
        "FARM_E10" = ReceiverEvent::E10.number(),
        "UNIT_NONE" = NONE,
        "UNIT_AD" = Unit::AD,
        "UNIT_BD" = Unit::BD,
    }
}

fn places_of_a_receiver() -> Values {
    counts! {
        "RECEIVER_STATE" = receiver::STATE,
        "RECEIVER_SPACECRAFT" = receiver::SPACECRAFT,
        "RECEIVER_CHANNEL" = receiver::CHANNEL,
        "RECEIVER_WINDOW" = receiver::WINDOW,
        "RECEIVER_BUFFERS" = receiver::BUFFERS,
        "RECEIVER_TAKEN" = receiver::TAKEN,
        "RECEIVER_VR" = receiver::VR,
        "RECEIVER_FLAGS" = receiver::FLAGS,
        "RECEIVER_COUNTER" = receiver::COUNTER,
    }
}

fn places_of_a_record() -> Values {
    counts! {
        "RECORD_STATE" = record::STATE,
        "RECORD_CHANNEL" = record::CHANNEL,
        "RECORD_WINDOW" = record::WINDOW,
        "RECORD_HELD" = record::HELD,
        "RECORD_VR" = record::VR,
        "RECORD_FLAGS" = record::FLAGS,
        "RECORD_COUNTER" = record::COUNTER,
    }
}

fn places_of_a_sender() -> Values {
    counts! {
        "SENDER_STATE" = sender::STATE,
        "SENDER_K" = sender::K,
        "SENDER_T1_INITIAL" = sender::T1_INITIAL,
        "SENDER_TRANSMISSION_LIMIT" = sender::TRANSMISSION_LIMIT,
        "SENDER_TIMEOUT_TYPE" = sender::TIMEOUT_TYPE,
        "SENDER_SPACECRAFT" = sender::SPACECRAFT,
        "SENDER_CHANNEL" = sender::CHANNEL,
        "SENDER_VS" = sender::VS,
        "SENDER_NNR" = sender::NNR,
        "SENDER_TIMER" = sender::TIMER,
        "SENDER_TRANSMISSION_COUNT" = sender::TRANSMISSION_COUNT,
        "SENDER_FLAGS" = sender::FLAGS,
        "SENDER_SUSPEND_STATE" = sender::SUSPEND_STATE,
        "SENDER_SENT" = sender::SENT,
        "SENDER_MARKED" = sender::MARKED,
        "SENDER_BC_FRAME" = sender::BC_FRAME,
        "SENDER_BC_VALUE" = sender::BC_VALUE,
        "SENDER_LENGTHS" = sender::LENGTHS,
    }
}

fn places_of_an_answer() -> Values {
    counts! {
        "ANSWER_REFUSAL" = answer::REFUSAL,
        "ANSWER_EVENT" = answer::EVENT,
        "ANSWER_STATE" = answer::STATE,
        "ANSWER_FRAME" = answer::FRAME,
        "ANSWER_ABORT" = answer::ABORT,
        "ANSWER_ALERT" = answer::ALERT,
        "ANSWER_SUSPENDED" = answer::SUSPENDED,
        "ANSWER_RESPONSES" = answer::RESPONSES,
        "ANSWER_FIRST_RESPONSE" = answer::FIRST_RESPONSE,
        "ANSWER_CONFIRMED_FIRST" = answer::CONFIRMED_FIRST,
        "ANSWER_CONFIRMED" = answer::CONFIRMED,
        "ANSWER_DENIED_FIRST" = answer::DENIED_FIRST,
        "ANSWER_DENIED" = answer::DENIED,
        "ANSWER_KIND" = answer::KIND,
    }
}

fn sender() -> Values {
    values! {
        "FOP_ACTIVE" = SenderState::Active.number(),
        "FOP_RETRANSMIT_WITHOUT_WAIT" = SenderState::RetransmitWithoutWait.number(),
        "FOP_RETRANSMIT_WITH_WAIT" = SenderState::RetransmitWithWait.number(),
        "FOP_INITIALISING_WITHOUT_BC" = SenderState::InitialisingWithoutBc.number(),
        "FOP_INITIALISING_WITH_BC" = SenderState::InitialisingWithBc.number(),
        "FOP_INITIAL" = SenderState::Initial.number(),
        "TIMEOUT_ALERT" = TimeoutType::Alert.number(),
        "TIMEOUT_SUSPEND" = TimeoutType::Suspend.number(),
        "SENDER_AD_OUT_READY" = sender_flag::AD_OUT_READY,
        "SENDER_BC_OUT_READY" = sender_flag::BC_OUT_READY,
        "SENDER_BD_OUT_READY" = sender_flag::BD_OUT_READY,
        "SENDER_UNIT_WAITS" = sender_flag::UNIT_WAITS,
        "SENDER_BC_MARKED" = sender_flag::BC_MARKED,
        "ALERT_NONE" = NONE,
        "ALERT_SYNCH" = Alert::Synch.number(),
        "ALERT_CLCW" = Alert::Clcw.number(),
        "ALERT_LIMIT" = Alert::Limit.number(),
        "ALERT_NNR" = Alert::Nnr.number(),
        "ALERT_LOCKOUT" = Alert::Lockout.number(),
        "ALERT_T1" = Alert::T1.number(),
        "ALERT_TERM" = Alert::Term.number(),
        "ALERT_LLIF" = Alert::Llif.number(),
        "RESPONSE_NONE" = NONE,
        "RESPONSE_ACCEPT_AD" = Response::AcceptAd.number(),
        "RESPONSE_REJECT_AD" = Response::RejectAd.number(),
        "RESPONSE_ACCEPT_BD" = Response::AcceptBd.number(),
        "RESPONSE_REJECT_BD" = Response::RejectBd.number(),
        "RESPONSE_ACCEPT_DIRECTIVE" = Response::AcceptDirective.number(),
        "RESPONSE_REJECT_DIRECTIVE" = Response::RejectDirective.number(),
        "RESPONSE_CONFIRM_DIRECTIVE" = Response::ConfirmDirective.number(),
        "RESPONSE_DENY_DIRECTIVE" = Response::DenyDirective.number(),
        "AD_ACCEPT" = LowerLayer::AdAccept.number(),
        "AD_REJECT" = LowerLayer::AdReject.number(),
        "BC_ACCEPT" = LowerLayer::BcAccept.number(),
        "BC_REJECT" = LowerLayer::BcReject.number(),
        "BD_ACCEPT" = LowerLayer::BdAccept.number(),
        "BD_REJECT" = LowerLayer::BdReject.number(),
    }
}

fn directives() -> Values {
    let number = |directive: Directive| directive.number_and_value().0;
    values! {
        "INITIATE_WITHOUT_CHECK" = number(Directive::InitiateWithoutCheck),
        "INITIATE_WITH_CLCW_CHECK" = number(Directive::InitiateWithClcwCheck),
        "INITIATE_WITH_UNLOCK" = number(Directive::InitiateWithUnlock),
        "INITIATE_WITH_SET_VR" = number(Directive::InitiateWithSetVr(0)),
        "TERMINATE" = number(Directive::Terminate),
        "RESUME" = number(Directive::Resume),
        "SET_VS" = number(Directive::SetVs(0)),
        "SET_K" = number(Directive::SetK(0)),
        "SET_TIMER" = number(Directive::SetTimer(0)),
        "SET_TRANSMISSION_LIMIT" = number(Directive::SetTransmissionLimit(0)),
        "SET_TIMEOUT_TYPE" = number(Directive::SetTimeoutType(0)),
    }
}

fn print_assertion(expression: &str, value: u64) {
    println!("_Static_assert({expression} == {value}, \"{expression}\");");
}

/// A macro at these arguments, also where they and it stand in an expression.
fn print_macro<T: Display>(name: &str, arguments: &[T], value: usize) {
    let at = |end: &str| {
        let arguments: Vec<String> = arguments.iter().map(|n| format!("{n}{end}")).collect();
        format!("PONDRESZI_{name}({})", arguments.join(", "))
    };
    print_assertion(&at(""), value as u64);
    print_assertion(&at(" | 0"), value as u64);
    print_assertion(&format!("3 * {}", at("")), 3 * value as u64);
}

fn main() {
    println!("#include \"pondreszi.h\"");
    let values = [
        version(),
        counts_of_octets(),
        limits(),
        refusals(),
        frames_and_words(),
        receiver(),
        places_of_a_receiver(),
        places_of_a_record(),
        places_of_a_sender(),
        places_of_an_answer(),
        sender(),
        directives(),
    ];
    for (name, value) in values.concat() {
        print_assertion(&format!("PONDRESZI_{name}"), value);
    }
    for frame in SMALLEST_FRAME..=LARGEST_FRAME {
        print_macro("CLTU_OCTETS", &[frame], cltu::octets(frame));
    }
    for k in SMALLEST_K..=LARGEST_K {
        print_macro("STORE_OCTETS", &[k], store_octets(k));
        for sent in [0, 1, k - 1, k, k + 1, LARGEST_K] {
            print_macro("STORE_NEED", &[k, sent], store_need(k, sent));
        }
    }
}
