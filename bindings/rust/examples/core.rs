//! A unit from an uplink unit to a receiver on board with `core` alone: every buffer is an array
//! of the program. It is built and run with `--no-default-features`.

use pondreszi::{cltu, store_octets, Directive, Mode, Receiver, ReceiverSettings, Refused};
use pondreszi::{Sender, SenderEvent, SenderSettings, Unit};
use pondreszi::{LARGEST_CLTU, LARGEST_DECODED_FRAME, LARGEST_FRAME};

const K: u8 = 2;

fn main() -> Result<(), Refused> {
    let mut sender = Sender::new_with_store(
        SenderSettings {
            k: K,
            t1_initial: 50,
            transmission_limit: 3,
            timeout_type: 0,
            spacecraft: 42,
            channel: 3,
            vs: 0,
            nnr: 0,
        },
        [0; store_octets(K)],
    )?;
    let mut receiver = Receiver::new(ReceiverSettings {
        spacecraft: 42,
        channel: 3,
        window: 20,
        vr: 0,
        buffers: 1,
    })?;

    let mut frame = [0; LARGEST_FRAME];
    let initiate = SenderEvent::Directive(Directive::InitiateWithoutCheck);
    sender.event_into(initiate, &mut frame)?;
    let answer = sender.event_into(SenderEvent::RequestAd(b"certificate"), &mut frame)?;
    let handed_down = answer.frame.expect("the window is open");

    let mut up = [0; LARGEST_CLTU];
    let count = cltu::write_into(handed_down.octets, &mut up)?;
    let mut decoded = [0; LARGEST_DECODED_FRAME];
    let read = cltu::read_into(&up[..count], Mode::Correcting, &mut decoded)?;
    let received = receiver.frame(&decoded[..read.count])?;
    assert_eq!(received.unit, Some(Unit::Ad(b"certificate")));
    println!("{}: {}", received.event, receiver.state());
    receiver.release()?;

    let word = receiver.word();
    let answer = sender.event_into(SenderEvent::ControlWord(&word), &mut frame)?;
    println!("{} confirmed: {}", answer.confirmed.count, answer.state);
    Ok(())
}
