//! Certificates over a link that loses every third frame: each is sent until it is confirmed.

use pondreszi::{cltu, Answer, Directive, Mode, Receiver, ReceiverSettings, RefusedEvent};
use pondreszi::{Sender, SenderSettings, Unit};

/// The receiver behind the link, and how many frames the link was given.
struct Link {
    receiver: Receiver,
    frames: usize,
}

impl Link {
    fn carry(&mut self, frame: &[u8]) {
        self.frames += 1;
        if self.frames % 3 == 0 {
            return;
        }
        let up = cltu::write(frame).expect("a sender's frame has a CLTU");
        let decoded = cltu::read(&up, Mode::Correcting).expect("nothing is damaged here");
        if let Ok(received) = self.receiver.frame(&decoded.octets) {
            if let Some(Unit::Ad(unit)) = received.unit {
                println!("on board: {}", String::from_utf8_lossy(unit));
                self.receiver.release().expect("the unit holds a buffer");
            }
        }
    }
}

/// Passes on the frame handed down. Its accept can hand down the next.
fn follow(sender: &mut Sender, link: &mut Link, mut answer: Answer) -> Result<(), RefusedEvent> {
    loop {
        for response in &answer.responses {
            println!("  {response}");
        }
        if let Some(alert) = answer.alert {
            println!("  {alert}");
        }
        let Some(frame) = answer.frame else {
            return Ok(());
        };
        link.carry(&frame.octets);
        answer = sender.lower_layer(frame.kind.accept())?;
    }
}

fn main() -> Result<(), Box<dyn std::error::Error>> {
    let receiver = Receiver::new(ReceiverSettings {
        spacecraft: 42,
        channel: 3,
        window: 20,
        vr: 0,
        buffers: 1,
    })?;
    let mut link = Link {
        receiver,
        frames: 0,
    };
    let mut sender = Sender::new(SenderSettings {
        k: 10,
        t1_initial: 2,
        transmission_limit: 3,
        timeout_type: 0,
        spacecraft: 42,
        channel: 3,
        vs: 0,
        nnr: 0,
    })?;
    sender.directive(Directive::InitiateWithoutCheck)?;
    for number in 1..=4 {
        let answer = sender.request_ad(format!("CERT {number}").as_bytes())?;
        follow(&mut sender, &mut link, answer)?;
    }
    while sender.sent() > 0 {
        let answer = sender.control_word(&link.receiver.word())?;
        println!("{} confirmed: {}", answer.confirmed.count, answer.state);
        follow(&mut sender, &mut link, answer)?;
        let answer = sender.tick()?;
        follow(&mut sender, &mut link, answer)?;
    }
    Ok(())
}
