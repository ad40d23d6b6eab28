//! Two ends deliver certificates: every one, once, in order.

mod link;

use link::{certificates, Link};

fn deliver(count: usize, loss: u32, seed: u32) -> Link {
    let units = certificates(count);
    let mut link = Link::new(units.clone(), loss, seed);
    for _ in 0..200_000 {
        if link.is_done() {
            assert_eq!(link.accepted, units);
            return link;
        }
        link.pass();
    }
    panic!("not done: {:?} {:?}", link.sender, link.receiver);
}

#[test]
fn nothing_is_sent_twice_without_loss_or_wait() {
    let link = deliver(2, 0, 1);
    assert_eq!((link.frames, link.alerts), (2, 0));
}

#[test]
fn all_is_delivered_over_a_link_that_loses() {
    for seed in 1..=20 {
        for loss in [0, 5, 20, 40] {
            deliver(300, loss, seed * 7919);
        }
    }
}

#[test]
fn alerts_are_recovered_from() {
    let alerts: usize = (1..=10)
        .map(|seed| deliver(100, 60, seed * 104_729).alerts)
        .sum();
    assert!(alerts > 0);
}
