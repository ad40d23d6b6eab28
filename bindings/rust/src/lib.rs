//! The telecommand link of ECSS-E-ST-50-04C, proved, for Rust callers.
//!
//! The uplink unit sends with FOP-1 ([`Sender`]), the receiver on board takes with FARM-1
//! ([`Receiver`], or [`Channels`] for up to eight virtual channels). Between them go transfer
//! frames ([`frame`]) in CLTUs ([`cltu`]) upwards and control words ([`clcw`]) downwards.
//! Every function calls one of the proved library and adds only types: what it answers is
//! what the standard's tables 7-8 and 7-9 and document 01 define, or one of document 01's
//! refusals ([`Refusal`]).
//!
//! Numbers have the smallest type that holds their limit. The library takes them as 32 bits
//! and they are only widened on the way, so that none is cut.
//!
//! The crate needs `core` alone. The feature `alloc`, which is on by default, adds the functions
//! that return a `Vec` and the [`Sender`] that owns its store; each has a counterpart that writes
//! into a lent slice: `.._into`, [`Sender::new_with_store`] and [`Sender::event_into`].
//!
//! What requests can extend is `#[non_exhaustive]`: refusals, and what the functions answer. States,
//! events, alerts and responses are those of the standard's tables, and no more.
//!
//! One unit, there and back:
//!
//! ```
//! use pondreszi::{cltu, Directive, Mode, Receiver, ReceiverSettings};
//! use pondreszi::{Sender, SenderSettings, Unit};
//!
//! # fn main() -> Result<(), Box<dyn std::error::Error>> {
//! let mut receiver = Receiver::new(ReceiverSettings {
//!     spacecraft: 42, channel: 3, window: 20, vr: 0, buffers: 4,
//! })?;
//! let mut sender = Sender::new(SenderSettings {
//!     k: 10, t1_initial: 50, transmission_limit: 3, timeout_type: 0,
//!     spacecraft: 42, channel: 3, vs: 0, nnr: 0,
//! })?;
//! sender.directive(Directive::InitiateWithoutCheck)?;
//!
//! let answer = sender.request_ad(b"CERT 0042 expires 2027-03-01")?;
//! let handed_down = answer.frame.expect("the window is open");
//! sender.lower_layer(handed_down.kind.accept())?;
//!
//! let decoded = cltu::read(&cltu::write(&handed_down.octets)?, Mode::Correcting)?;
//! let received = receiver.frame(&decoded.octets)?;
//! assert_eq!(received.unit, Some(Unit::Ad(b"CERT 0042 expires 2027-03-01")));
//! receiver.release()?;
//!
//! let answer = sender.control_word(&receiver.word())?;
//! assert_eq!((answer.confirmed.first, answer.confirmed.count), (0, 1));
//! # Ok(())
//! # }
//! ```

#![no_std]
#![warn(missing_docs)]

#[cfg(feature = "alloc")]
extern crate alloc;

mod channels;
pub mod clcw;
pub mod cltu;
pub mod coding;
pub mod frame;
pub mod layout;
mod library;
mod limits;
mod list;
mod numbered;
mod receiver;
mod refusal;
mod sender;

pub use channels::{ChannelReceived, ChannelRecord, ChannelSettings, Channels};
pub use coding::Mode;
pub use limits::*;
pub use list::List;
pub use receiver::{Received, Receiver, ReceiverEvent, ReceiverSettings, ReceiverState, Unit};
pub use refusal::{Refusal, Refused};
pub use sender::{
    Alert, Answer, Directive, HandedDown, LowerLayer, RefusedEvent, Response, Run, Sender,
    SenderEvent, SenderSettings, SenderState, TimeoutType,
};

/// Holds the program in README.md to the crate.
#[cfg(all(doctest, feature = "alloc"))]
#[doc = include_str!("../README.md")]
struct Readme;
