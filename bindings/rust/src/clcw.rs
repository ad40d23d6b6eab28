//! The control word, CLCW (clause 6.3).

use crate::layout::{flag, rf as radio};
use crate::library;
use crate::refusal::judged;
use crate::{Refused, CLCW_OCTETS};

/// The fields of a control word that FOP-1 and FARM-1 give a meaning.
#[derive(Clone, Copy, PartialEq, Eq, Debug, Default)]
pub struct Clcw {
    /// The virtual channel, 0 to 63.
    pub channel: u8,
    /// The receiver is in Lockout.
    pub lockout: bool,
    /// The receiver is in Wait: a frame was discarded, since no buffer was free.
    pub wait: bool,
    /// A frame was lost or discarded, and is to be sent again.
    pub retransmit: bool,
    /// The FARM-B counter, 0 to 3.
    pub counter: u8,
    /// The report value, V(R).
    pub report: u8,
}

/// A valid control word as it was received, with the fields that are not judged.
#[derive(Clone, Copy, PartialEq, Eq, Debug)]
#[non_exhaustive]
pub struct ReceivedWord {
    /// The fields that have a meaning.
    pub word: Clcw,
    /// The status field, 0 to 7.
    pub status: u8,
    /// No RF available.
    pub no_rf: bool,
    /// No bit lock.
    pub no_bit_lock: bool,
}

/// Writes a control word. A [`crate::Receiver`] writes its own.
///
/// ```
/// use pondreszi::clcw::{self, Clcw};
/// let word = Clcw { channel: 3, counter: 2, report: 17, ..Clcw::default() };
/// assert_eq!(clcw::write(&word)?, [0x01, 0x0C, 0x04, 0x11]);
/// # Ok::<(), pondreszi::Refused>(())
/// ```
pub fn write(word: &Clcw) -> Result<[u8; CLCW_OCTETS], Refused> {
    let mut output = [0; CLCW_OCTETS];
    let mut count = 0;
    let number = unsafe {
        library::pondreszi_clcw_write(
            word.channel.into(),
            word.lockout.into(),
            word.wait.into(),
            word.retransmit.into(),
            word.counter.into(),
            word.report.into(),
            output.as_mut_ptr(),
            output.len() as u64,
            &mut count,
        )
    };
    judged(number)?;
    Ok(output)
}

/// Reads a control word of that channel; none where the four octets are no valid one,
/// which is no refusal.
///
/// ```
/// use pondreszi::{clcw, Refusal};
/// let received = clcw::read(&[0x01, 0x0C, 0x04, 0x11], 3)?.expect("a valid word");
/// assert_eq!(received.word.report, 17);
/// assert_eq!(clcw::read(&[0x81, 0x0C, 0x04, 0x11], 3)?, None);
/// let other = clcw::read(&[0x01, 0x0C, 0x04, 0x11], 4);
/// assert_eq!(other.unwrap_err().refusal, Refusal::Address);
/// # Ok::<(), pondreszi::Refused>(())
/// ```
pub fn read(octets: &[u8], channel: u8) -> Result<Option<ReceivedWord>, Refused> {
    let (mut valid, mut status, mut rf, mut flags, mut counter, mut report) = (0, 0, 0, 0, 0, 0);
    let number = unsafe {
        library::pondreszi_clcw_read(
            octets.as_ptr(),
            octets.len() as u64,
            channel.into(),
            &mut valid,
            &mut status,
            &mut rf,
            &mut flags,
            &mut counter,
            &mut report,
        )
    };
    judged(number)?;
    if valid == 0 {
        return Ok(None);
    }
    Ok(Some(ReceivedWord {
        word: Clcw {
            channel,
            lockout: flags & flag::LOCKOUT != 0,
            wait: flags & flag::WAIT != 0,
            retransmit: flags & flag::RETRANSMIT != 0,
            counter,
            report,
        },
        status,
        no_rf: rf & radio::NO_RF != 0,
        no_bit_lock: rf & radio::NO_BIT_LOCK != 0,
    }))
}
