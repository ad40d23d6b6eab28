//! The TC Transfer Frame, written and read (clauses 6.2 and 6.4 to 6.8).
//!
//! A [`crate::Sender`] writes its own frames and a [`crate::Receiver`] reads its own;
//! these functions are for units without them, and for tests.

#[cfg(feature = "alloc")]
use alloc::vec::Vec;

use crate::library;
use crate::numbered::{displayed_by_name, numbered};
use crate::refusal::judged;
#[cfg(feature = "alloc")]
use crate::LARGEST_FRAME;
use crate::{LowerLayer, Refused, FRAME_HEADER_OCTETS};

/// Writes a type-AD frame with its N(S).
///
/// ```
/// let octets = pondreszi::frame::write_ad(0x2A5, 3, 255, &[0xAB])?;
/// assert_eq!(octets[..6], [0x02, 0xA5, 0x0C, 0x07, 0xFF, 0xAB]);
/// # Ok::<(), pondreszi::Refused>(())
/// ```
#[cfg(feature = "alloc")]
pub fn write_ad(spacecraft: u16, channel: u8, number: u8, unit: &[u8]) -> Result<Vec<u8>, Refused> {
    written(|output| write_ad_into(spacecraft, channel, number, unit, output))
}

/// A type-AD frame with its N(S) into the front of a lent output; the count of octets written.
///
/// ```
/// let mut output = [0; 8];
/// assert_eq!(pondreszi::frame::write_ad_into(0x2A5, 3, 255, &[0xAB], &mut output)?, 8);
/// assert_eq!(output[..6], [0x02, 0xA5, 0x0C, 0x07, 0xFF, 0xAB]);
/// # Ok::<(), pondreszi::Refused>(())
/// ```
pub fn write_ad_into(
    spacecraft: u16,
    channel: u8,
    number: u8,
    unit: &[u8],
    output: &mut [u8],
) -> Result<usize, Refused> {
    counted(|count| unsafe {
        library::pondreszi_frame_write_ad(
            spacecraft.into(),
            channel.into(),
            number.into(),
            unit.as_ptr(),
            unit.len() as u64,
            output.as_mut_ptr(),
            output.len() as u64,
            count,
        )
    })
}

/// Writes a type-BD frame.
///
/// ```
/// use pondreszi::{frame, Refusal};
/// assert_eq!(frame::write_bd(1, 0, &[0xAB])?.len(), 8);
/// assert_eq!(frame::write_bd(1, 0, &[]).unwrap_err().refusal, Refusal::Length);
/// assert_eq!(frame::write_bd(1024, 0, &[0]).unwrap_err().refusal, Refusal::Setting);
/// # Ok::<(), pondreszi::Refused>(())
/// ```
#[cfg(feature = "alloc")]
pub fn write_bd(spacecraft: u16, channel: u8, unit: &[u8]) -> Result<Vec<u8>, Refused> {
    written(|output| write_bd_into(spacecraft, channel, unit, output))
}

/// A type-BD frame into the front of a lent output; the count of octets written.
pub fn write_bd_into(
    spacecraft: u16,
    channel: u8,
    unit: &[u8],
    output: &mut [u8],
) -> Result<usize, Refused> {
    counted(|count| unsafe {
        library::pondreszi_frame_write_bd(
            spacecraft.into(),
            channel.into(),
            unit.as_ptr(),
            unit.len() as u64,
            output.as_mut_ptr(),
            output.len() as u64,
            count,
        )
    })
}

/// Writes the type-BC frame Unlock.
///
/// ```
/// let octets = pondreszi::frame::write_unlock(1, 0)?;
/// assert_eq!(octets[..6], [0x30, 0x01, 0x00, 0x07, 0x00, 0x00]);
/// # Ok::<(), pondreszi::Refused>(())
/// ```
#[cfg(feature = "alloc")]
pub fn write_unlock(spacecraft: u16, channel: u8) -> Result<Vec<u8>, Refused> {
    written(|output| write_unlock_into(spacecraft, channel, output))
}

/// The type-BC frame Unlock into the front of a lent output; the count of octets written.
pub fn write_unlock_into(
    spacecraft: u16,
    channel: u8,
    output: &mut [u8],
) -> Result<usize, Refused> {
    counted(|count| unsafe {
        library::pondreszi_frame_write_unlock(
            spacecraft.into(),
            channel.into(),
            output.as_mut_ptr(),
            output.len() as u64,
            count,
        )
    })
}

/// Writes the type-BC frame Set V(R).
///
/// ```
/// let octets = pondreszi::frame::write_set_vr(1, 0, 5)?;
/// assert_eq!(octets[..8], [0x30, 0x01, 0x00, 0x09, 0x00, 0x82, 0x00, 0x05]);
/// # Ok::<(), pondreszi::Refused>(())
/// ```
#[cfg(feature = "alloc")]
pub fn write_set_vr(spacecraft: u16, channel: u8, value: u8) -> Result<Vec<u8>, Refused> {
    written(|output| write_set_vr_into(spacecraft, channel, value, output))
}

/// The type-BC frame Set V(R) into the front of a lent output; the count of octets written.
pub fn write_set_vr_into(
    spacecraft: u16,
    channel: u8,
    value: u8,
    output: &mut [u8],
) -> Result<usize, Refused> {
    counted(|count| unsafe {
        library::pondreszi_frame_write_set_vr(
            spacecraft.into(),
            channel.into(),
            value.into(),
            output.as_mut_ptr(),
            output.len() as u64,
            count,
        )
    })
}

fn counted(write: impl FnOnce(*mut u64) -> u8) -> Result<usize, Refused> {
    let mut count = 0;
    judged(write(&mut count))?;
    Ok(count as usize)
}

/// Room for any frame is lent, so that no writer is short of it.
#[cfg(feature = "alloc")]
fn written(write: impl FnOnce(&mut [u8]) -> Result<usize, Refused>) -> Result<Vec<u8>, Refused> {
    let mut output = [0; LARGEST_FRAME];
    let count = write(&mut output)?;
    Ok(output[..count].to_vec())
}

numbered! {
    /// The type of a frame, and of a type-BC frame its command.
    Kind {
        /// A unit in sequence.
        Ad = 1, "AD frame",
        /// A unit out of sequence.
        Bd = 2, "BD frame",
        /// The command Unlock.
        Unlock = 3, "BC frame, Unlock",
        /// The command Set V(R).
        SetVr = 4, "BC frame, Set V(R)",
    }
}

displayed_by_name!(Kind);

impl Kind {
    /// What the lower layer says when it takes a frame of this kind.
    ///
    /// ```
    /// use pondreszi::frame::Kind;
    /// use pondreszi::LowerLayer;
    /// assert_eq!(Kind::Unlock.accept(), LowerLayer::BcAccept);
    /// ```
    pub fn accept(self) -> LowerLayer {
        match self {
            Kind::Ad => LowerLayer::AdAccept,
            Kind::Bd => LowerLayer::BdAccept,
            Kind::Unlock | Kind::SetVr => LowerLayer::BcAccept,
        }
    }

    /// What the lower layer says when it does not.
    pub fn reject(self) -> LowerLayer {
        match self {
            Kind::Ad => LowerLayer::AdReject,
            Kind::Bd => LowerLayer::BdReject,
            Kind::Unlock | Kind::SetVr => LowerLayer::BcReject,
        }
    }
}

/// A frame that was read.
#[derive(Clone, Copy, PartialEq, Eq, Debug)]
#[non_exhaustive]
pub struct Frame<'a> {
    /// Its type.
    pub kind: Kind,
    /// N(S) of an AD frame, the value of Set V(R), otherwise 0.
    pub value: u8,
    /// Its octets, header and FECF included, fill not.
    pub total: usize,
    /// Its data field, a part of the caller's octets.
    pub data: &'a [u8],
}

/// Reads a frame of that spacecraft and channel, with up to 6 octets of fill behind it. It is never
/// refused with `Length`: a header's ten bits say 1,024 octets at the most.
///
/// Of a type-B frame (BD, Unlock, Set V(R)) the sequence octet, `octets[4]`, has to be zero. Document 01
/// said "on reading it isn't looked at"; document 02, order 10, amends this: "A type-B frame whose
/// sequence octet isn't zero is now refusal 6, judged where 6 was judged, and so event E9."
///
/// ```
/// use pondreszi::frame::{self, Kind};
/// use pondreszi::{coding, Refusal};
///
/// let mut octets = frame::write_ad(42, 3, 17, b"unit")?;
/// let read = frame::read(&octets, 42, 3)?;
/// assert_eq!((read.kind, read.value), (Kind::Ad, 17));
/// assert_eq!(read.data, b"unit");
/// assert_eq!(frame::read(&octets, 42, 4).unwrap_err().refusal, Refusal::Address);
/// octets[5] ^= 1;
/// assert_eq!(frame::read(&octets, 42, 3).unwrap_err().refusal, Refusal::Check);
///
/// let mut numbered = frame::write_bd(42, 3, b"unit")?;
/// numbered.truncate(9);
/// numbered[4] = 17;
/// numbered.extend(coding::fecf(&numbered).to_be_bytes());
/// assert_eq!(frame::read(&numbered, 42, 3).unwrap_err().refusal, Refusal::Header);
/// # Ok::<(), pondreszi::Refused>(())
/// ```
pub fn read(octets: &[u8], spacecraft: u16, channel: u8) -> Result<Frame<'_>, Refused> {
    let (mut kind, mut value, mut total, mut field) = (0, 0, 0, 0);
    let number = unsafe {
        library::pondreszi_frame_read(
            octets.as_ptr(),
            octets.len() as u64,
            spacecraft.into(),
            channel.into(),
            &mut kind,
            &mut value,
            &mut total,
            &mut field,
        )
    };
    judged(number)?;
    Ok(Frame {
        kind: Kind::from_number(kind).expect("a frame has a kind"),
        value,
        total: usize::from(total),
        data: &octets[FRAME_HEADER_OCTETS..][..usize::from(field)],
    })
}
