//! The CLTU, written and read (clauses 8.3, 8.6 and 8.7).

#[cfg(feature = "alloc")]
use alloc::{vec, vec::Vec};

use crate::library;
use crate::refusal::judged;
use crate::{Mode, Refusal, Refused, CODEBLOCK_INFORMATION_OCTETS, CODEBLOCK_OCTETS};
#[cfg(feature = "alloc")]
use crate::{LARGEST_CLTU, LARGEST_CLTU_INPUT, LARGEST_DECODED};

/// The octets of the CLTU of a frame of so many octets: start sequence, codeblocks, tail.
///
/// ```
/// use pondreszi::{cltu, LARGEST_CLTU, LARGEST_FRAME};
/// assert_eq!(cltu::octets(LARGEST_FRAME), LARGEST_CLTU);
/// ```
pub const fn octets(frame: usize) -> usize {
    START_OCTETS + CODEBLOCK_OCTETS * frame.div_ceil(CODEBLOCK_INFORMATION_OCTETS) + TAIL_OCTETS
}

const START_OCTETS: usize = 2;
const TAIL_OCTETS: usize = 8;

/// Writes the CLTU of a frame of 8 to 1,024 octets.
///
/// ```
/// use pondreszi::{cltu, Refusal};
///
/// let octets = cltu::write(&[0; 8])?;
/// assert_eq!(octets.len(), 26);
/// assert_eq!(octets[..2], [0xEB, 0x90]);
/// assert_eq!(cltu::write(&[0; 7]).unwrap_err().refusal, Refusal::Length);
/// # Ok::<(), pondreszi::Refused>(())
/// ```
#[cfg(feature = "alloc")]
pub fn write(frame: &[u8]) -> Result<Vec<u8>, Refused> {
    let mut output = [0; LARGEST_CLTU];
    let count = write_into(frame, &mut output)?;
    Ok(output[..count].to_vec())
}

/// The CLTU of a frame into the front of a lent output, which needs [`octets`] of them; the count
/// of octets written.
pub fn write_into(frame: &[u8], output: &mut [u8]) -> Result<usize, Refused> {
    let mut count = 0;
    let number = unsafe {
        library::pondreszi_cltu_write(
            frame.as_ptr(),
            frame.len() as u64,
            output.as_mut_ptr(),
            output.len() as u64,
            &mut count,
        )
    };
    judged(number)?;
    Ok(count as usize)
}

/// What was read.
#[cfg(feature = "alloc")]
#[derive(Clone, PartialEq, Eq, Debug)]
#[non_exhaustive]
pub struct Decoded {
    /// The decoded octets, fill included: for [`crate::Receiver::frame`] as they are.
    pub octets: Vec<u8>,
    /// The offset of the codeblock that ended reading, the tail.
    pub place: usize,
    /// The count of corrected codeblocks.
    pub corrected: u64,
}

/// What was read into a lent output.
#[derive(Clone, Copy, PartialEq, Eq, Debug)]
#[non_exhaustive]
pub struct DecodedInto {
    /// The count of decoded octets, fill included.
    pub count: usize,
    /// The offset of the codeblock that ended reading, the tail.
    pub place: usize,
    /// The count of corrected codeblocks.
    pub corrected: u64,
}

/// Reads the first CLTU in up to 4,096 octets, its codeblocks judged in the mode. The first place at an octet boundary that
/// differs from EB 90 in at most one bit counts.
///
/// An earlier near match hides a later exact one. 4,096 octets of noise hold about one
/// such match, so `NoBlock` is the usual answer to noise: read again from the place on.
///
/// ```
/// use pondreszi::{cltu, Mode, Refusal};
///
/// let mut octets = vec![0; 3];
/// octets.extend(cltu::write(&[7; 8])?);
/// let decoded = cltu::read(&octets, Mode::Detecting)?;
/// assert_eq!(decoded.octets[..8], [7; 8]);
/// assert_eq!(decoded.octets.len(), 14);
/// assert_eq!(decoded.place, 3 + 2 + 16);
///
/// octets[3] ^= 1;
/// assert_eq!(cltu::read(&octets, Mode::Detecting)?, decoded);
///
/// octets[5] ^= 1;
/// let refused = cltu::read(&octets, Mode::Detecting).unwrap_err();
/// assert_eq!(refused.refusal, Refusal::NoBlock);
/// assert_eq!(refused.place, Some(5));
///
/// let mended = cltu::read(&octets, Mode::Correcting)?;
/// assert_eq!((mended.octets, mended.corrected), (decoded.octets, 1));
/// # Ok::<(), pondreszi::Refused>(())
/// ```
#[cfg(feature = "alloc")]
pub fn read(input: &[u8], mode: Mode) -> Result<Decoded, Refused> {
    // A longer input is refused whatever the room.
    let room = match input.len() {
        0..=LARGEST_CLTU_INPUT => input.len().min(LARGEST_DECODED),
        _ => 0,
    };
    let mut octets = vec![0; room];
    let decoded = read_into(input, mode, &mut octets)?;
    octets.truncate(decoded.count);
    Ok(Decoded {
        octets,
        place: decoded.place,
        corrected: decoded.corrected,
    })
}

/// Reads as `read` does, into the front of a lent output.
pub fn read_into(input: &[u8], mode: Mode, output: &mut [u8]) -> Result<DecodedInto, Refused> {
    let (mut count, mut place, mut corrected) = (0, 0, 0);
    let number = unsafe {
        library::pondreszi_cltu_read(
            input.as_ptr(),
            input.len() as u64,
            mode.number().into(),
            output.as_mut_ptr(),
            output.len() as u64,
            &mut count,
            &mut place,
            &mut corrected,
        )
    };
    let place = place as usize;
    match judged(number) {
        Ok(()) => Ok(DecodedInto {
            count: count as usize,
            place,
            corrected,
        }),
        Err(refusal @ (Refusal::NoStart | Refusal::NoBlock | Refusal::NoEnd)) => Err(Refused {
            refusal,
            place: Some(place),
        }),
        Err(refusal) => Err(refusal.into()),
    }
}
