//! The parts of channel coding and the FECF, for tests and for tools.

use crate::library;
use crate::numbered::{displayed_by_name, numbered};
use crate::refusal::judged;
use crate::{Refusal, CODEBLOCK_INFORMATION_OCTETS};

/// The error control octet of a codeblock's information, which has seven octets.
///
/// ```
/// assert_eq!(pondreszi::coding::codeblock_error_control(&[0, 0, 0, 0, 0, 0, 1]), 0x74);
/// ```
pub fn codeblock_error_control(information: &[u8]) -> u8 {
    unsafe {
        library::pondreszi_codeblock_error_control(information.as_ptr(), information.len() as u64)
    }
}

numbered! {
    /// The mode in which codeblocks are judged (clause 8.8).
    ///
    /// ```
    /// use pondreszi::Mode;
    /// assert_eq!(Mode::Correcting.number(), 1);
    /// assert_eq!(Mode::from_number(2), None);
    /// ```
    Mode {
        /// A codeblock with a wrong bit is bad.
        Detecting = 0, "detecting",
        /// One wrong bit among its first 63 is corrected; two of its 64 are bad.
        Correcting = 1, "correcting",
    }
}

displayed_by_name!(Mode);

/// A codeblock that is not bad.
#[derive(Clone, Copy, PartialEq, Eq, Debug)]
#[non_exhaustive]
pub struct Codeblock {
    /// Its information, with the corrected bit if it was one of these.
    pub information: [u8; CODEBLOCK_INFORMATION_OCTETS],
    /// Whether one of its bits was corrected, a parity bit too.
    pub corrected: bool,
}

/// Judges the octets as a codeblock, which has eight: bad is [`Refusal::NoBlock`].
///
/// ```
/// use pondreszi::coding::codeblock_judge;
/// use pondreszi::{Mode, Refusal};
///
/// let mut block = [0, 0, 0, 0, 0, 0, 1, 0x74];
/// let good = codeblock_judge(&block, Mode::Detecting)?;
/// assert_eq!((good.information, good.corrected), ([0, 0, 0, 0, 0, 0, 1], false));
///
/// block[3] ^= 0x10;
/// assert_eq!(codeblock_judge(&block, Mode::Detecting), Err(Refusal::NoBlock));
/// let mended = codeblock_judge(&block, Mode::Correcting)?;
/// assert_eq!((mended.information, mended.corrected), (good.information, true));
///
/// // A filler bit of one is bad in both modes; octets that are not eight are refused by their length.
/// block = [0, 0, 0, 0, 0, 0, 1, 0x75];
/// assert_eq!(codeblock_judge(&block, Mode::Correcting), Err(Refusal::NoBlock));
/// assert_eq!(codeblock_judge(&block[1..], Mode::Correcting), Err(Refusal::Length));
/// # Ok::<(), Refusal>(())
/// ```
pub fn codeblock_judge(block: &[u8], mode: Mode) -> Result<Codeblock, Refusal> {
    let mut information = [0; CODEBLOCK_INFORMATION_OCTETS];
    let mut corrected = 0;
    let number = unsafe {
        library::pondreszi_codeblock_judge(
            block.as_ptr(),
            block.len() as u64,
            mode.number().into(),
            information.as_mut_ptr(),
            information.len() as u64,
            &mut corrected,
        )
    };
    judged(number)?;
    Ok(Codeblock {
        information,
        corrected: corrected == 1,
    })
}

/// The octet of the random sequence at a place, 0 for the first.
///
/// ```
/// let first: Vec<u8> = (0..5).map(pondreszi::coding::randomizer_octet).collect();
/// assert_eq!(first, [0xFF, 0x39, 0x9E, 0x5A, 0x68]);
/// ```
pub fn randomizer_octet(place: u64) -> u8 {
    unsafe { library::pondreszi_randomizer_octet(place) }
}

/// The frame error control field of the octets before it.
///
/// ```
/// assert_eq!(pondreszi::coding::fecf(&[0, 0]), 0x1D0F);
/// ```
pub fn fecf(message: &[u8]) -> u16 {
    unsafe { library::pondreszi_fecf(message.as_ptr(), message.len() as u64) }
}
