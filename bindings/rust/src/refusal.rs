use core::error::Error;
use core::fmt;

use crate::layout::NONE;
use crate::numbered::numbered;

numbered! {
    /// Document 01's refusals, by their names and numbers. Document 02 adds further ones.
    ///
    /// ```
    /// use pondreszi::Refusal;
    /// assert_eq!(Refusal::Check.number(), 8);
    /// assert_eq!(Refusal::from_number(8), Some(Refusal::Check));
    /// assert_eq!(Refusal::from_number(0), None);
    /// ```
    #[non_exhaustive]
    Refusal {
        /// No start sequence in the input, not even with one wrong bit.
        NoStart = 1, "no start",
        /// The first codeblock is bad.
        NoBlock = 2, "no block",
        /// The input ends before a bad codeblock.
        NoEnd = 3, "no end",
        /// Frame below 8 octets, or fewer lent than its header says.
        Short = 4, "short",
        /// More than 6 octets after the frame.
        Fill = 5, "fill",
        /// Version or spare not zero, type (0,1), or a type-B frame's sequence octet not zero.
        Header = 6, "header",
        /// Spacecraft or virtual channel is not ours, of a frame or a control word, or a
        /// channel that is named has no record.
        Address = 7, "address",
        /// The FECF differs.
        Check = 8, "check",
        /// BC data is neither command.
        Command = 9, "command",
        /// Empty unit, a length outside its limits, or a control word not of four octets; never of a
        /// frame that is read.
        Length = 10, "length",
        /// A lent buffer is shorter than the need.
        Room = 11, "room",
        /// A value outside its limit, an unknown directive, or octets that are no state or no
        /// table.
        Setting = 12, "setting",
        /// A buffer release when none is taken.
        Release = 13, "release",
    }
}

impl Refusal {
    /// What document 01 and its amendments give it for.
    pub const fn meaning(self) -> &'static str {
        match self {
            Refusal::NoStart => "no start sequence in the input, not even with one wrong bit",
            Refusal::NoBlock => "the first codeblock is bad",
            Refusal::NoEnd => "the input ends before a bad codeblock",
            Refusal::Short => "frame below 8 octets, or fewer octets than its header says",
            Refusal::Fill => "more than 6 octets after the frame",
            Refusal::Header => {
                "version or spare not zero, type (0,1), or a type-B frame with a sequence number"
            }
            Refusal::Address => "the spacecraft or virtual channel is not the own one",
            Refusal::Check => "the Frame Error Control Field differs",
            Refusal::Command => "the control command is neither Unlock nor Set V(R)",
            Refusal::Length => {
                "empty unit, a length below or above its limit, or a CLCW not of four octets"
            }
            Refusal::Room => "a lent buffer is shorter than the need",
            Refusal::Setting => "a value outside its limit, or an unknown directive",
            Refusal::Release => "a buffer release when none is taken",
        }
    }
}

impl fmt::Display for Refusal {
    fn fmt(&self, f: &mut fmt::Formatter<'_>) -> fmt::Result {
        write!(f, "refusal {}, {}", self.number(), self.name())
    }
}

impl Error for Refusal {}

/// A refusal, and for the CLTU reader's `NoStart`, `NoBlock` and `NoEnd` the place. It
/// changed nothing.
#[derive(Clone, Copy, PartialEq, Eq, Debug)]
#[non_exhaustive]
pub struct Refused {
    /// Why.
    pub refusal: Refusal,
    /// Where reading a CLTU ended: for `NoStart` the input's length, for `NoBlock` the
    /// offset of the bad codeblock, for `NoEnd` the offset where the next would begin.
    pub place: Option<usize>,
}

impl fmt::Display for Refused {
    fn fmt(&self, f: &mut fmt::Formatter<'_>) -> fmt::Result {
        match self.place {
            Some(place) => write!(f, "{}, at octet {place}", self.refusal),
            None => self.refusal.fmt(f),
        }
    }
}

impl Error for Refused {
    fn source(&self) -> Option<&(dyn Error + 'static)> {
        Some(&self.refusal)
    }
}

impl From<Refusal> for Refused {
    fn from(refusal: Refusal) -> Refused {
        Refused {
            refusal,
            place: None,
        }
    }
}

/// What a function of the library returned: done, or a refusal.
pub(crate) fn judged(number: u8) -> Result<(), Refusal> {
    if number == NONE {
        return Ok(());
    }
    Err(Refusal::from_number(number).expect("the library returns 0 to 13"))
}
