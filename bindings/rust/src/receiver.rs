use core::fmt;

use crate::layout::receiver::{STATE, TAKEN, VR};
use crate::layout::NONE;
use crate::library;
use crate::numbered::{displayed_by_name, numbered};
use crate::refusal::judged;
use crate::{Refused, CLCW_OCTETS, RECEIVER_STATE_OCTETS};

/// What a receiver starts with.
#[derive(Clone, Copy, PartialEq, Eq, Debug)]
pub struct ReceiverSettings {
    /// The spacecraft, 0 to 1,023.
    pub spacecraft: u16,
    /// The virtual channel, 0 to 63.
    pub channel: u8,
    /// FARM_Sliding_Window_Width W, even, 2 to 254; PW = NW = W / 2.
    pub window: u8,
    /// V(R), the number expected first.
    pub vr: u8,
    /// The buffers for AD units, 1 to 8.
    pub buffers: u8,
}

numbered! {
    /// The states of table 7-9.
    ReceiverState {
        /// S1.
        Open = 1, "Open",
        /// S2: all buffers are taken (of several channels: were), and a frame was discarded.
        Wait = 2, "Wait",
        /// S3: a frame far from the expected number came; only Unlock opens.
        Lockout = 3, "Lockout",
    }
}

numbered! {
    /// The events of table 7-9.
    ReceiverEvent {
        /// AD frame, the expected one, with a free buffer: accepted in Open.
        E1 = 1, "E1",
        /// AD frame, the expected one, no free buffer, or in Wait.
        E2 = 2, "E2",
        /// AD frame ahead of the expected one: one was lost.
        E3 = 3, "E3",
        /// AD frame behind the expected one: it came before.
        E4 = 4, "E4",
        /// AD frame outside both windows: lockout.
        E5 = 5, "E5",
        /// BD frame: accepted in every state.
        E6 = 6, "E6",
        /// Unlock.
        E7 = 7, "E7",
        /// Set V(R).
        E8 = 8, "E8",
        /// A frame that is refused: discarded. [`Receiver::frame`] tells its refusal.
        E9 = 9, "E9",
        /// Buffer release signal. [`Receiver::release`] tells it by `Ok`.
        E10 = 10, "E10",
    }
}

impl fmt::Display for ReceiverState {
    fn fmt(&self, f: &mut fmt::Formatter<'_>) -> fmt::Result {
        write!(f, "{} (S{})", self.name(), self.number())
    }
}

displayed_by_name!(ReceiverEvent);

/// A unit that was accepted, a part of the caller's frame.
#[derive(Clone, Copy, PartialEq, Eq, Debug)]
pub enum Unit<'a> {
    /// The next in sequence. It holds a buffer until [`Receiver::release`] or
    /// [`crate::Channels::release`].
    Ad(&'a [u8]),
    /// One out of sequence, with a buffer of its own that the next overwrites.
    Bd(&'a [u8]),
}

impl<'a> Unit<'a> {
    /// The number that the library has for an AD unit.
    pub const AD: u8 = 1;
    /// The number that the library has for a BD unit.
    pub const BD: u8 = 2;

    /// The unit that the library tells, by its number and the part of the frame.
    pub(crate) fn from_number(number: u8, part: &'a [u8]) -> Option<Unit<'a>> {
        match number {
            NONE => None,
            Unit::AD => Some(Unit::Ad(part)),
            Unit::BD => Some(Unit::Bd(part)),
            _ => unreachable!("the library tells none, AD or BD"),
        }
    }
}

/// What a frame did.
#[derive(Clone, Copy, PartialEq, Eq, Debug)]
#[non_exhaustive]
pub struct Received<'a> {
    /// The event of table 7-9.
    pub event: ReceiverEvent,
    /// The unit accepted, if any.
    pub unit: Option<Unit<'a>>,
}

/// FARM-1, the receiver (table 7-9).
///
/// AD units are accepted in order and none twice. They are to be applied in the order of
/// acceptance.
#[derive(Clone, PartialEq, Eq, Debug)]
pub struct Receiver {
    state: [u8; RECEIVER_STATE_OCTETS],
}

impl Receiver {
    /// A receiver at its start: Open, no flags, no buffer taken.
    ///
    /// ```
    /// use pondreszi::{Receiver, ReceiverSettings, Refusal};
    /// let settings = ReceiverSettings {
    ///     spacecraft: 42, channel: 3, window: 20, vr: 250, buffers: 1,
    /// };
    /// assert_eq!(Receiver::new(settings)?.vr(), 250);
    /// let odd = ReceiverSettings { window: 21, ..settings };
    /// assert_eq!(Receiver::new(odd).unwrap_err().refusal, Refusal::Setting);
    /// # Ok::<(), pondreszi::Refused>(())
    /// ```
    pub fn new(settings: ReceiverSettings) -> Result<Receiver, Refused> {
        let mut state = [0; RECEIVER_STATE_OCTETS];
        let number = unsafe {
            library::pondreszi_receiver_new(
                settings.spacecraft.into(),
                settings.channel.into(),
                settings.window.into(),
                settings.vr.into(),
                settings.buffers.into(),
                state.as_mut_ptr(),
                state.len() as u64,
            )
        };
        judged(number)?;
        Ok(Receiver { state })
    }

    /// A receiver from octets that were kept; `Setting` where they are no state.
    ///
    /// ```
    /// use pondreszi::{Receiver, ReceiverSettings, Refusal};
    /// # let settings = ReceiverSettings {
    /// #     spacecraft: 42, channel: 3, window: 20, vr: 250, buffers: 1,
    /// # };
    /// let receiver = Receiver::new(settings)?;
    /// let mut kept = receiver.octets().to_vec();
    /// assert_eq!(Receiver::restore(&kept)?, receiver);
    /// kept[0] ^= 1;
    /// assert_eq!(Receiver::restore(&kept).unwrap_err().refusal, Refusal::Setting);
    /// # Ok::<(), pondreszi::Refused>(())
    /// ```
    pub fn restore(octets: &[u8]) -> Result<Receiver, Refused> {
        // The control word is given to a state only, and changes nothing.
        written_word(octets)?;
        let state = octets.try_into().expect("a state has 12 octets");
        Ok(Receiver { state })
    }

    /// The state, to be kept over a reset.
    pub fn octets(&self) -> &[u8; RECEIVER_STATE_OCTETS] {
        &self.state
    }

    /// A frame arrives, as [`crate::cltu::read_into`] gives it. A refusal is the frame's, and is
    /// event E9: the frame is discarded and nothing changes.
    ///
    /// ```
    /// use pondreszi::{frame, Receiver, ReceiverEvent, ReceiverSettings, Refusal, Unit};
    /// # let settings = ReceiverSettings {
    /// #     spacecraft: 42, channel: 3, window: 20, vr: 250, buffers: 1,
    /// # };
    /// let mut receiver = Receiver::new(settings)?;
    /// let mut octets = frame::write_ad(42, 3, 250, b"unit")?;
    /// let received = receiver.frame(&octets)?;
    /// assert_eq!(received.event, ReceiverEvent::E1);
    /// assert_eq!(received.unit, Some(Unit::Ad(b"unit")));
    /// // The same frame once more was had before.
    /// let received = receiver.frame(&octets)?;
    /// assert_eq!((received.event, received.unit), (ReceiverEvent::E4, None));
    /// octets[6] ^= 0x10;
    /// assert_eq!(receiver.frame(&octets).unwrap_err().refusal, Refusal::Check);
    /// # Ok::<(), pondreszi::Refused>(())
    /// ```
    pub fn frame<'a>(&mut self, frame: &'a [u8]) -> Result<Received<'a>, Refused> {
        let (mut event, mut unit, mut first, mut count) = (0, 0, 0, 0);
        let number = unsafe {
            library::pondreszi_receiver_frame(
                self.state.as_mut_ptr(),
                self.state.len() as u64,
                frame.as_ptr(),
                frame.len() as u64,
                &mut event,
                &mut unit,
                &mut first,
                &mut count,
            )
        };
        judged(number)?;
        let event = ReceiverEvent::from_number(event).expect("a frame is an event");
        let part = &frame[first as usize..][..count as usize];
        let unit = Unit::from_number(unit, part);
        Ok(Received { event, unit })
    }

    /// The application is done with an AD unit, so that its buffer is free again (E10);
    /// `Release` where none is taken.
    ///
    /// ```
    /// use pondreszi::{frame, Receiver, ReceiverSettings, Refusal};
    /// # let settings = ReceiverSettings {
    /// #     spacecraft: 42, channel: 3, window: 20, vr: 250, buffers: 1,
    /// # };
    /// let mut receiver = Receiver::new(settings)?;
    /// assert_eq!(receiver.release().unwrap_err().refusal, Refusal::Release);
    /// receiver.frame(&frame::write_ad(42, 3, 250, b"unit")?)?;
    /// receiver.release()?;
    /// # Ok::<(), pondreszi::Refused>(())
    /// ```
    pub fn release(&mut self) -> Result<(), Refused> {
        let mut event = 0;
        let number = unsafe {
            library::pondreszi_receiver_release(
                self.state.as_mut_ptr(),
                self.state.len() as u64,
                &mut event,
            )
        };
        judged(number)?;
        Ok(())
    }

    /// The control word to send down.
    ///
    /// ```
    /// use pondreszi::{clcw, Receiver, ReceiverSettings};
    /// # let settings = ReceiverSettings {
    /// #     spacecraft: 42, channel: 3, window: 20, vr: 250, buffers: 1,
    /// # };
    /// let octets = Receiver::new(settings)?.word();
    /// assert_eq!(clcw::read(&octets, 3)?.unwrap().word.report, 250);
    /// # Ok::<(), pondreszi::Refused>(())
    /// ```
    pub fn word(&self) -> [u8; CLCW_OCTETS] {
        written_word(&self.state).expect("a receiver always has a control word")
    }

    /// The state of table 7-9.
    pub fn state(&self) -> ReceiverState {
        ReceiverState::from_number(self.state[STATE]).expect("a receiver has a state")
    }

    /// V(R), the number expected next.
    pub fn vr(&self) -> u8 {
        self.state[VR]
    }

    /// The buffers for AD units that are taken.
    pub fn buffers_taken(&self) -> u8 {
        self.state[TAKEN]
    }
}

fn written_word(state: &[u8]) -> Result<[u8; CLCW_OCTETS], Refused> {
    let mut output = [0; CLCW_OCTETS];
    let mut count = 0;
    let number = unsafe {
        library::pondreszi_receiver_word(
            state.as_ptr(),
            state.len() as u64,
            output.as_mut_ptr(),
            output.len() as u64,
            &mut count,
        )
    };
    judged(number)?;
    Ok(output)
}
