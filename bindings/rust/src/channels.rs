use crate::layout::record::{CHANNEL, HELD, STATE, VR, WINDOW};
use crate::library;
use crate::refusal::judged;
use crate::{List, ReceiverEvent, ReceiverState, Refusal, Refused, Unit};
use crate::{CLCW_OCTETS, LARGEST_CHANNEL, LARGEST_RECORDS, RECORD_OCTETS};

/// What one of several channels starts with.
#[derive(Clone, Copy, PartialEq, Eq, Debug)]
pub struct ChannelSettings {
    /// The virtual channel, 0 to 63.
    pub channel: u8,
    /// FARM_Sliding_Window_Width W, even, 2 to 254; PW = NW = W / 2.
    pub window: u8,
    /// V(R), the number expected first.
    pub vr: u8,
}

/// What the record of a channel tells. Its flags and counter are in its control word.
#[derive(Clone, Copy, PartialEq, Eq, Debug)]
#[non_exhaustive]
pub struct ChannelRecord {
    /// The virtual channel.
    pub channel: u8,
    /// The state of table 7-9.
    pub state: ReceiverState,
    /// FARM_Sliding_Window_Width W.
    pub window: u8,
    /// The buffers of the pool that its AD units hold.
    pub held: u8,
    /// V(R), the number expected next.
    pub vr: u8,
}

impl ChannelRecord {
    fn from_octets(octets: &[u8]) -> ChannelRecord {
        ChannelRecord {
            channel: octets[CHANNEL],
            state: ReceiverState::from_number(octets[STATE]).expect("a record has a state"),
            window: octets[WINDOW],
            held: octets[HELD],
            vr: octets[VR],
        }
    }
}

/// What a frame did, and on which channel.
#[derive(Clone, Copy, PartialEq, Eq, Debug)]
#[non_exhaustive]
pub struct ChannelReceived<'a> {
    /// The channel whose event it is.
    pub channel: u8,
    /// The event of table 7-9.
    pub event: ReceiverEvent,
    /// The unit accepted, if any.
    pub unit: Option<Unit<'a>>,
}

/// FARM-1 for up to eight virtual channels of one spacecraft (document 02, order 8).
///
/// Each channel has its own window, V(R), flags and counter, which events of the others never
/// change. All share a pool of buffers for AD units, of which none is kept for one channel. On
/// each channel AD units are accepted in order and none twice.
///
/// After every release, name the channels of [`Channels::waiting`] too:
///
/// ```
/// use pondreszi::{frame, ChannelSettings, Channels, ReceiverEvent, ReceiverState};
/// let settings = [3, 5].map(|channel| ChannelSettings { channel, window: 20, vr: 0 });
/// let mut channels = Channels::new(42, 1, &settings)?;
/// let certificate = frame::write_ad(42, 3, 0, b"certificate")?;
/// let schedule = frame::write_ad(42, 5, 0, b"schedule")?;
///
/// // Channel 3 has the only buffer, so channel 5 waits.
/// assert_eq!(channels.frame(&certificate)?.event, ReceiverEvent::E1);
/// assert_eq!(channels.frame(&schedule)?.event, ReceiverEvent::E2);
///
/// // The release of channel 3 alone does not open it.
/// channels.release(3)?;
/// assert_eq!(channels.frame(&schedule)?.event, ReceiverEvent::E2);
/// for channel in channels.waiting() {
///     channels.release(channel)?;
/// }
/// let received = channels.frame(&schedule)?;
/// assert_eq!((received.channel, received.event), (5, ReceiverEvent::E1));
/// # Ok::<(), pondreszi::Refused>(())
/// ```
#[derive(Clone, PartialEq, Eq, Debug)]
pub struct Channels {
    spacecraft: u16,
    pool: u8,
    /// Zero behind the records.
    table: [u8; LARGEST_TABLE],
    records: usize,
}

/// The octets of a table of as many records as there can be.
const LARGEST_TABLE: usize = LARGEST_RECORDS * RECORD_OCTETS;

impl Channels {
    /// The channels at their start: Open, no flags, no buffer held. The pool has 1 to 16
    /// buffers. `Setting` where a value is outside its limit, for more than eight channels, or
    /// for the same one twice. None at all is a receiver that refuses every frame.
    pub fn new(
        spacecraft: u16,
        pool: u8,
        channels: &[ChannelSettings],
    ) -> Result<Channels, Refused> {
        // One record more than a table may have, so that too many channels are refused.
        let mut table = [0; LARGEST_TABLE + RECORD_OCTETS];
        for (record, settings) in table.chunks_exact_mut(RECORD_OCTETS).zip(channels) {
            write_record(settings, record)?;
        }
        let octets = table.len().min(channels.len() * RECORD_OCTETS);
        Channels::restore(spacecraft, pool, &table[..octets])
    }

    /// The channels from octets that were kept, with the same spacecraft and pool; `Setting`
    /// where they are no table, or hold more buffers than the pool has.
    ///
    /// ```
    /// use pondreszi::{ChannelSettings, Channels, Refusal};
    /// let settings = [3, 5].map(|channel| ChannelSettings { channel, window: 20, vr: 0 });
    /// let channels = Channels::new(42, 4, &settings)?;
    /// let mut kept = channels.octets().to_vec();
    /// assert_eq!(Channels::restore(42, 4, &kept)?, channels);
    /// kept.pop();
    /// let refused = Channels::restore(42, 4, &kept).unwrap_err();
    /// assert_eq!(refused.refusal, Refusal::Setting);
    /// # Ok::<(), pondreszi::Refused>(())
    /// ```
    pub fn restore(spacecraft: u16, pool: u8, octets: &[u8]) -> Result<Channels, Refused> {
        // No channel has this number, so that a table is refused with 7, and all else with 12.
        match written_word(spacecraft, pool, octets, LARGEST_CHANNEL + 1) {
            Err(refused) if refused.refusal != Refusal::Address => return Err(refused),
            _ => {}
        }
        let mut table = [0; LARGEST_TABLE];
        table[..octets.len()].copy_from_slice(octets);
        Ok(Channels {
            spacecraft,
            pool,
            table,
            records: octets.len() / RECORD_OCTETS,
        })
    }

    /// The table, to be kept over a reset: a record of 9 octets for each channel, in the order
    /// of [`Channels::new`].
    pub fn octets(&self) -> &[u8] {
        &self.table[..self.records * RECORD_OCTETS]
    }

    fn octets_mut(&mut self) -> &mut [u8] {
        &mut self.table[..self.records * RECORD_OCTETS]
    }

    /// A frame arrives, as [`crate::cltu::read_into`] gives it, for any of the channels. A refusal
    /// is the frame's, and is event E9 of no channel: the frame is discarded and nothing changes.
    /// `Address` means another spacecraft, or none of the channels.
    ///
    /// ```
    /// use pondreszi::{frame, ChannelSettings, Channels, ReceiverEvent, Refusal, Unit};
    /// let settings = ChannelSettings { channel: 3, window: 20, vr: 250 };
    /// let mut channels = Channels::new(42, 4, &[settings])?;
    /// let octets = frame::write_ad(42, 3, 250, b"unit")?;
    /// let received = channels.frame(&octets)?;
    /// assert_eq!((received.channel, received.event), (3, ReceiverEvent::E1));
    /// assert_eq!(received.unit, Some(Unit::Ad(b"unit")));
    /// let others = frame::write_ad(42, 4, 250, b"unit")?;
    /// assert_eq!(channels.frame(&others).unwrap_err().refusal, Refusal::Address);
    /// # Ok::<(), pondreszi::Refused>(())
    /// ```
    pub fn frame<'a>(&mut self, frame: &'a [u8]) -> Result<ChannelReceived<'a>, Refused> {
        let (spacecraft, pool, table) = (self.spacecraft, self.pool, self.octets_mut());
        let (mut event, mut channel, mut unit, mut first, mut count) = (0, 0, 0, 0, 0);
        let number = unsafe {
            library::pondreszi_channels_frame(
                spacecraft.into(),
                pool.into(),
                table.as_mut_ptr(),
                table.len() as u64,
                frame.as_ptr(),
                frame.len() as u64,
                &mut event,
                &mut channel,
                &mut unit,
                &mut first,
                &mut count,
            )
        };
        judged(number)?;
        let event = ReceiverEvent::from_number(event).expect("a frame is an event");
        let part = &frame[first as usize..][..count as usize];
        Ok(ChannelReceived {
            channel,
            event,
            unit: Unit::from_number(unit, part),
        })
    }

    /// The application is done with an AD unit of a channel, so that its buffer is free again
    /// (E10). It is E10 too for a channel of [`Channels::waiting`], and gives nothing back.
    /// `Release` for any other that holds no buffer, `Address` for one that is none of the
    /// channels.
    ///
    /// ```
    /// use pondreszi::{frame, ChannelSettings, Channels, Refusal};
    /// let settings = ChannelSettings { channel: 3, window: 20, vr: 250 };
    /// let mut channels = Channels::new(42, 4, &[settings])?;
    /// assert_eq!(channels.release(3).unwrap_err().refusal, Refusal::Release);
    /// assert_eq!(channels.release(4).unwrap_err().refusal, Refusal::Address);
    /// channels.frame(&frame::write_ad(42, 3, 250, b"unit")?)?;
    /// channels.release(3)?;
    /// # Ok::<(), pondreszi::Refused>(())
    /// ```
    pub fn release(&mut self, channel: u8) -> Result<(), Refused> {
        let (spacecraft, pool, table) = (self.spacecraft, self.pool, self.octets_mut());
        let mut event = 0;
        let number = unsafe {
            library::pondreszi_channels_release(
                spacecraft.into(),
                pool.into(),
                table.as_mut_ptr(),
                table.len() as u64,
                channel.into(),
                &mut event,
            )
        };
        judged(number)?;
        Ok(())
    }

    /// The control word of a channel to send down; `Address` for one that is none of the
    /// channels.
    ///
    /// ```
    /// use pondreszi::{clcw, ChannelSettings, Channels};
    /// let settings = ChannelSettings { channel: 3, window: 20, vr: 250 };
    /// let octets = Channels::new(42, 4, &[settings])?.word(3)?;
    /// assert_eq!(clcw::read(&octets, 3)?.unwrap().word.report, 250);
    /// # Ok::<(), pondreszi::Refused>(())
    /// ```
    pub fn word(&self, channel: u8) -> Result<[u8; CLCW_OCTETS], Refused> {
        written_word(self.spacecraft, self.pool, self.octets(), channel)
    }

    /// The channels' records, in the order of the table.
    pub fn records(&self) -> impl Iterator<Item = ChannelRecord> + '_ {
        self.octets()
            .chunks_exact(RECORD_OCTETS)
            .map(ChannelRecord::from_octets)
    }

    /// The record of a channel, if it is one of them.
    pub fn record(&self, channel: u8) -> Option<ChannelRecord> {
        self.records().find(|record| record.channel == channel)
    }

    /// The buffers of the pool that are taken.
    pub fn buffers_taken(&self) -> u8 {
        self.records().map(|record| record.held).sum()
    }

    /// The channels in Wait that hold no buffer, while the pool has a free one. Name each in
    /// [`Channels::release`], after every release: it opens, and the pool stays as it was.
    /// Nothing else on board opens them. A channel in Wait that holds buffers is not among them:
    /// the release of its next unit opens it.
    pub fn waiting(&self) -> List<u8, LARGEST_RECORDS> {
        let free = self.buffers_taken() < self.pool;
        let waits = |record: &ChannelRecord| {
            free && record.state == ReceiverState::Wait && record.held == 0
        };
        List::of(self.records().filter(waits).map(|record| record.channel), 0)
    }
}

fn written_word(
    spacecraft: u16,
    pool: u8,
    table: &[u8],
    channel: u8,
) -> Result<[u8; CLCW_OCTETS], Refused> {
    let mut output = [0; CLCW_OCTETS];
    let mut count = 0;
    let number = unsafe {
        library::pondreszi_channels_word(
            spacecraft.into(),
            pool.into(),
            table.as_ptr(),
            table.len() as u64,
            channel.into(),
            output.as_mut_ptr(),
            output.len() as u64,
            &mut count,
        )
    };
    judged(number)?;
    Ok(output)
}

fn write_record(settings: &ChannelSettings, record: &mut [u8]) -> Result<(), Refused> {
    let number = unsafe {
        library::pondreszi_channel_new(
            settings.channel.into(),
            settings.window.into(),
            settings.vr.into(),
            record.as_mut_ptr(),
            record.len() as u64,
        )
    };
    judged(number)?;
    Ok(())
}
