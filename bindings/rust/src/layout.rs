//! Where the parts of the octets stand that cross: of the states and of a channel's record,
//! which a unit keeps over a reset and may send down as telemetry, and of an answer. Numbers of two octets have the
//! high octet first.

/// What the library tells where there is none: no refusal, event, unit, response, alert or
/// frame.
pub const NONE: u8 = 0;

/// The octets of [`crate::Receiver::octets`].
pub mod receiver {
    /// [`crate::ReceiverState`].
    pub const STATE: usize = 2;
    /// The spacecraft, two octets.
    pub const SPACECRAFT: usize = 3;
    /// The virtual channel.
    pub const CHANNEL: usize = 5;
    /// FARM_Sliding_Window_Width W.
    pub const WINDOW: usize = 6;
    /// The buffers for AD units.
    pub const BUFFERS: usize = 7;
    /// Those of them that are taken.
    pub const TAKEN: usize = 8;
    /// V(R).
    pub const VR: usize = 9;
    /// The flags of [`super::flag`], added.
    pub const FLAGS: usize = 10;
    /// The FARM-B counter.
    pub const COUNTER: usize = 11;
}

/// The octets of each record of [`crate::Channels::octets`].
pub mod record {
    /// [`crate::ReceiverState`].
    pub const STATE: usize = 2;
    /// The virtual channel.
    pub const CHANNEL: usize = 3;
    /// FARM_Sliding_Window_Width W.
    pub const WINDOW: usize = 4;
    /// The buffers of the pool that are held.
    pub const HELD: usize = 5;
    /// V(R).
    pub const VR: usize = 6;
    /// The flags of [`super::flag`], added.
    pub const FLAGS: usize = 7;
    /// The FARM-B counter.
    pub const COUNTER: usize = 8;
}

/// The three flags of a control word, of a receiver's state and of a record.
pub mod flag {
    /// A frame was lost or discarded.
    pub const RETRANSMIT: u8 = 1;
    /// The receiver is in Wait.
    pub const WAIT: u8 = 2;
    /// The receiver is in Lockout.
    pub const LOCKOUT: u8 = 4;
}

/// What a control word tells of the radio.
pub mod rf {
    /// No bit lock.
    pub const NO_BIT_LOCK: u8 = 1;
    /// No RF available.
    pub const NO_RF: u8 = 2;
}

/// The octets of [`crate::Sender::octets`].
pub mod sender {
    /// [`crate::SenderState`].
    pub const STATE: usize = 2;
    /// FOP_Sliding_Window_Width K.
    pub const K: usize = 3;
    /// T1_Initial, two octets.
    pub const T1_INITIAL: usize = 4;
    /// Transmission_Limit.
    pub const TRANSMISSION_LIMIT: usize = 6;
    /// [`crate::TimeoutType`].
    pub const TIMEOUT_TYPE: usize = 7;
    /// The spacecraft, two octets.
    pub const SPACECRAFT: usize = 8;
    /// The virtual channel.
    pub const CHANNEL: usize = 10;
    /// V(S).
    pub const VS: usize = 11;
    /// NN(R).
    pub const NNR: usize = 12;
    /// The ticks left of the timer, two octets; 0 where it is stopped.
    pub const TIMER: usize = 13;
    /// Transmission_Count.
    pub const TRANSMISSION_COUNT: usize = 15;
    /// The flags of [`super::sender_flag`], added.
    pub const FLAGS: usize = 16;
    /// Suspend_State: 0 where nothing is suspended, otherwise the number of the
    /// [`crate::SenderState`] left.
    pub const SUSPEND_STATE: usize = 17;
    /// The units on the sent queue.
    pub const SENT: usize = 18;
    /// Those of them that are to be sent again.
    pub const MARKED: usize = 19;
    /// The type-BC frame on the sent queue: 0 none, 1 Unlock, 2 Set V(R).
    pub const BC_FRAME: usize = 20;
    /// The value of Set V(R).
    pub const BC_VALUE: usize = 21;
    /// The lengths of the 128 places of the store, two octets each.
    pub const LENGTHS: usize = 22;
}

/// The flags of a sender's state.
pub mod sender_flag {
    /// AD_Out_Flag is Ready.
    pub const AD_OUT_READY: u8 = 1;
    /// BC_Out_Flag is Ready.
    pub const BC_OUT_READY: u8 = 2;
    /// BD_Out_Flag is Ready.
    pub const BD_OUT_READY: u8 = 4;
    /// A unit waits.
    pub const UNIT_WAITS: u8 = 8;
    /// The type-BC frame is to be sent again.
    pub const BC_MARKED: u8 = 16;
}

/// The octets of an answer, which [`crate::Answer`] tells by name.
pub mod answer {
    /// The refusal, as returned.
    pub const REFUSAL: usize = 0;
    /// The row of table 7-8.
    pub const EVENT: usize = 1;
    /// [`crate::SenderState`].
    pub const STATE: usize = 2;
    /// The octets of the frame handed down, two octets.
    pub const FRAME: usize = 3;
    /// 1 where the lower layer is to drop frames.
    pub const ABORT: usize = 5;
    /// [`crate::Alert`].
    pub const ALERT: usize = 6;
    /// 1 at the event that suspends: the Suspend notification.
    pub const SUSPENDED: usize = 7;
    /// The count of responses.
    pub const RESPONSES: usize = 8;
    /// The first [`crate::Response`]; the others follow.
    pub const FIRST_RESPONSE: usize = 9;
    /// The number of the first unit confirmed.
    pub const CONFIRMED_FIRST: usize = 13;
    /// The count of units confirmed.
    pub const CONFIRMED: usize = 14;
    /// The number of the first unit denied.
    pub const DENIED_FIRST: usize = 15;
    /// The count of units denied.
    pub const DENIED: usize = 16;
    /// [`crate::frame::Kind`] of the frame handed down.
    pub const KIND: usize = 17;
}
