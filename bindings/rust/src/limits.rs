//! The limits of document 01, some of them moved by orders 7 and 9 of document 02, those of its
//! order 8, and the octets of what crosses, as include/pondreszi.h names them.

/// The octets of the smallest transfer frame, with its FECF.
pub const SMALLEST_FRAME: usize = 8;

/// The octets of the largest transfer frame, with its FECF.
pub const LARGEST_FRAME: usize = 1024;

/// The octets of the smallest unit (FDU).
pub const SMALLEST_UNIT: usize = 1;

/// The octets of the largest unit (FDU).
pub const LARGEST_UNIT: usize = 1017;

/// The octets of a frame before its data field.
pub const FRAME_HEADER_OCTETS: usize = 5;

/// The octets that may follow a frame out of a CLTU.
pub const LARGEST_FILL: usize = 6;

/// The octets of the CLTU of the smallest frame.
pub const SMALLEST_CLTU: usize = 26;

/// The octets of the CLTU of the largest frame.
pub const LARGEST_CLTU: usize = 1186;

/// The octets that [`crate::cltu::read_into`] takes at the most.
pub const LARGEST_CLTU_INPUT: usize = 4096;

/// The octets that one frame's CLTU decodes to at the most: those of the frame and fill.
pub const LARGEST_DECODED_FRAME: usize = 1029;

/// The octets that any input decodes to at the most: 510 codeblocks of seven.
pub const LARGEST_DECODED: usize = 3570;

/// The octets of information of a codeblock.
pub const CODEBLOCK_INFORMATION_OCTETS: usize = 7;

/// The octets of a codeblock.
pub const CODEBLOCK_OCTETS: usize = 8;

/// The octets of a control word.
pub const CLCW_OCTETS: usize = 4;

/// The largest spacecraft; the smallest is 0.
pub const LARGEST_SPACECRAFT: u16 = 1023;

/// The largest virtual channel; the smallest is 0.
pub const LARGEST_CHANNEL: u8 = 63;

/// The largest sequence number: N(S), V(S), V(R), NN(R) and N(R); the smallest is 0.
pub const LARGEST_NUMBER: u8 = 255;

/// The largest FARM-B counter; the smallest is 0.
pub const LARGEST_COUNTER: u8 = 3;

/// The smallest FARM_Sliding_Window_Width W, which is even.
pub const SMALLEST_WINDOW: u8 = 2;

/// The largest FARM_Sliding_Window_Width W.
pub const LARGEST_WINDOW: u8 = 254;

/// The fewest receiver buffers for AD units.
pub const SMALLEST_BUFFERS: u8 = 1;

/// The most receiver buffers for AD units.
pub const LARGEST_BUFFERS: u8 = 8;

/// The most channels of a receiver of several, a record each.
pub const LARGEST_RECORDS: usize = 8;

/// The fewest buffers for AD units that several channels share.
pub const SMALLEST_POOL: u8 = 1;

/// The most buffers for AD units that several channels share.
pub const LARGEST_POOL: u8 = 16;

/// The smallest FOP_Sliding_Window_Width K.
pub const SMALLEST_K: u8 = 1;

/// The largest FOP_Sliding_Window_Width K.
pub const LARGEST_K: u8 = 127;

/// The smallest T1_Initial, in ticks.
pub const SMALLEST_T1: u16 = 1;

/// The largest T1_Initial, in ticks.
pub const LARGEST_T1: u16 = 65_535;

/// The smallest Transmission_Limit.
pub const SMALLEST_TRANSMISSION_LIMIT: u8 = 1;

/// The largest Transmission_Limit.
pub const LARGEST_TRANSMISSION_LIMIT: u8 = 255;

/// The largest Timeout_Type ([`crate::TimeoutType`]); the smallest is 0.
pub const LARGEST_TIMEOUT_TYPE: u8 = 1;

/// The largest Suspend_State, the number of the state that a suspension left; 0 where nothing is
/// suspended.
pub const LARGEST_SUSPEND_STATE: u8 = 4;

/// The octets that the store of a sender must have: places for K units sent and one waiting, each
/// of the largest length.
///
/// ```
/// assert_eq!(pondreszi::store_octets(1), 2034);
/// assert_eq!(pondreszi::store_octets(127), pondreszi::LARGEST_STORE);
/// ```
pub const fn store_octets(k: u8) -> usize {
    (k as usize + 1) * LARGEST_UNIT
}

/// The octets that the store must have where so many units are on the sent queue: as many as for
/// K, or where K was set below them as many as for these.
///
/// ```
/// assert_eq!(pondreszi::store_need(4, 3), pondreszi::store_octets(4));
/// assert_eq!(pondreszi::store_need(1, 3), pondreszi::store_octets(3));
/// ```
pub const fn store_need(k: u8, sent: u8) -> usize {
    store_octets(if k > sent { k } else { sent })
}

/// The octets of a store that is enough for any K.
pub const LARGEST_STORE: usize = store_octets(LARGEST_K);

/// The octets of a sender's state.
pub const SENDER_STATE_OCTETS: usize = 278;

/// The octets of the answer to a sender's event.
pub const ANSWER_OCTETS: usize = 18;

/// The octets of a receiver's state.
pub const RECEIVER_STATE_OCTETS: usize = 12;

/// The octets of the record of one of several channels.
pub const RECORD_OCTETS: usize = 9;

/// The responses of one answer at the most.
pub const LARGEST_RESPONSES: usize = 4;
