//! The numbers of document 01, Refusals.

pub const DONE: u8 = 0;
pub const NO_START: u8 = 1;
pub const NO_BLOCK: u8 = 2;
pub const NO_END: u8 = 3;
pub const SHORT: u8 = 4;
pub const FILL: u8 = 5;
pub const HEADER: u8 = 6;
pub const ADDRESS: u8 = 7;
pub const CHECK: u8 = 8;
pub const COMMAND: u8 = 9;
pub const LENGTH: u8 = 10;
pub const ROOM: u8 = 11;
pub const SETTING: u8 = 12;
pub const RELEASE: u8 = 13;
