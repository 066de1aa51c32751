//! The numbers under which a call is turned down.

pub const SETTINGS: u8 = 1;
pub const SHORT: u8 = 2;
pub const STRANGER: u8 = 3;
pub const BUSY: u8 = 4;
pub const IDLE: u8 = 5;
pub const KIND: u8 = 6;
pub const SPENT: u8 = 7;
pub const STRANGE: u8 = 8;
pub const NARROW: u8 = 10;
pub const BAD_LOG: u8 = 14;
