//! The thirteen kinds of steps by the paper's names.

pub const JOIN: u8 = 1;
pub const LEAVE: u8 = 2;
pub const LEARN: u8 = 3;
pub const SEND_UPDATE: u8 = 4;
pub const RECEIVE_UPDATE: u8 = 5;
pub const SEND_WRITE: u8 = 6;
pub const RECEIVE_WRITE: u8 = 7;
pub const CONNECT: u8 = 8;
pub const CLOSE: u8 = 9;
pub const HANDLE_UPDATE: u8 = 10;
pub const HANDLE_WRITE: u8 = 11;
pub const SHUTDOWN: u8 = 12;
pub const STARTUP: u8 = 13;
