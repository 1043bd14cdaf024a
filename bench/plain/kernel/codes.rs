//! The codes that instructions answer.

pub const NOT_FOUND: i32 = -1;
pub const GENERAL: i32 = -2;
pub const CANCEL: i32 = -3;
pub const ARGUMENT: i32 = -6;
pub const BAD_HANDLE: i32 = -8;
pub const OVERFLOW: i32 = -9;
pub const ALREADY_EXISTS: i32 = -11;
pub const DIED: i32 = -13;
pub const IN_USE: i32 = -14;
pub const SERVER_TERMINATED: i32 = -15;
pub const SERVER_BUSY: i32 = -16;
pub const BAD_DESCRIPTOR: i32 = -38;
pub const PERMISSION_DENIED: i32 = -46;

/// The value of a status whose request isn't completed.
pub const PENDING: i32 = -2147483647;
