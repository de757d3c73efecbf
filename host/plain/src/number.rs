//! The numbers that a call can answer, as document 01 lists them.

pub const DONE: u32 = 0;
pub const BAD_FORM: u32 = 1;
pub const IMAGE_OVER_LIMIT: u32 = 2;
pub const UNRELATED: u32 = 3;
pub const OVER_DOTS: u32 = 4;
pub const OVER_ENTRIES: u32 = 5;
pub const OVER_VALUES: u32 = 6;
pub const OVER_WAITING: u32 = 7;
pub const OVER_KEYS: u32 = 8;
pub const COUNTER_SPENT: u32 = 9;
pub const SHORT_BUFFER: u32 = 10;
pub const SOURCE_ORDER: u32 = 11;
pub const DOUBLE_SPENT: u32 = 12;
pub const ENDED: u32 = 13;
pub const NO_BAY: u32 = 14;
pub const ENDS_ELSEWHERE: u32 = 16;
pub const TOO_MANY_OPERATIONS: u32 = 17;
pub const TOO_MANY_PEERS: u32 = 18;
pub const FOREIGN: u32 = 19;
pub const SEEN: u32 = 20;
pub const HOLD: u32 = 21;
