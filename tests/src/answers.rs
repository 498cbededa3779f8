//! The answers of the calls, by their numbers in docs/PROTOCOL.md, 'Refusals' and 'Walk'. ACCEPTED
//! and the walk's NO_ROUTE and TOO_LONG are not refusals; all others are.

pub const ACCEPTED: u32 = 0;
pub const TABLE_LENGTH: u32 = 1;
pub const SHORT_OUTPUT: u32 = 2;
pub const CLOCK_TOO_LARGE: u32 = 3;
pub const BAD_NEIGHBOUR: u32 = 4;
pub const NO_LINK: u32 = 5;
pub const ELEMENT_LENGTH: u32 = 6;
pub const UNKNOWN_ID: u32 = 7;
pub const BAD_COUNT: u32 = 8;
pub const BAD_ADDRESS: u32 = 9;
pub const BAD_LIST: u32 = 10;
pub const NO_LIFETIME: u32 = 11;
pub const TOO_MANY_HOPS: u32 = 12;
pub const METRIC_TOO_LARGE: u32 = 13;
pub const LOW_TTL: u32 = 14;
pub const NOT_A_TABLE: u32 = 21;
pub const OLD_CLOCK: u32 = 22;
pub const FROM_ITSELF: u32 = 23;
pub const ABOUT_ITSELF: u32 = 24;
pub const STALE: u32 = 25;
pub const NO_MATCH: u32 = 26;
pub const NO_ROOM: u32 = 27;
pub const NO_NEXT_HOP: u32 = 28;
pub const NOT_HELD: u32 = 29;
pub const NO_ROUTE: u32 = 41;
pub const TOO_LONG: u32 = 42;
