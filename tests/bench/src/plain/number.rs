//! Causes of refusal and their numbers.

pub type Number = u32;

pub const NO_FORM: Number = 1;
pub const UNKNOWN_CALLER: Number = 2;
pub const MISSING: Number = 3;
pub const NOT_DIRECTORY: Number = 4;
pub const ACCESS: Number = 5;
pub const EXISTS: Number = 6;
pub const WRONG_KIND: Number = 7;
pub const NOT_EMPTY: Number = 8;
pub const RESERVED: Number = 9;
pub const FULL: Number = 10;
pub const INTO_ITSELF: Number = 11;
pub const NO_SESSION: Number = 12;
pub const NO_GRANT: Number = 13;
pub const STALE: Number = 14;
pub const UNTAGGED: Number = 15;
pub const REVISIONS_SPENT: Number = 16;
pub const WRONG_SETUP: Number = 17;
pub const UNSOUND: Number = 18;
pub const TOO_DEEP: Number = 19;
pub const SHORT_ANSWER: Number = 20;
