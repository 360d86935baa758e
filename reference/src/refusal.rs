//! The refusal numbers, each under the name of what it is given for.

pub const LINE: u8 = 1;
pub const COUNT: u8 = 2;
pub const KIND: u8 = 3;
pub const PAYLOAD: u8 = 4;
pub const TOO_MANY: u8 = 5;
pub const TWICE: u8 = 6;
pub const INCOMPLETE: u8 = 7;
pub const NOT_WHOLE: u8 = 8;
pub const STEP_65: u8 = 9;
pub const BUFFER: u8 = 10;
pub const NO_STEP: u8 = 11;
pub const NO_UNDO: u8 = 12;
pub const NO_REDO: u8 = 13;
pub const LOG_FULL: u8 = 14;
pub const STORE: u8 = 15;
pub const AGENTS_DIFFER: u8 = 16;
pub const SESSION: u8 = 17;
pub const INPUT: u8 = 18;
pub const SHEET_41: u8 = 19;
pub const OTHER_LAW: u8 = 20;
