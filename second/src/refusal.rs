//! The numbers a caller can get.

pub const DONE: u8 = 0;
pub const BAD_BOOK: u8 = 1;
pub const BAD_QUESTION: u8 = 2;
pub const NO_ARTICLE: u8 = 3;
pub const NO_BASE_LINE: u8 = 4;
pub const OTHER_CURRENCY: u8 = 5;
pub const TOTAL_OUT_OF_RANGE: u8 = 6;
pub const TOO_LITTLE_ROOM: u8 = 7;
pub const NO_PACKAGING: u8 = 8;
pub const BAD_PERIOD: u8 = 9;
// 10 is unused.
pub const BAD_PACKAGING: u8 = 11;
pub const NO_TEXT: u8 = 12;
/// A line of a price file that makes no record, or a price record that makes no line.
pub const BAD_ROW: u8 = 13;
/// A byte of a relation with which no relation goes on there, or a relation that is cut off.
pub const BAD_RELATION: u8 = 14;
/// A parenthesis of a condition that is one too many within one another.
pub const TOO_DEEP: u8 = 15;
/// An assignment that derives one name too many, or what is no name of a condition.
pub const BAD_DERIVED_NAME: u8 = 16;
