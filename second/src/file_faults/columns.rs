//! Which field of a line is which, from 0.

pub const ARTICLE: usize = 0;
pub const CONDITION: usize = 1;
pub const SORT: usize = 2;
pub const LEVEL: usize = 3;
pub const RULE: usize = 4;
pub const TEXT: usize = 5;
pub const VALUE: usize = 6;
pub const FLAG: usize = 7;
pub const CURRENCY: usize = 8;
pub const FROM: usize = 9;
pub const TO: usize = 10;
pub const QUANTITY: usize = 11;
pub const ROUNDING: usize = 12;
