//! What can be packed and is hardly meant.

use std::fmt;

use crate::latin_1;

/// A record that is in its layout, and yet does what nobody means, as a condition that is never granted.
#[derive(Clone, Debug, PartialEq, Eq)]
pub struct Warning {
    /// The place of the record in its book, from 1.
    pub record: usize,
    /// The field, as `PriceRow.condition`.
    pub field: &'static str,
    /// What comes of it.
    pub sentence: String,
}

impl fmt::Display for Warning {
    fn fmt(&self, to: &mut fmt::Formatter<'_>) -> fmt::Result {
        write!(to, "record {}, {}: {}", self.record, self.field, self.sentence)
    }
}

/// What is to be said of a record: the field, and what comes of it.
pub(super) type Remark = (&'static str, String);

/// Of a condition that no granted name is ever equal to.
pub(super) fn small_letters(field: &'static str, condition: &str) -> Option<Remark> {
    let small = condition.chars().any(latin_1::is_small);
    small.then(|| {
        (field, format!("{condition:?} has small letters and is never granted, since granted names are raised to capitals"))
    })
}
