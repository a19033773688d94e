//! Stretches of a price calendar.

use crate::refusal::accepted;
use crate::{raw, Cents, Currency, Day, Refusal};
use std::fmt;

/// The most stretches that a calendar can have: one for each day of the longest period.
pub const MOST_STRETCHES: usize = 1096;

/// Days in a row with one outcome. It is shown as `1 July 2024 to 31 December 2024: 114.20 EUR`, or with the reason why there is no
/// price.
#[derive(Clone, Copy, Debug, PartialEq, Eq)]
pub struct Stretch {
    /// The first day.
    pub first: Day,
    /// The last day.
    pub last: Day,
    /// What one piece costs on each of these days, or why it has no price.
    pub outcome: Result<DayPrice, Refusal>,
}

/// What one piece costs on a day. It is shown as `114.20 EUR`.
#[derive(Clone, Copy, Debug, PartialEq, Eq)]
pub struct DayPrice {
    /// In cents.
    pub unit: i64,
    /// The currency of the first base line.
    pub currency: Currency,
}

impl Stretch {
    pub(crate) fn of(record: raw::StretchRecord) -> Stretch {
        let raw::StretchRecord { first, last, unit, refusal, currency } = record;
        let day = |number| Day::of_number(number).expect("a calendar has days");
        let outcome = accepted(refusal).map(|()| DayPrice { unit, currency: Currency(currency) });
        Stretch { first: day(first), last: day(last), outcome }
    }
}

impl fmt::Display for DayPrice {
    fn fmt(&self, to: &mut fmt::Formatter<'_>) -> fmt::Result {
        to.pad(&format!("{} {}", Cents(self.unit), self.currency))
    }
}

impl fmt::Display for Stretch {
    fn fmt(&self, to: &mut fmt::Formatter<'_>) -> fmt::Result {
        write!(to, "{}", self.first)?;
        if self.last != self.first {
            write!(to, " to {}", self.last)?;
        }
        match self.outcome {
            Ok(price) => write!(to, ": {price}"),
            Err(reason) => write!(to, ": no price, since {reason}"),
        }
    }
}
