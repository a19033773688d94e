//! The words that books, questions and answers share.

use std::fmt;

/// Whose price: what a customer pays, or what the maker is paid.
#[derive(Clone, Copy, Debug, PartialEq, Eq, Hash)]
pub enum Sort {
    /// What a customer pays.
    Sale,
    /// What the maker is paid.
    Purchase,
}

/// In which part of a price a line stands; the parts come in this order.
#[derive(Clone, Copy, Debug, PartialEq, Eq, PartialOrd, Ord, Hash)]
pub enum Level {
    /// The base price.
    Base,
    /// A surcharge.
    Surcharge,
    /// A discount.
    Discount,
}

/// What a percentage is of.
#[derive(Clone, Copy, Debug, PartialEq, Eq, Hash)]
pub enum Rule {
    /// Of the base lines.
    OfBase,
    /// Of the total so far.
    OfTotalSoFar,
}

/// To which multiple of its step an amount is rounded.
#[derive(Clone, Copy, Debug, PartialEq, Eq, Hash)]
pub enum Way {
    /// To the one that is not above it.
    Down,
    /// To the one that is not below it.
    Up,
    /// To the nearest, halves to the multiple farther from zero.
    Commercial,
}

impl Sort {
    pub(crate) fn byte(self) -> u8 {
        match self {
            Sort::Sale => b'S',
            Sort::Purchase => b'P',
        }
    }
}

impl Level {
    pub(crate) fn byte(self) -> u8 {
        match self {
            Level::Base => b'B',
            Level::Surcharge => b'X',
            Level::Discount => b'D',
        }
    }

    /// Of a line that the library wrote.
    pub(crate) fn of(byte: u8) -> Level {
        match byte {
            b'B' => Level::Base,
            b'X' => Level::Surcharge,
            _ => Level::Discount,
        }
    }
}

impl fmt::Display for Level {
    fn fmt(&self, to: &mut fmt::Formatter<'_>) -> fmt::Result {
        to.pad(match self {
            Level::Base => "Base price",
            Level::Surcharge => "Surcharge",
            Level::Discount => "Discount",
        })
    }
}

impl Rule {
    pub(crate) fn byte(self) -> u8 {
        match self {
            Rule::OfBase => 1,
            Rule::OfTotalSoFar => 2,
        }
    }
}

impl Way {
    pub(crate) fn byte(self) -> u8 {
        match self {
            Way::Down => 0,
            Way::Up => 1,
            Way::Commercial => 2,
        }
    }
}
