//! The conditions that a maker's relation derives from what was chosen for a planned piece.

use crate::price::LINE_BYTES;
use crate::{raw, Currency, Price, Refusal};
use std::fmt;

/// What 32 names of 20 bytes take, each with its length in front and its factor behind it.
const NAMES_BYTES: usize = 32 * 23;

/// Room for a question of so many bytes with the names that a relation derives.
pub const fn derived_room(question_length: usize) -> usize {
    question_length + NAMES_BYTES
}

/// A place in a relation.
#[derive(Clone, Copy, Debug, PartialEq, Eq, Hash)]
pub struct Spot {
    /// The place of a byte, from 1. It may be one past the last.
    pub byte: u64,
    /// Its line, from 1. A line ends with its line feed.
    pub line: u64,
    /// Which byte of that line it is, from 1.
    pub column: u64,
}

impl Spot {
    fn of(relation: &[u8], byte: u64) -> Spot {
        let before = &relation[..byte as usize - 1];
        let column = before.iter().rev().take_while(|one| **one != b'\n').count() as u64 + 1;
        Spot { byte, line: before.iter().filter(|one| **one == b'\n').count() as u64 + 1, column }
    }
}

impl fmt::Display for Spot {
    fn fmt(&self, to: &mut fmt::Formatter<'_>) -> fmt::Result {
        write!(to, "line {}, column {}", self.line, self.column)
    }
}

/// Why nothing was derived or priced. With [`Refusal::BadRelation`], [`Refusal::DeepRelation`] and [`Refusal::UnfitName`] there is a
/// spot in the relation, with any other refusal none.
#[derive(Clone, Copy, Debug, PartialEq, Eq, Hash)]
pub struct RefusedRelation {
    /// Why.
    pub refusal: Refusal,
    /// Where.
    pub spot: Option<Spot>,
}

impl fmt::Display for RefusedRelation {
    fn fmt(&self, to: &mut fmt::Formatter<'_>) -> fmt::Result {
        match self.spot {
            Some(spot) => write!(to, "{spot}: {}", self.refusal),
            None => self.refusal.fmt(to),
        }
    }
}

impl std::error::Error for RefusedRelation {}

fn accepted(number: u8, place: u64, relation: &[u8]) -> Result<(), RefusedRelation> {
    match Refusal::of(number) {
        None => Ok(()),
        Some(refusal) => Err(RefusedRelation { refusal, spot: (place != 0).then(|| Spot::of(relation, place)) }),
    }
}

/// Writes the question to `room` with the names that a relation derives from the properties, in order, where granted names stand; in
/// a question of version 2 each has the factor 1. The question grants none itself, and all else of it stays.
/// [`derived_room`] is enough. What is written is a question for any other call.
///
/// A relation is in Latin-1. [`PropertyList`](crate::PropertyList) makes the list of properties.
pub fn derive<'r>(question: &[u8], properties: &[u8], relation: &[u8], room: &'r mut [u8]) -> Result<&'r [u8], RefusedRelation> {
    // Sound: each pointer goes with the length of its slice, and a slice that is lent to be written overlaps no other.
    let answer = unsafe {
        raw::rafttwine_derive(
            question.as_ptr(),
            question.len(),
            properties.as_ptr(),
            properties.len(),
            relation.as_ptr(),
            relation.len(),
            room.as_mut_ptr(),
            room.len(),
        )
    };
    accepted(answer.number, answer.place, relation)?;
    Ok(&room[..answer.length as usize])
}

/// The itemised price of the question with the names granted that a relation derives. Its lines are written to `room`;
/// [`PRICE_ROOM`](crate::PRICE_ROOM) bytes are enough for any. Places are those of the names in the order in which they were derived.
pub fn price_derived<'r>(
    book: &[u8],
    question: &[u8],
    properties: &[u8],
    relation: &[u8],
    room: &'r mut [u8],
) -> Result<Price<'r>, RefusedRelation> {
    // Sound: as above.
    let answer = unsafe {
        raw::rafttwine_price_derived(
            book.as_ptr(),
            book.len(),
            question.as_ptr(),
            question.len(),
            properties.as_ptr(),
            properties.len(),
            relation.as_ptr(),
            relation.len(),
            room.as_mut_ptr(),
            room.len(),
        )
    };
    accepted(answer.number, answer.place, relation)?;
    let lines = &room[..answer.lines as usize * LINE_BYTES];
    Ok(Price::new(answer.unit, answer.total, Currency(answer.currency), answer.unused, lines))
}

#[cfg(test)]
mod tests {
    use super::*;

    #[test]
    fn lines_and_columns() {
        let spots = [(1, 1, 1), (2, 1, 2), (3, 1, 3), (4, 2, 1), (5, 3, 1), (6, 3, 2), (7, 3, 3)];
        for (byte, line, column) in spots {
            assert_eq!(Spot::of(b"A\r\n\nB\r", byte), Spot { byte, line, column });
        }
    }
}
