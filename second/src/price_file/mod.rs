//! The manufacturer's own price file: read into price records of a book, and written from them.

mod lines;
mod read;
mod values;
mod write;

pub use lines::{fields, lines, says_nothing};
pub use read::{read_prices, records};
pub use write::{file_of, write_prices};

use crate::answers::Placed;
use crate::calendar::write as copied;
use crate::refusal::{BAD_ROW, DONE};

/// Something is refused before any byte is written.
#[derive(Debug, Clone, Copy, PartialEq, Eq)]
pub enum Refused {
    /// With a number alone.
    Whole(u8),
    /// With 13 and this place.
    Row(u64),
}

/// What both calls do at their end: the refusals of the room come behind all others.
fn placed(bytes: Result<Vec<u8>, Refused>, out: &mut [u8]) -> Placed {
    match bytes {
        Ok(bytes) => match copied(&bytes, out) {
            Ok(length) => Placed { length, place: 0, number: DONE },
            Err(number) => Placed::refused(number),
        },
        Err(Refused::Whole(number)) => Placed::refused(number),
        Err(Refused::Row(place)) => Placed::refused_at(BAD_ROW, place),
    }
}
