//! The final article number.

use crate::refusal::accepted;
use crate::{raw, Refusal};

/// Room for any final article number, in bytes.
pub const NUMBER_ROOM: usize = 1256;

/// The final article number, in Latin-1: the base number with the properties' values. It is written to `room`; [`NUMBER_ROOM`]
/// bytes are enough for any. [`final_number_of`](crate::final_number_of) brings its own room.
pub fn final_number<'r>(book: &[u8], question: &[u8], room: &'r mut [u8]) -> Result<&'r [u8], Refusal> {
    // Sound: each pointer goes with the length of its slice, and a slice that is lent to be written overlaps no other.
    let answer = unsafe {
        raw::rafttwine_final_number(book.as_ptr(), book.len(), question.as_ptr(), question.len(), room.as_mut_ptr(), room.len())
    };
    accepted(answer.number)?;
    Ok(&room[..answer.length as usize])
}
