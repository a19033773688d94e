//! The price calendar as bytes.

use crate::refusal::accepted;
use crate::{raw, Day, Refusal, Stretch, MOST_STRETCHES};

const STRETCH_BYTES: usize = 20;

/// Room for any calendar, in bytes.
pub const CALENDAR_ROOM: usize = MOST_STRETCHES * STRETCH_BYTES;

/// The stretches of a calendar, one after the other.
#[derive(Clone, Debug)]
pub struct Stretches<'r>(std::slice::ChunksExact<'r, u8>);

impl Iterator for Stretches<'_> {
    type Item = Stretch;

    fn next(&mut self) -> Option<Stretch> {
        self.0.next().map(stretch_of)
    }

    fn size_hint(&self) -> (usize, Option<usize>) {
        self.0.size_hint()
    }
}

impl ExactSizeIterator for Stretches<'_> {}

fn stretch_of(bytes: &[u8]) -> Stretch {
    let day = |at: usize| u32::from_be_bytes(bytes[at..at + 4].try_into().expect("four bytes"));
    Stretch::of(raw::StretchRecord {
        first: day(0),
        last: day(4),
        refusal: bytes[8],
        currency: bytes[9..12].try_into().expect("three bytes"),
        unit: i64::from_be_bytes(bytes[12..].try_into().expect("eight bytes")),
    })
}

/// The price calendar from the question's day to the day `end`, both included: every longest stretch of days with one outcome, in
/// the order of days. It is written to `room`; [`CALENDAR_ROOM`] bytes are enough for any. [`calendar_of`](crate::calendar_of)
/// brings its own room.
///
/// ```
/// # use rafttwine::{Article, Book, Cents, Day, PriceRow, Question};
/// # let mut book = Book::new();
/// # book.add(Article::new("A1"))?.add(PriceRow::base("A1", Cents(10_000)).days(Day::FIRST, Day::new(2024, 6, 30)?))?;
/// # let question = Question::new("A1", Day::new(2024, 6, 29)?).bytes()?;
/// let mut room = [0; rafttwine::CALENDAR_ROOM];
/// let mut stretches = rafttwine::calendar(&book, &question, Day::new(2024, 7, 2)?, &mut room)?;
/// assert_eq!(stretches.next().unwrap().to_string(), "29 June 2024 to 30 June 2024: 100.00 EUR");
/// # Ok::<(), Box<dyn std::error::Error>>(())
/// ```
pub fn calendar<'r>(book: &[u8], question: &[u8], end: Day, room: &'r mut [u8]) -> Result<Stretches<'r>, Refusal> {
    // Sound: each pointer goes with the length of its slice, and a slice that is lent to be written overlaps no other.
    let answer = unsafe {
        raw::rafttwine_calendar(
            book.as_ptr(),
            book.len(),
            question.as_ptr(),
            question.len(),
            end.number(),
            room.as_mut_ptr(),
            room.len(),
        )
    };
    accepted(answer.number)?;
    Ok(Stretches(room[..answer.length as usize].chunks_exact(STRETCH_BYTES)))
}
