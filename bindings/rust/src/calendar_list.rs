//! The price calendar as a list of records.

use crate::refusal::accepted;
use crate::{raw, Day, Refusal, Stretch};

/// A place of a list that is lent for a calendar. What the library writes there is read as a [`Stretch`].
#[derive(Clone, Copy, Debug, Default)]
#[repr(transparent)]
pub struct StretchRecord(raw::StretchRecord);

/// The calendar that [`calendar`](crate::calendar()) gives, but for a list of records that is lent in the place of bytes;
/// [`MOST_STRETCHES`](crate::MOST_STRETCHES) records are enough for any.
///
/// ```
/// # use rafttwine::{Article, Book, Cents, Day, PriceRow, Question};
/// # let mut book = Book::new();
/// # book.add(Article::new("A1"))?.add(PriceRow::base("A1", Cents(10_000)))?;
/// # let question = Question::new("A1", Day::new(2024, 6, 29)?).bytes()?;
/// use rafttwine::{StretchRecord, MOST_STRETCHES};
///
/// let mut room = [StretchRecord::default(); MOST_STRETCHES];
/// let stretches = rafttwine::calendar_list(&book, &question, Day::new(2024, 7, 2)?, &mut room)?;
/// assert_eq!(stretches.len(), 1);
/// # Ok::<(), Box<dyn std::error::Error>>(())
/// ```
pub fn calendar_list<'r>(
    book: &[u8],
    question: &[u8],
    end: Day,
    room: &'r mut [StretchRecord],
) -> Result<impl ExactSizeIterator<Item = Stretch> + 'r, Refusal> {
    // Sound: each pointer goes with the length of its slice, a slice that is lent to be written overlaps no other, and a record is
    // laid out as the raw one that it wraps.
    let answer = unsafe {
        raw::rafttwine_calendar_list(
            book.as_ptr(),
            book.len(),
            question.as_ptr(),
            question.len(),
            end.number(),
            room.as_mut_ptr().cast(),
            room.len(),
        )
    };
    accepted(answer.number)?;
    Ok(room[..answer.length as usize].iter().map(|record| Stretch::of(record.0)))
}
