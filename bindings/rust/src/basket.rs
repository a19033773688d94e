//! The prices of a whole basket.

use crate::price::{LINE_BYTES, MOST_LINES};
use crate::refusal::accepted;
use crate::{raw, Currency, Price, Refusal};

/// The most questions that a basket can have.
pub const BASKET_QUESTIONS: usize = 200;

/// Room for any basket, in bytes. [`basket_room`] has that for fewer questions.
pub const BASKET_ROOM: usize = basket_room(BASKET_QUESTIONS);

const ANSWER_BYTES: usize = 33;

/// Room for the answers to so many questions, in bytes, whatever they are.
pub const fn basket_room(questions: usize) -> usize {
    questions * (ANSWER_BYTES + MOST_LINES * LINE_BYTES)
}

/// The prices of a basket, one after the other, each with its lines in the lent room; or why a question has none.
#[derive(Clone, Debug)]
pub struct Basket<'r> {
    answers: std::slice::ChunksExact<'r, u8>,
    lines: &'r [u8],
}

impl<'r> Iterator for Basket<'r> {
    type Item = Result<Price<'r>, Refusal>;

    fn next(&mut self) -> Option<Self::Item> {
        let answer = Answer::of(self.answers.next()?);
        let (own, behind) = self.lines.split_at(answer.lines * LINE_BYTES);
        self.lines = behind;
        Some(accepted(answer.number).map(|()| Price::new(answer.unit, answer.total, answer.currency, answer.unused, own)))
    }

    fn size_hint(&self) -> (usize, Option<usize>) {
        self.answers.size_hint()
    }
}

impl ExactSizeIterator for Basket<'_> {}

/// An answer by its values.
struct Answer {
    number: u8,
    unit: i64,
    total: i64,
    currency: Currency,
    lines: usize,
    unused: u32,
}

impl Answer {
    fn of(bytes: &[u8]) -> Answer {
        let eight = |at: usize| i64::from_be_bytes(bytes[at..at + 8].try_into().expect("eight bytes"));
        Answer {
            number: bytes[0],
            unit: eight(1),
            total: eight(9),
            currency: Currency(bytes[17..20].try_into().expect("three bytes")),
            lines: eight(20) as usize,
            unused: u32::from_be_bytes(bytes[28..32].try_into().expect("four bytes")),
        }
    }
}

/// How many bytes of what was written are answers: as many answers stand there as fill it together with their lines.
fn length_of_answers(written: &[u8]) -> usize {
    let mut length = 0;
    let mut filled = 0;
    while filled < written.len() {
        let answer = &written[length..length + ANSWER_BYTES];
        length += ANSWER_BYTES;
        filled += ANSWER_BYTES + Answer::of(answer).lines * LINE_BYTES;
    }
    length
}

/// The itemised prices of up to [`BASKET_QUESTIONS`] questions that stand end to end, each as [`price`](crate::price()) gives it to
/// the question alone. All is written to `room`; [`BASKET_ROOM`] bytes are enough for any. What is refused as a whole is a broken
/// book, a broken question among the others or too many of them, and a room that is too short.
/// [`basket_of`](crate::basket_of) takes the questions one by one and brings its own room.
///
/// ```
/// # use rafttwine::{Article, Book, Cents, Day, PriceRow, Question};
/// # let mut book = Book::new();
/// # book.add(Article::new("A1"))?.add(PriceRow::base("A1", Cents(10_000)))?;
/// let day = Day::new(2024, 6, 30)?;
/// let questions = [Question::new("A1", day).quantity(4).bytes()?, Question::new("B7", day).bytes()?].concat();
/// let mut room = [0; rafttwine::basket_room(2)];
/// for priced in rafttwine::basket(&book, &questions, &mut room)? {
///     match priced {
///         Ok(price) => assert_eq!((price.total, price.lines().len()), (40_000, 1)),
///         Err(reason) => assert_eq!(reason, rafttwine::Refusal::NoArticle),
///     }
/// }
/// # Ok::<(), Box<dyn std::error::Error>>(())
/// ```
pub fn basket<'r>(book: &[u8], questions: &[u8], room: &'r mut [u8]) -> Result<Basket<'r>, Refusal> {
    // Sound: each pointer goes with the length of its slice, and a slice that is lent to be written overlaps no other.
    let answer = unsafe {
        raw::rafttwine_basket(book.as_ptr(), book.len(), questions.as_ptr(), questions.len(), room.as_mut_ptr(), room.len())
    };
    accepted(answer.number)?;
    let written = &room[..answer.length as usize];
    let (answers, lines) = written.split_at(length_of_answers(written));
    Ok(Basket { answers: answers.chunks_exact(ANSWER_BYTES), lines })
}
