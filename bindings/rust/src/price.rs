//! The price of an article, line by line.

use crate::refusal::accepted;
use crate::{raw, Currency, Factor, Level, OwnedPrice, Refusal};
use std::fmt;

pub(crate) const LINE_BYTES: usize = 16;
pub(crate) const MOST_LINES: usize = 99;

/// Room for the lines of any price, in bytes.
pub const PRICE_ROOM: usize = MOST_LINES * LINE_BYTES;

/// The price of an article, with its lines in a lent room. All amounts are in cents. It is shown as the table that an
/// [`OwnedPrice`] is.
#[derive(Clone, Copy, Debug)]
pub struct Price<'r> {
    /// Of one piece: the sum of the lines' amounts.
    pub unit: i64,
    /// Of the quantity asked for.
    pub total: i64,
    /// The currency of the first base line.
    pub currency: Currency,
    /// Which granted conditions brought no line: the lowest bit for place 1.
    pub unused: u32,
    lines: &'r [u8],
}

impl<'r> Price<'r> {
    pub(crate) fn new(unit: i64, total: i64, currency: Currency, unused: u32, lines: &'r [u8]) -> Price<'r> {
        Price { unit, total, currency, unused, lines }
    }

    /// The lines, in their order.
    pub fn lines(&self) -> Lines<'r> {
        Lines(self.lines.chunks_exact(LINE_BYTES))
    }

    /// The places, from 1, of granted conditions that brought no line.
    pub fn unused_places(&self) -> impl Iterator<Item = u8> {
        let unused = self.unused;
        (1..=32).filter(move |place| unused >> (place - 1) & 1 == 1)
    }
}

/// A line of a price.
#[derive(Clone, Copy, Debug, PartialEq, Eq)]
pub struct Line {
    /// The number of its text.
    pub text: u32,
    /// In which part of the price it stands.
    pub level: Level,
    /// The place, from 1, of the granted condition that brought it.
    pub place: Option<u8>,
    /// Its amount in cents, with the factor in it.
    pub amount: i64,
    /// How many times that condition counts; [`Factor::ONE`] for a line without a condition.
    pub factor: Factor,
}

impl fmt::Display for Price<'_> {
    fn fmt(&self, to: &mut fmt::Formatter<'_>) -> fmt::Result {
        OwnedPrice::from(*self).fmt(to)
    }
}

/// The lines of a price, one after the other.
#[derive(Clone, Debug)]
pub struct Lines<'r>(std::slice::ChunksExact<'r, u8>);

impl Iterator for Lines<'_> {
    type Item = Line;

    fn next(&mut self) -> Option<Line> {
        self.0.next().map(line_of)
    }

    fn size_hint(&self) -> (usize, Option<usize>) {
        self.0.size_hint()
    }
}

impl ExactSizeIterator for Lines<'_> {}

fn line_of(bytes: &[u8]) -> Line {
    let (text, rest) = bytes.split_at(4);
    let (kind, rest) = rest.split_at(2);
    let (amount, factor) = rest.split_at(8);
    Line {
        text: u32::from_be_bytes(text.try_into().expect("four bytes")),
        level: Level::of(kind[0]),
        place: Some(kind[1]).filter(|place| *place != 0),
        amount: i64::from_be_bytes(amount.try_into().expect("eight bytes")),
        factor: Factor::of(factor.try_into().expect("two bytes")),
    }
}

/// The itemised price of the article asked for. Its lines are written to `room`; [`PRICE_ROOM`] bytes are enough for any.
/// [`price_of`](crate::price_of) brings its own room.
///
/// ```
/// # use rafttwine::{Article, Book, Cents, Day, PriceRow, Question};
/// # let mut book = Book::new();
/// # book.add(Article::new("A1"))?.add(PriceRow::base("A1", Cents(10_000)))?;
/// # let question = Question::new("A1", Day::new(2024, 6, 30)?).bytes()?;
/// let mut room = [0; rafttwine::PRICE_ROOM];
/// match rafttwine::price(&book, &question, &mut room) {
///     Ok(price) => assert_eq!(price.lines().map(|line| line.amount).sum::<i64>(), price.unit),
///     Err(reason) => println!("no price: {reason}"),
/// }
/// # Ok::<(), Box<dyn std::error::Error>>(())
/// ```
pub fn price<'r>(book: &[u8], question: &[u8], room: &'r mut [u8]) -> Result<Price<'r>, Refusal> {
    // Sound: each pointer goes with the length of its slice, and a slice that is lent to be written overlaps no other.
    let answer = unsafe {
        raw::rafttwine_price(book.as_ptr(), book.len(), question.as_ptr(), question.len(), room.as_mut_ptr(), room.len())
    };
    accepted(answer.number)?;
    let lines = &room[..answer.lines as usize * LINE_BYTES];
    Ok(Price::new(answer.unit, answer.total, Currency(answer.currency), answer.unused, lines))
}
