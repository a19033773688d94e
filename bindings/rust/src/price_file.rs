//! The maker's own price file, `ocd_price.csv`: to the price records of a book, and back.

use crate::{raw, Refusal};
use std::fmt;

/// Room for the records of a price file of so many bytes.
pub const fn record_room(file_length: usize) -> usize {
    2 * file_length
}

/// Room for the price file of a book of so many bytes.
pub const fn file_room(book_length: usize) -> usize {
    3 * book_length
}

/// Which line of a price file is bad, or where in a book the record starts that no line can say.
#[derive(Clone, Copy, Debug, PartialEq, Eq, Hash)]
pub enum Place {
    /// The number of a line, from 1. Blank lines and remarks are counted too.
    Line(u64),
    /// The place of a byte, from 1.
    Byte(u64),
}

impl fmt::Display for Place {
    fn fmt(&self, to: &mut fmt::Formatter<'_>) -> fmt::Result {
        match self {
            Place::Line(number) => write!(to, "line {number}"),
            Place::Byte(number) => write!(to, "byte {number}"),
        }
    }
}

/// Why a price file was not read or not written. With [`Refusal::BadRow`] there is the place of the first fault, with any other
/// refusal none.
#[derive(Clone, Copy, Debug, PartialEq, Eq, Hash)]
pub struct RefusedAt {
    /// Why.
    pub refusal: Refusal,
    /// Where.
    pub place: Option<Place>,
}

impl fmt::Display for RefusedAt {
    fn fmt(&self, to: &mut fmt::Formatter<'_>) -> fmt::Result {
        match self.place {
            Some(place) => write!(to, "{place}: {}", self.refusal),
            None => self.refusal.fmt(to),
        }
    }
}

impl std::error::Error for RefusedAt {}

/// Writes the price records of a maker's price file to `room`, one behind the other as they stand in a book; [`record_room`] is
/// enough. Names of texts become numbers, 1 for the first name in the file, 2 for the next other one, and so on; a blank one is 0.
/// [`Book::add_price_file`](crate::Book::add_price_file) makes a book of them.
///
/// ```
/// use rafttwine::{read_prices, record_room, Place};
///
/// let file = b"# prices of 2024\nA1;;S;B;1;;100,00;1;EUR;20240101;20241231;0;\n";
/// let bad = read_prices(file, &mut vec![0; record_room(file.len())]).unwrap_err();
/// assert_eq!(bad.place, Some(Place::Line(2)));
/// ```
pub fn read_prices<'r>(file: &[u8], room: &'r mut [u8]) -> Result<&'r [u8], RefusedAt> {
    // Sound: each pointer goes with the length of its slice, and a slice that is lent to be written overlaps no other.
    let answer = unsafe { raw::rafttwine_read_prices(file.as_ptr(), file.len(), room.as_mut_ptr(), room.len()) };
    written(answer, Place::Line, room)
}

/// Writes a price file to `room`, in Latin-1: a line for each price record of the book. [`file_room`] is enough. Reading it gives the
/// same records, with text numbers counted anew.
///
/// ```
/// # use rafttwine::{price_file_of, Book, Cents, PriceRow};
/// let mut book = Book::new();
/// book.add(PriceRow::base("A1", Cents(10_000)).condition("OAK;ASH"))?;
/// assert_eq!(price_file_of(&book)?, b"A1;\"OAK;ASH\";S;B;1;;100.00;1;EUR;00010101;99991231;0;\n");
/// # Ok::<(), Box<dyn std::error::Error>>(())
/// ```
pub fn write_prices<'r>(book: &[u8], room: &'r mut [u8]) -> Result<&'r [u8], RefusedAt> {
    // Sound: as above.
    let answer = unsafe { raw::rafttwine_write_prices(book.as_ptr(), book.len(), room.as_mut_ptr(), room.len()) };
    written(answer, Place::Byte, room)
}

/// What was written, or why nothing was; a place counts what it is asked as.
fn written(answer: raw::Placed, counted: fn(u64) -> Place, room: &mut [u8]) -> Result<&[u8], RefusedAt> {
    match Refusal::of(answer.number) {
        None => Ok(&room[..answer.length as usize]),
        Some(refusal) => Err(RefusedAt { refusal, place: (answer.place != 0).then(|| counted(answer.place)) }),
    }
}
