//! The calendar's two calls, as bytes and as a list: their implementations, and a vector that runs through both.

mod days;
mod refusals;
mod stretches;

use crate::archive;
use crate::call::{Call, Names};
use crate::document::Cells;
use crate::vector;
use second::compare::{list_pattern, pattern};
use second::make::Question;
use second::{CalendarAnswer, Stretch};

/// How a stretch is written as 20 bytes.
fn stretch_bytes(stretch: &Stretch) -> Vec<u8> {
    let Stretch { first, last, unit, refusal, currency } = stretch;
    [&first.to_be_bytes()[..], &last.to_be_bytes(), &[*refusal], currency, &unit.to_be_bytes()].concat()
}

/// The stretch that 20 bytes are.
fn stretch_of(bytes: &[u8]) -> Stretch {
    let four = |place: usize| u32::from_be_bytes(bytes[place..place + 4].try_into().expect("four bytes"));
    let unit = i64::from_be_bytes(bytes[12..].try_into().expect("a stretch of 20 bytes"));
    Stretch { first: four(0), last: four(4), unit, refusal: bytes[8], currency: [bytes[9], bytes[10], bytes[11]] }
}

/// Days with a unit total in euros.
fn at(first: u32, last: u32, unit: i64) -> Stretch {
    Stretch { first, last, unit, refusal: 0, currency: *b"EUR" }
}

/// Refused days.
fn without(first: u32, last: u32, refusal: u8) -> Stretch {
    Stretch { first, last, unit: 0, refusal, currency: [0; 3] }
}

/// A vector for both calls.
#[derive(Clone)]
struct Vector {
    bytes: vector::Vector<CalendarAnswer, u8>,
    list: vector::Vector<CalendarAnswer, Stretch>,
}

impl Vector {
    /// With seven bytes and two records more room than are needed.
    fn new(shows: &str, book: &[u8], question: &Question, end: u32, stretches: &[Stretch]) -> Self {
        let mut vector = Vector::refused(shows, book, &question.bytes(), end, 0);
        vector.bytes.written = stretches.iter().flat_map(stretch_bytes).collect();
        vector.bytes.answer.length = vector.bytes.written.len() as u64;
        vector.list.written = stretches.to_vec();
        vector.list.answer.length = stretches.len() as u64;
        vector.room(20 * stretches.len() + 7, stretches.len() + 2)
    }

    fn refused(shows: &str, book: &[u8], question: &[u8], end: u32, number: u8) -> Self {
        Vector {
            bytes: vector::Vector::refused(shows, book, question, number).extra(end),
            list: vector::Vector::refused(shows, book, question, number).extra(end),
        }
    }

    fn room(self, bytes: usize, records: usize) -> Self {
        Vector { bytes: self.bytes.room(bytes), list: self.list.room(records) }
    }
}

fn vectors() -> Vec<Vector> {
    [stretches::vectors(), days::vectors(), refusals::vectors()].concat()
}

const REFUSALS: &[u8] = &[1, 2, 9, 3, 7];

fn example(cells: &Cells) -> (CalendarAnswer, Vec<u8>) {
    (CalendarAnswer { length: cells.number("length"), number: cells.number("number") }, cells.bytes("Written"))
}

/// The same stretches as records.
fn list_example(cells: &Cells) -> (CalendarAnswer, Vec<Stretch>) {
    let (written, bytes) = example(cells);
    (CalendarAnswer { length: written.length / 20, ..written }, bytes.chunks(20).map(stretch_of).collect())
}

pub fn call() -> Call<CalendarAnswer, u8> {
    Call {
        name: "rafttwine_calendar",
        refusals: REFUSALS,
        implementations: &[
            ("second", |lent, end, out| second::calendar(lent[0], lent[1], end, out)),
            ("the archive", |lent, end, out| archive::calendar(lent[0], lent[1], end, out)),
        ],
        fill: pattern,
        names: Names { strings: &["Book", "Question"], extra: Some("End"), room: Some("Room") },
        example,
        vectors: vectors().into_iter().map(|vector| vector.bytes).collect(),
    }
}

pub fn list_call() -> Call<CalendarAnswer, Stretch> {
    Call {
        name: "rafttwine_calendar_list",
        refusals: REFUSALS,
        implementations: &[
            ("second", |lent, end, out| second::calendar_list(lent[0], lent[1], end, out)),
            ("the archive", |lent, end, out| archive::calendar_list(lent[0], lent[1], end, out)),
        ],
        fill: list_pattern,
        names: Names { strings: &["Book", "Question"], extra: Some("End"), room: Some("Room in records") },
        example: list_example,
        vectors: vectors().into_iter().map(|vector| vector.list).collect(),
    }
}
