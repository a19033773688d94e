//! The price call: its implementations, and how its vectors are written.

mod choice;
mod currency;
mod factors;
mod granted;
mod refusals;
mod rounding;
mod sums;
mod totals;

use crate::archive;
use crate::call::{Call, Names};
use crate::document::Cells;
use crate::parts::hex;
use second::compare::pattern;
use second::make::Question;
use second::PriceAnswer;

/// A line: text number, level, place of its granted name, amount.
pub type Line = (u32, char, u8, i64);

pub const LINE_BYTES: usize = 16;

/// The factor of a line without a condition, and of every line of a question of version 1.
const ONE: u16 = 1_000;

pub fn line_bytes(line: &Line) -> Vec<u8> {
    line_with(line, ONE)
}

/// A line with its factor behind it.
pub fn line_with((text, level, place, amount): &Line, factor: u16) -> Vec<u8> {
    [&text.to_be_bytes()[..], &[*level as u8, *place], &amount.to_be_bytes(), &factor.to_be_bytes()].concat()
}

type Vector = crate::vector::Vector<PriceAnswer, u8>;

impl Vector {
    /// An answer in euros for one piece with nothing unused, unless more is said, and five bytes more room than are needed.
    fn answered(shows: &str, book: &[u8], question: &Question, lines: &[Vec<u8>], unit: i64) -> Self {
        let written = lines.concat();
        Vector {
            shows: shows.to_string(),
            strings: vec![book.to_vec(), question.bytes()],
            extra: 0,
            room: written.len() + 5,
            answer: PriceAnswer { unit, total: unit, lines: lines.len() as u64, currency: *b"EUR", ..PriceAnswer::default() },
            written,
        }
    }

    fn priced(shows: &str, book: &[u8], question: &Question, lines: &[Line], unit: i64) -> Self {
        let lines: Vec<Vec<u8>> = lines.iter().map(line_bytes).collect();
        Vector::answered(shows, book, question, &lines, unit)
    }

    /// The lines as bytes in hex.
    fn in_hex(shows: &str, book: &[u8], question: &Question, lines: &[&str], unit: i64) -> Self {
        let lines: Vec<Vec<u8>> = lines.iter().map(|line| hex(line).expect("hex digits")).collect();
        Vector::answered(shows, book, question, &lines, unit)
    }

    fn total(mut self, total: i64) -> Self {
        self.answer.total = total;
        self
    }

    fn currency(mut self, currency: &[u8; 3]) -> Self {
        self.answer.currency = *currency;
        self
    }

    fn unused(mut self, set: u32, count: u8) -> Self {
        (self.answer.unused, self.answer.unused_count) = (set, count);
        self
    }
}

fn example(cells: &Cells) -> (PriceAnswer, Vec<u8>) {
    let answer = PriceAnswer {
        unit: cells.number("unit"),
        total: cells.number("total"),
        lines: cells.number("lines"),
        unused: cells.number("unused"),
        unused_count: cells.number("unused_count"),
        number: cells.number("number"),
        currency: cells.array("currency"),
    };
    (answer, cells.bytes("Written"))
}

pub fn call() -> Call<PriceAnswer, u8> {
    let vectors = [
        sums::vectors(),
        choice::vectors(),
        currency::vectors(),
        granted::vectors(),
        factors::vectors(),
        rounding::vectors(),
        totals::vectors(),
        refusals::vectors(),
    ];
    Call {
        name: "rafttwine_price",
        refusals: &[1, 2, 3, 4, 5, 6, 7],
        implementations: &[
            ("second", |lent, _, lines| second::price(lent[0], lent[1], lines)),
            ("the archive", |lent, _, lines| archive::price(lent[0], lent[1], lines)),
        ],
        fill: pattern,
        names: Names { strings: &["Book", "Question"], extra: None, room: Some("Room") },
        example,
        vectors: vectors.concat(),
    }
}
