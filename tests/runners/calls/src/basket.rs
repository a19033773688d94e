//! The basket call: its implementations, and how its vectors are written.

mod answers;
mod many;
mod refusals;

use crate::archive;
use crate::call::{Call, Names};
use crate::document::Cells;
use crate::price::{line_bytes, line_with, Line};
use second::compare::pattern;
use second::make::{self, Question};
use second::Written;

type Vector = crate::vector::Vector<Written, u8>;

/// What one question gets: the 33 bytes of its answer, and its lines.
#[derive(Clone)]
struct Part {
    number: u8,
    unit: i64,
    total: i64,
    currency: [u8; 3],
    unused: (u32, u8),
    lines: Vec<Vec<u8>>,
}

/// A price in euros for one piece with nothing unused, unless more is said.
fn priced(lines: &[Line], unit: i64) -> Part {
    let lines = lines.iter().map(line_bytes).collect();
    Part { number: 0, unit, total: unit, currency: *b"EUR", unused: (0, 0), lines }
}

/// The same, with a factor for each line.
fn priced_times(lines: &[(Line, u16)], unit: i64) -> Part {
    Part { lines: lines.iter().map(|(line, factor)| line_with(line, *factor)).collect(), ..priced(&[], unit) }
}

/// A question without a price: a number and zeros, and no lines.
fn without(number: u8) -> Part {
    Part { number, unit: 0, total: 0, currency: [0; 3], unused: (0, 0), lines: Vec::new() }
}

impl Part {
    fn total(self, total: i64) -> Part {
        Part { total, ..self }
    }

    fn currency(self, currency: &[u8; 3]) -> Part {
        Part { currency: *currency, ..self }
    }

    fn unused(self, set: u32, count: u8) -> Part {
        Part { unused: (set, count), ..self }
    }

    fn answer(&self) -> Vec<u8> {
        let Part { number, unit, total, currency, unused: (set, count), lines } = self;
        let [amounts, lines] = [[unit.to_be_bytes(), total.to_be_bytes()].concat(), (lines.len() as u64).to_be_bytes().to_vec()];
        [&[*number][..], &amounts, currency, &lines, &set.to_be_bytes(), &[*count]].concat()
    }
}

/// A basket that is answered by these bytes, with five bytes more room than they need.
fn written(shows: &str, book: &[u8], questions: &[Question], written: Vec<u8>) -> Vector {
    Vector {
        room: written.len() + 5,
        answer: Written { length: written.len() as u64, number: 0 },
        written,
        ..Vector::refused(shows, book, &make::basket(questions), 0)
    }
}

/// Questions, each with what it gets.
fn answered(shows: &str, book: &[u8], basket: &[(Question, Part)]) -> Vector {
    let (questions, parts): (Vec<Question>, Vec<Part>) = basket.iter().cloned().unzip();
    let answers = parts.iter().flat_map(Part::answer);
    let lines = parts.iter().flat_map(|part| part.lines.concat());
    written(shows, book, &questions, answers.chain(lines).collect())
}

fn example(cells: &Cells) -> (Written, Vec<u8>) {
    (Written { length: cells.number("length"), number: cells.number("number") }, cells.bytes("Written"))
}

pub fn call() -> Call<Written, u8> {
    Call {
        name: "rafttwine_basket",
        refusals: &[1, 2, 7],
        implementations: &[
            ("second", |lent, _, out| second::basket(lent[0], lent[1], out)),
            ("the archive", |lent, _, out| archive::basket(lent[0], lent[1], out)),
        ],
        fill: pattern,
        names: Names { strings: &["Book", "Questions"], extra: None, room: Some("Room") },
        example,
        vectors: [answers::vectors(), many::vectors(), refusals::vectors()].concat(),
    }
}
