//! The packaging data: its implementations, and its vectors.

mod records;
mod refusals;
mod values;

use crate::archive;
use crate::call::{Call, Names};
use crate::document::Cells;
use second::compare::pattern;
use second::make::{self, Article, Packaging, Question, Record};
use second::PackagingAnswer;

type Vector = crate::vector::Vector<PackagingAnswer, u8>;

impl Vector {
    /// The presence bits, the eight values, the gross weight; units as `units` says, else none.
    fn packed(shows: &str, book: &[u8], question: &Question, present: u8, values: [i64; 8], gross: i64) -> Self {
        let answer = PackagingAnswer { gross, values, number: 0, present, units: [0; 9] };
        Vector { answer, ..Vector::refused(shows, book, &question.bytes(), 0) }
    }

    /// Units of length, volume and weight in a row.
    fn units(mut self, units: &[u8; 9]) -> Self {
        self.answer.units = *units;
        self
    }
}

fn example(cells: &Cells) -> (PackagingAnswer, Vec<u8>) {
    let values: Vec<i64> = cells.text("values").split(' ').map(|value| value.parse().expect("a number")).collect();
    let answer = PackagingAnswer {
        gross: cells.number("gross"),
        values: values.try_into().expect("eight values"),
        number: cells.number("number"),
        present: cells.number("present"),
        units: cells.array("units"),
    };
    (answer, Vec::new())
}

pub fn call() -> Call<PackagingAnswer, u8> {
    Call {
        name: "rafttwine_packaging",
        refusals: &[1, 2, 3, 8, 11],
        implementations: &[
            ("second", |lent, _, _| second::packaging(lent[0], lent[1])),
            ("the archive", |lent, _, _| archive::packaging(lent[0], lent[1])),
        ],
        fill: pattern,
        names: Names { strings: &["Book", "Question"], extra: None, room: None },
        example,
        vectors: [values::vectors(), records::vectors(), refusals::vectors()].concat(),
    }
}

// Places of the values in a record.
const WIDTH: usize = 0;
const VOLUME: usize = 3;
const TARE: usize = 4;
const NET: usize = 5;
const ITEMS: usize = 6;
const PACKS: usize = 7;

/// Three zero bytes where a unit would stand.
const NONE: &[u8; 3] = &[0; 3];

/// A record of `A1` without values and units.
fn own(condition: &str) -> Packaging {
    Packaging::new("A1", condition).units(NONE, NONE, NONE)
}

/// The same for any article.
fn any(condition: &str) -> Packaging {
    Packaging::new("*", condition).units(NONE, NONE, NONE)
}

/// A book of `A1` and packaging records.
fn book(records: &[Packaging]) -> Vec<u8> {
    let article: Record = Article::new("A1", "").into();
    make::book(&[&[article], &records.iter().cloned().map(Record::from).collect::<Vec<_>>()[..]].concat())
}

/// The packaging of `A1` with granted names, on a day that does not matter.
fn ask(granted: &[&str]) -> Question {
    Question::new("A1", 20240615).granted(granted)
}
