//! The final article number: its implementations, and its vectors.

mod refusals;
mod schemes;
mod values;

use crate::archive;
use crate::call::{Call, Names};
use crate::document::Cells;
use second::compare::pattern;
use second::make::{self, latin1, Article, Question, Scheme};
use second::Written;

type Vector = crate::vector::Vector<Written, u8>;

/// A number that is written, with five bytes more room than it needs.
fn written(shows: &str, book: &[u8], question: &Question, number: &str) -> Vector {
    let written = latin1(number);
    Vector {
        room: written.len() + 5,
        answer: Written { length: written.len() as u64, number: 0 },
        written,
        ..Vector::refused(shows, book, &question.bytes(), 0)
    }
}

fn example(cells: &Cells) -> (Written, Vec<u8>) {
    (Written { length: cells.number("length"), number: cells.number("number") }, cells.bytes("Written"))
}

pub fn call() -> Call<Written, u8> {
    Call {
        name: "rafttwine_final_number",
        refusals: &[1, 2, 3, 7],
        implementations: &[
            ("second", |lent, _, out| second::final_number(lent[0], lent[1], out)),
            ("the archive", |lent, _, out| archive::final_number(lent[0], lent[1], out)),
        ],
        fill: pattern,
        names: Names { strings: &["Book", "Question"], extra: None, room: Some("Room") },
        example,
        vectors: [values::vectors(), schemes::vectors(), refusals::vectors()].concat(),
    }
}

/// A book of one article and its scheme, which must be named `S`.
fn book(article: &str, scheme: Scheme) -> Vec<u8> {
    make::book(&[Article::new(article, "S").into(), scheme.into()])
}

/// The number of an article on a day that does not matter.
fn ask(article: &str) -> Question {
    Question::new(article, 20240615)
}
