//! The calls that derive conditions by a relation: their implementations, and how their vectors are written.

mod lists;
mod places;
mod prices;
mod questions;
mod truths;

use crate::archive;
use crate::call::{Call, Names};
use crate::document::Cells;
use crate::parts::{ask, DAY};
use second::compare::pattern;
use second::make::{self, latin1, Listed, Question};
use second::{DerivedAnswer, Placed};

type Vector = crate::vector::Vector<Placed, u8>;
type Priced = crate::vector::Vector<DerivedAnswer, u8>;

const WRONG: u8 = 14;
const DEEP: u8 = 15;
const UNFIT: u8 = 16;

/// A red desk, 900 wide, stained green: its finish is listed without a value and then with one, its marks have no capitals, and of
/// others nothing is listed.
fn desk() -> Vec<u8> {
    make::properties(&[
        Listed::text("Colour", "rot"),
        Listed::number("WIDTH", 900),
        Listed::none("FINISH"),
        Listed::text("FINISH", "OIL"),
        Listed::text("STAIN", "Gr\u{fc}n"),
        Listed::text("MARKS", "\u{df}\u{f7}\u{ff}"),
    ])
}

/// A list without properties.
fn nothing() -> Vec<u8> {
    make::properties(&[])
}

/// A relation that derives these names for a question without any, with five bytes more room than they need.
fn derives(shows: &str, question: &Question, properties: &[u8], relation: &str, names: &[&str]) -> Vector {
    let written = question.clone().granted(names).bytes();
    let answer = Placed { length: written.len() as u64, place: 0, number: 0 };
    let strings = [&question.bytes()[..], properties, &latin1(relation)];
    Vector { room: written.len() + 5, answer, written, ..Vector::refused_all(shows, &strings, 0) }
}

/// A condition on the desk grants the name X, or it does not.
fn granted(condition: &str) -> Vector {
    derives(condition, &ask(DAY), &desk(), &under(condition), &["X"])
}

fn lost(condition: &str) -> Vector {
    derives(condition, &ask(DAY), &desk(), &under(condition), &[])
}

/// The name X under a condition, which then begins at place 17.
fn under(condition: &str) -> String {
    format!("$VARCOND='X' IF {condition}")
}

/// A relation over the desk that is refused at a place.
fn refused(relation: &str, number: u8, place: u64) -> Vector {
    Vector::refused_all(relation, &[&ask(DAY).bytes(), &desk(), &latin1(relation)], number).at(place)
}

fn example(cells: &Cells) -> (Placed, Vec<u8>) {
    let answer = Placed { length: cells.number("length"), place: cells.number("place"), number: cells.number("number") };
    (answer, cells.bytes("Written"))
}

fn priced_example(cells: &Cells) -> (DerivedAnswer, Vec<u8>) {
    let answer = DerivedAnswer {
        unit: cells.number("unit"),
        total: cells.number("total"),
        lines: cells.number("lines"),
        place: cells.number("place"),
        unused: cells.number("unused"),
        unused_count: cells.number("unused_count"),
        number: cells.number("number"),
        currency: cells.array("currency"),
    };
    (answer, cells.bytes("Written"))
}

pub fn derive_call() -> Call<Placed, u8> {
    Call {
        name: "rafttwine_derive",
        refusals: &[2, WRONG, DEEP, UNFIT, 7],
        implementations: &[
            ("second", |lent, _, out| second::derive(lent[0], lent[1], lent[2], out)),
            ("the archive", |lent, _, out| archive::derive(lent[0], lent[1], lent[2], out)),
        ],
        fill: pattern,
        names: Names { strings: &["Question", "Properties", "Relation"], extra: None, room: Some("Room") },
        example,
        vectors: [questions::vectors(), lists::vectors(), truths::vectors(), places::vectors()].concat(),
    }
}

pub fn price_call() -> Call<DerivedAnswer, u8> {
    Call {
        name: "rafttwine_price_derived",
        refusals: &[1, 2, WRONG, DEEP, UNFIT, 3, 4, 5, 6, 7],
        implementations: &[
            ("second", |lent, _, out| second::price_derived(lent[0], lent[1], lent[2], lent[3], out)),
            ("the archive", |lent, _, out| archive::price_derived(lent[0], lent[1], lent[2], lent[3], out)),
        ],
        fill: pattern,
        names: Names { strings: &["Book", "Question", "Properties", "Relation"], extra: None, room: Some("Room") },
        example: priced_example,
        vectors: prices::vectors(),
    }
}
