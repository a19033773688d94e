//! The calls that read and write a maker's price file: their implementations, and how their vectors are written.

mod fields;
mod lines;
mod texts;
mod written;

use crate::archive;
use crate::call::{Call, Names};
use crate::document::Cells;
use crate::parts::base;
use second::compare::pattern;
use second::make::{self, latin1, Price, Record};
use second::Placed;

type Vector = crate::vector::Vector<Placed, u8>;

const BAD_ROW: u8 = 13;

/// A line that makes the record of [`plain`].
const PLAIN: &str = "A1;;S;B;1;;1.00;1;EUR;20240101;20241231;0;";

/// One euro, in all of 2024.
fn plain() -> Price {
    base(0, 100)
}

/// Lent bytes for which others are written, with five bytes more room than they need.
fn done(shows: &str, lent: &[u8], written: Vec<u8>) -> Vector {
    let answer = Placed { length: written.len() as u64, place: 0, number: 0 };
    Vector { room: written.len() + 5, answer, written, ..Vector::refused(shows, lent, &[], 0) }
}

/// A file of Latin-1, and the records that are read.
fn read(shows: &str, file: &str, rows: &[Price]) -> Vector {
    done(shows, &latin1(file), records(rows))
}

/// A file whose first bad line is the one of that number.
fn bad(shows: &str, file: &str, line: u64) -> Vector {
    Vector::refused(shows, &latin1(file), &[], BAD_ROW).at(line)
}

/// The records as they stand in a book, behind its head.
fn records(rows: &[Price]) -> Vec<u8> {
    let records: Vec<Record> = rows.iter().cloned().map(Record::from).collect();
    make::book(&records)[5..].to_vec()
}

fn example(cells: &Cells) -> (Placed, Vec<u8>) {
    let answer = Placed { length: cells.number("length"), place: cells.number("place"), number: cells.number("number") };
    (answer, cells.bytes("Written"))
}

pub fn reader() -> Call<Placed, u8> {
    Call {
        name: "rafttwine_read_prices",
        refusals: &[13, 7],
        implementations: &[
            ("second", |lent, _, out| second::read_prices(lent[0], out)),
            ("the archive", |lent, _, out| archive::read_prices(lent[0], out)),
        ],
        fill: pattern,
        names: Names { strings: &["File"], extra: None, room: Some("Room") },
        example,
        vectors: [lines::vectors(), fields::vectors(), texts::vectors()].concat(),
    }
}

pub fn writer() -> Call<Placed, u8> {
    Call {
        name: "rafttwine_write_prices",
        refusals: &[1, 13, 7],
        implementations: &[
            ("second", |lent, _, out| second::write_prices(lent[0], out)),
            ("the archive", |lent, _, out| archive::write_prices(lent[0], out)),
        ],
        fill: pattern,
        names: Names { strings: &["Book"], extra: None, room: Some("Room") },
        example,
        vectors: written::vectors(),
    }
}
