//! Price files and books with a fault at a known place, one after the other and the same every time: what is wrong in a field, in a
//! quote or in a byte, every cut and every flipped bit of a good file, lines of a megabyte, and records that make no line. What
//! looks like a fault and is none stands among them.

mod books;
mod bytes;
pub mod columns;
mod fields;
mod long;
mod quotes;

use crate::cases::Room;
use crate::file_cases::FileCase;
use crate::file_compare::FileCall;
use crate::make::{Price, Record};
use crate::price_file::Refused;
use columns::*;

/// A file to read or a book to write from, and what is known of it beforehand.
pub struct Fault {
    pub what: String,
    pub call: FileCall,
    pub case: FileCase,
    /// The bytes to be written or the refusal, worked out by hand; `None` where nothing is known.
    pub due: Option<Result<Vec<u8>, Refused>>,
}

/// All of them, for the reader and then for the writer.
pub fn faults() -> impl Iterator<Item = Fault> {
    [fields::faults, quotes::faults, bytes::faults, long::faults, books::faults].into_iter().flat_map(|faults| faults())
}

impl Fault {
    fn of_file(what: String, file: &[u8], due: Option<Result<Vec<u8>, Refused>>) -> Fault {
        let lines = file.split(|&byte| byte == b'\n').map(|line| vec![line.to_vec()]).collect();
        Fault { what, call: FileCall::Read, case: FileCase { lines, ..empty_case() }, due }
    }

    fn bad_at(what: String, file: &[u8], line: u64) -> Fault {
        Fault::of_file(what, file, Some(Err(Refused::Row(line))))
    }
}

/// Nothing to read and nothing to write from; what is refused gets some room all the same.
fn empty_case() -> FileCase {
    FileCase {
        lines: Vec::new(),
        ended: false,
        file_damages: Vec::new(),
        read_room: Room::Longer(9),
        book: Vec::new(),
        book_damages: Vec::new(),
        write_room: Room::Longer(9),
    }
}

/// The fields of a good line.
const FIELDS: [&[u8]; 13] = [b"A1", b"", b"S", b"B", b"1", b"", b"100.00", b"1", b"EUR", b"20240101", b"20241231", b"0", b""];

/// What the good line says.
fn row() -> Price {
    Price::fixed("A1", b'B', 10_000)
}

fn good_line() -> Vec<u8> {
    FIELDS.join(&b';')
}

/// The good line with one field as given.
fn with(place: usize, field: &[u8]) -> Vec<u8> {
    let mut fields = FIELDS;
    fields[place] = field;
    fields.join(&b';')
}

/// The records of so many good lines.
fn good_records(count: usize) -> Vec<u8> {
    Record::from(row()).bytes().repeat(count)
}

/// The lines before a line and behind it, and how many of them are rows: none, a row on either side, and rows, comments and blank
/// lines, with what only a row could not have.
fn surroundings() -> [(Vec<Vec<u8>>, Vec<Vec<u8>>); 3] {
    let good = good_line();
    let said = |lines: &[&[u8]]| lines.iter().map(|line| line.to_vec()).collect::<Vec<_>>();
    [
        (said(&[]), said(&[])),
        (said(&[&good]), said(&[&good, b""])),
        (said(&[b"# a comment\r", b"", &good, b" \t", b"#\"\0", &good]), said(&[b"#", &good, &good])),
    ]
}

fn rows_among(lines: &[Vec<u8>]) -> usize {
    lines.iter().filter(|line| **line == good_line()).count()
}

/// The line in all surroundings. It says the row that is due, or is bad wherever it stands.
fn surrounded(what: &str, line: &[u8], due: Option<Price>) -> Vec<Fault> {
    let mut faults = Vec::new();
    for (before, behind) in surroundings() {
        let number = before.len() as u64 + 1;
        let file = [&before[..], &[line.to_vec()], &behind[..]].concat().join(&b'\n');
        let what = format!("{what}, in line {number}");
        let due = due.as_ref().map(|row| {
            [good_records(rows_among(&before)), Record::from(row.clone()).bytes(), good_records(rows_among(&behind))].concat()
        });
        faults.push(Fault::of_file(what, &file, Some(due.ok_or(Refused::Row(number)))));
    }
    faults
}

/// Bytes as they are shown in what a fault is called: a long one is cut.
fn shown(bytes: &[u8]) -> String {
    const LONGEST: usize = 60;
    let start: String = bytes.iter().take(LONGEST).flat_map(|byte| byte.escape_ascii()).map(char::from).collect();
    if bytes.len() > LONGEST {
        format!("{start} ...")
    } else {
        start
    }
}
