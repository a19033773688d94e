//! Books with a record that makes no line, in front, in the midst and at the end, and broken books.

use super::{empty_case, good_line, row, Fault, FIELDS, FROM, TO};
use crate::cases::Damage;
use crate::file_cases::FileCase;
use crate::file_compare::FileCall;
use crate::make::{self, Article, Packaging, Price, Record, Rounding, Scheme};
use crate::price_file::Refused;
use crate::refusal::BAD_BOOK;

pub fn faults() -> Vec<Fault> {
    let mut faults = no_lines();
    faults.extend(cuts());
    faults
}

fn of_book(what: String, book: Vec<Record>, due: Option<Result<Vec<u8>, Refused>>) -> Fault {
    Fault { what, call: FileCall::Write, case: FileCase { book, ..empty_case() }, due }
}

/// Price records between records of all the other kinds.
fn good_book() -> Vec<Record> {
    vec![
        row().into(),
        Article::new("A1", "").into(),
        row().into(),
        Rounding::new(7, 1, 5).into(),
        Packaging::new("A1", "").value(4, 2_000).into(),
        row().into(),
        row().into(),
        Scheme::new("S1", "", "_").into(),
    ]
}

/// Rows that make no line.
fn spoilt_rows() -> [(&'static str, Price); 7] {
    [
        ("rounding 1", row().rounding(1)),
        ("rounding 7", row().rounding(7)),
        ("rounding 256", row().rounding(256)),
        ("rounding 65,535", row().rounding(u16::MAX)),
        ("from 100,000,000", row().dates(100_000_000, 0)),
        ("to 100,000,000", row().dates(0, 100_000_000)),
        ("to 4,294,967,295", row().dates(0, u32::MAX)),
    ]
}

/// Each price record of the good book spoilt, alone and with another behind it.
fn no_lines() -> Vec<Fault> {
    let good = good_book();
    let mut faults = vec![at_the_bound()];
    for (what, spoilt) in spoilt_rows() {
        for place in (0..good.len()).filter(|&place| matches!(good[place], Record::Price(_))) {
            let due = Some(Err(Refused::Row(make::book(&good[..place]).len() as u64 + 1)));
            let mut book = good.clone();
            book[place] = spoilt.clone().into();
            faults.push(of_book(format!("{what} in record {}", place + 1), book.clone(), due.clone()));
            book.push(row().rounding(1).into());
            faults.push(of_book(format!("{what} in record {} and the last", place + 1), book, due));
        }
    }
    faults
}

/// The good book with a row of the greatest dates behind it, which make a line.
fn at_the_bound() -> Fault {
    let mut book = good_book();
    book.push(row().dates(99_999_999, 99_999_999).into());
    let mut fields = FIELDS;
    (fields[FROM], fields[TO]) = (b"99999999", b"99999999");
    let lines = [good_line(), good_line(), good_line(), good_line(), fields.join(&b';'), Vec::new()].join(&b'\n');
    of_book("the greatest dates".to_string(), book, Some(Ok(lines)))
}

/// Every cut of a book is broken; with its length made right it is so within a record. A byte too many, and each flipped bit,
/// are not worked out here.
fn cuts() -> Vec<Fault> {
    let length = make::book(&good_book()).len();
    let damaged = |what: String, book_damages, due| {
        let case = FileCase { book: good_book(), book_damages, ..empty_case() };
        Fault { what, call: FileCall::Write, case, due }
    };
    let broken = Some(Err(Refused::Whole(BAD_BOOK)));
    let mut faults = Vec::new();
    for end in 0..length {
        faults.push(damaged(format!("a book cut behind {end} bytes"), vec![Damage::KeepFirst(end)], broken.clone()));
        let mended = vec![Damage::KeepFirst(end), Damage::MendLength];
        faults.push(damaged(format!("a book cut behind {end} bytes and mended"), mended, None));
    }
    for (place, bit) in (0..length).flat_map(|place| (0..8).map(move |bit| (place, bit))) {
        let flipped = vec![Damage::Change { place, mask: 1 << bit }];
        faults.push(damaged(format!("bit {bit} of a book's byte {} flipped", place + 1), flipped, None));
    }
    faults.push(damaged("a book with a byte behind it".to_string(), vec![Damage::Append(vec![0])], broken));
    faults
}
