//! Acceptance of a book: the library beside a byte sum and a reading in plain Rust.

use crate::books::{self, Book, ALL_KINDS, ANY, LONG, MOST_BYTES, PRICES, SHORT};
use crate::dice::Dice;
use crate::timing::{self, Pass, Row, Subject};
use crate::{library, reference};
use std::time::Duration;

const DAMAGED: usize = 20_000;
const DAMAGED_LARGE: usize = 15;
const ROUNDS: usize = 200;

pub fn measure(dice: &mut Dice) -> Vec<Row> {
    let books = [
        ("price rows, long names", PRICES, LONG),
        ("price rows, short names", PRICES, SHORT),
        ("all five kinds mixed", ALL_KINDS, ANY),
        ("articles alone", &[1], ANY),
        ("price rows alone", PRICES, ANY),
        ("roundings alone", &[3], ANY),
        ("packagings alone", &[4], ANY),
        ("schemes alone", &[5], ANY),
    ]
    .map(|(what, kinds, names)| (what, books::book(dice, kinds, names, usize::MAX, MOST_BYTES)));
    agree(dice, &books);
    time(&books)
}

/// Both accept the large books, and both say the same of damaged ones, small and large.
fn agree(dice: &mut Dice, books: &[(&str, Book)]) {
    for (what, book) in books {
        assert!(reference::book_ok(&book.bytes), "the reference refuses the book of {what}");
        assert!(library::book_ok(&book.bytes), "the library refuses the book of {what}");
    }
    let mut accepted = 0;
    for _ in 0..DAMAGED {
        accepted += usize::from(same(&books::damaged(dice)));
    }
    println!("{DAMAGED} small books, most of them damaged: no difference, {accepted} accepted");
    let (mut tried, mut accepted) = (0, 0);
    for (_, book) in books {
        for _ in 0..DAMAGED_LARGE {
            let mut bytes = book.bytes.clone();
            bytes[dice.index(book.bytes.len())] ^= 1 << dice.index(8);
            accepted += usize::from(same(&bytes));
            tried += 1;
        }
    }
    println!("{tried} large books with one bit turned: no difference, {accepted} accepted");
}

fn same(bytes: &[u8]) -> bool {
    let (by_library, by_reference) = (library::book_ok(bytes), reference::book_ok(bytes));
    if by_library != by_reference {
        let shown: String = bytes.iter().take(4096).map(|byte| format!("{byte:02x}")).collect();
        panic!("the library says {by_library}, the reference {by_reference}, of {shown}");
    }
    by_library
}

fn time(books: &[(&str, Book)]) -> Vec<Row> {
    let subjects = [
        Subject::new(1, timing::byte_sum),
        Subject::new(1, |book| reference::book_ok(book).into()),
        Subject::new(1, |book| library::book_ok(book).into()),
    ];
    books.iter().map(|(what, book)| row(what, book, &timing::best_times(&subjects, &book.bytes, ROUNDS))).collect()
}

fn row(what: &str, book: &Book, times: &[Duration]) -> Row {
    let bytes = book.bytes.len();
    let times = [times[0], times[1], times[2]];
    let speeds = times.map(|time| timing::speed(bytes, time)).join(", ");
    Row {
        call: "acceptance",
        input: what.to_string(),
        size: format!("bytes {bytes}, records {}", book.records),
        times,
        pass: Some(Pass { records: book.records, time: times[0] }),
        beside: format!("{speeds} MB/s"),
    }
}
