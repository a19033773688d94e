//! The text call: its implementations, and its vectors.

use crate::archive;
use crate::call::{Call, Names};
use crate::document::Cells;
use second::compare::pattern;
use second::make::{text_book, TextRecord};
use second::TextAnswer;

type Vector = crate::vector::Vector<TextAnswer, u8>;

/// The text of a number is in `book`, 1 the asked one and 2 the fallback, its first byte at `place`, from 0.
fn found(shows: &str, books: [&[u8]; 2], number: u32, book: u8, place: u64, length: u64) -> Vector {
    Vector { answer: TextAnswer { place, length, number: 0, book }, ..refused(shows, books, number, 0) }
}

fn refused(shows: &str, books: [&[u8]; 2], number: u32, refusal: u8) -> Vector {
    Vector::refused(shows, books[0], books[1], refusal).extra(number)
}

fn example(cells: &Cells) -> (TextAnswer, Vec<u8>) {
    let answer = TextAnswer {
        place: cells.number("place"),
        length: cells.number("length"),
        number: cells.number("number"),
        book: cells.number("book"),
    };
    (answer, Vec::new())
}

pub fn call() -> Call<TextAnswer, u8> {
    Call {
        name: "rafttwine_text",
        refusals: &[1, 12],
        implementations: &[
            ("second", |lent, number, _| second::text(lent[0], lent[1], number)),
            ("the archive", |lent, number, _| archive::text(lent[0], lent[1], number)),
        ],
        fill: pattern,
        names: Names { strings: &["Asked", "Fallback"], extra: Some("Text number"), room: None },
        example,
        vectors: [texts(), odd_texts(), broken(), longest()].concat(),
    }
}

fn book(texts: &[(u32, &[u8])]) -> Vec<u8> {
    text_book(&texts.iter().map(|(number, text)| TextRecord::new(*number, text)).collect::<Vec<_>>())
}

/// A head is 5 bytes, a record's number and length are 6; so a first text is at 11.
fn texts() -> Vec<Vector> {
    let german = book(&[(7, b"Eiche"), (8, b"Esche")]);
    let english = book(&[(9, b"beech"), (7, b"oak")]);
    let twice = book(&[(7, b"oak"), (7, b"other oak")]);
    let empty = book(&[]);
    vec![
        found("the first text of the asked book, which goes before the fallback", [&german, &english], 7, 1, 11, 5),
        found("the second text: behind 11 bytes of the first record", [&german, &english], 8, 1, 22, 5),
        found("a text that only the fallback has", [&german, &english], 9, 2, 11, 5),
        found("the asked book goes first whichever it is", [&english, &german], 7, 1, 22, 3),
        found("of two texts with one number the first", [&twice, &german], 7, 1, 11, 3),
        found("the first in the fallback too", [&empty, &twice], 7, 2, 11, 3),
        found("an asked book without texts", [&empty, &german], 8, 2, 22, 5),
        found("one book lent as both", [&german, &german], 8, 1, 22, 5),
        refused("a number in neither", [&german, &english], 10, 12),
        refused("two books without texts", [&empty, &empty], 7, 12),
    ]
}

fn odd_texts() -> Vec<Vector> {
    let every_byte: Vec<u8> = (0..=255).collect();
    let texts = book(&[(0, b""), (0xFFFF_FFFF, b"last"), (0x0102_0304, &every_byte), (0x0403_0201, b"")]);
    let empty = book(&[]);
    vec![
        found("an empty text is found, where it would stand", [&texts, &empty], 0, 1, 11, 0),
        found("an empty text hides one of the fallback", [&book(&[(7, b"")]), &book(&[(7, b"oak")])], 7, 1, 11, 0),
        found("the greatest number", [&texts, &empty], 0xFFFF_FFFF, 1, 17, 4),
        found("a text of every byte, 0 among them", [&texts, &empty], 0x0102_0304, 1, 27, 256),
        found("an empty text at the very end", [&texts, &empty], 0x0403_0201, 1, 289, 0),
        refused("a number's bytes the other way round", [&book(&[(0x0102_0304, b"")]), &empty], 0x0403_0201, 12),
    ]
}

/// Both books must be good, also where the text is in the other.
fn broken() -> Vec<Vector> {
    let good = book(&[(7, b"oak")]);
    let one_more = [&good[..], &[0]].concat();
    let cut = &good[..good.len() - 1];
    let mut version_2 = good.clone();
    version_2[4] = 2;
    // The head counts a last record of three bytes, which has not even its number.
    let stump = [0, 0, 0, 8, 1, 0, 0, 0];
    vec![
        refused("the asked book has the text, the fallback is broken", [&good, cut], 7, 1),
        refused("the fallback has the text, the asked book is broken", [cut, &good], 7, 1),
        refused("both broken", [cut, cut], 7, 1),
        refused("broken, and in neither", [&good, &one_more], 8, 1),
        refused("a byte too many", [&one_more, &good], 7, 1),
        refused("another version", [&version_2, &good], 7, 1),
        refused("a stump of a record in the fallback", [&good, &stump], 7, 1),
        refused("an empty fallback is no book", [&good, &[]], 7, 1),
        refused("an empty asked book is no book", [&[], &good], 7, 1),
    ]
}

/// The longest book: 63 records of 65541 bytes and one of 65216 make 4194304 with the head.
fn longest() -> Vec<Vector> {
    let with_last = |size: usize| {
        let text = vec![b'x'; 65_535];
        let mut texts: Vec<(u32, &[u8])> = (1..=63).map(|number| (number, &text[..])).collect();
        texts.push((64, &text[..size]));
        book(&texts)
    };
    let (whole, too_long, empty) = (with_last(65_210), with_last(65_211), book(&[]));
    vec![
        found("the longest text", [&whole, &empty], 1, 1, 11, 65_535),
        found("the last text of the longest book", [&whole, &empty], 64, 1, 4_129_094, 65_210),
        found("the longest book as fallback", [&empty, &whole], 63, 2, 4_063_553, 65_535),
        refused("a book a byte too long", [&too_long, &empty], 1, 1),
        refused("a fallback a byte too long", [&empty, &too_long], 1, 1),
    ]
}
