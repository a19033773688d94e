//! Refusals: of several faults the first in the order 1 to 7 is told; and the room for the lines. The least input for each number
//! stands in the document.

use super::{Vector, LINE_BYTES};
use crate::book;
use crate::parts::{ask, base, extra, off, share, DAY};
use second::make::{self, Record};

pub fn vectors() -> Vec<Vector> {
    [ladder(), bent(), room()].concat()
}

/// The faults 4 to 7 of one book, each rung with the upper ones mended: no base row; a foreign line behind a total out of range.
fn ladder() -> Vec<Vector> {
    let surcharges = [
        share(2, b'X', 1, 100_000).into(),
        extra(3, 1).condition("OAK").currency(b"USD").into(),
        extra(4, 1).condition("ASH").currency(b"CHF").into(),
    ];
    let rows: Vec<Record> = [vec![base(1, 100_000_000).into()], surcharges.to_vec()].concat();
    let article: Record = make::Article::new("A1", "").into();
    let rows_alone = make::book(&rows);
    let no_base = make::book(&[vec![article.clone()], surcharges.to_vec()].concat());
    let all = make::book(&[vec![article], rows].concat());
    let [broken_book, broken_question] = [[&all[..], &[0]].concat(), [&ask(DAY).bytes()[..], &[0]].concat()];
    let foreign = ask(DAY).granted(&["ash", "oak"]).bytes();
    let high = ask(DAY).bytes();
    let fair = book![base(1, 100_000_000)];
    vec![
        Vector::refused("broken book and question", &broken_book, &broken_question, 1).room(0),
        Vector::refused("broken question, no article record", &rows_alone, &broken_question, 2).room(0),
        Vector::refused("no article record, though rows, and foreign ones", &rows_alone, &foreign, 3).room(0),
        Vector::refused("no base line, and lines of two currencies", &no_base, &foreign, 4).room(0),
        Vector::refused("a foreign line behind a total out of range", &all, &foreign, 5).room(0),
        Vector::refused("a total out of range, and no room", &all, &high, 6).room(0),
        Vector::refused("no room", &fair, &high, 7).room(0),
        Vector::priced("nothing wrong", &fair, &ask(DAY), &[(1, 'B', 0, 100_000_000)], 100_000_000).room(LINE_BYTES),
    ]
}

/// Books and questions that are good but for one byte.
fn bent() -> Vec<Vector> {
    let (book, question) = (book![base(1, 10)], ask(DAY).bytes());
    let with = |bytes: &[u8], place: usize, byte: u8| {
        let mut bent = bytes.to_vec();
        bent[place] = byte;
        bent
    };
    let [book_size, question_size] = [book.len() as u8, question.len() as u8];
    vec![
        Vector::priced("as they are", &book, &ask(DAY), &[(1, 'B', 0, 10)], 10),
        Vector::refused("a book that says it is a byte longer", &with(&book, 3, book_size + 1), &question, 1),
        Vector::refused("a book of version 2", &with(&book, 4, 2), &question, 1),
        Vector::refused("a book without its last byte", &book[..book.len() - 1], &question, 1),
        Vector::refused("a question that says it is a byte shorter", &book, &with(&question, 3, question_size - 1), 2),
        Vector::refused("a question of version 0", &book, &with(&question, 4, 0), 2),
        Vector::refused("a question without its last byte", &book, &question[..question.len() - 1], 2),
        Vector::refused("a date that is no day", &book, &ask(20230229).bytes(), 2),
        Vector::refused("a day of the year 0", &book, &ask(101).bytes(), 2),
        Vector::refused("a day of the year 10000", &book, &ask(100000101).bytes(), 2),
        Vector::refused("a quantity of 0", &book, &ask(DAY).quantity(0).bytes(), 2),
        Vector::refused("a quantity of 100,001", &book, &ask(DAY).quantity(100_001).bytes(), 2),
    ]
}

fn room() -> Vec<Vector> {
    let due = 2 * LINE_BYTES;
    let book = book![base(1, 1_000), off(2, -1)];
    let priced = Vector::priced("", &book, &ask(DAY), &[(1, 'B', 0, 1_000), (2, 'D', 0, -1)], 999);
    let refused = Vector::refused("", &book, &ask(DAY).bytes(), 7);
    let of = |vector: &Vector, shows: &str, room| Vector { shows: shows.to_string(), ..vector.clone().room(room) };
    vec![
        of(&priced, "room for two lines, just enough", due),
        of(&priced, "a byte more than enough", due + 1),
        of(&priced, "much more than enough", 5_000),
        of(&refused, "a byte short", due - 1),
        of(&refused, "room for one line of two", LINE_BYTES),
        of(&refused, "a single byte", 1),
        of(&refused, "no room at all", 0),
    ]
}
