//! Refusals: of several faults the first in the order 1, 2, 9, 3, 7 is told; ends that are no days; and the room for stretches.

use super::{at, Vector};
use crate::book;
use crate::parts::{ask, base, DAY};
use second::make::{self, Record};

pub fn vectors() -> Vec<Vector> {
    [ladder(), periods(), room()].concat()
}

/// Each rung has the faults of all rungs below it.
fn ladder() -> Vec<Vector> {
    let row: Record = base(1, 100).into();
    let no_article = make::book(&[row]);
    let fair = book![base(1, 100)];
    let question = ask(DAY).bytes();
    let (broken_book, broken_question) = (&no_article[1..], &question[1..]);
    vec![
        Vector::refused("everything wrong", broken_book, broken_question, 0, 1).room(0, 0),
        Vector::refused("the question, the end, the article, the room", &no_article, broken_question, 0, 2).room(0, 0),
        Vector::refused("the end, the article, the room", &no_article, &question, 0, 9).room(0, 0),
        Vector::refused("the article, the room", &no_article, &question, DAY, 3).room(0, 0),
        Vector::refused("the room", &fair, &question, DAY, 7).room(0, 0),
        Vector::new("nothing wrong", &fair, &ask(DAY), DAY, &[at(DAY, DAY, 100)]).room(20, 1),
        Vector::refused("a question's date that is no day, and a good end", &fair, &ask(20230229).bytes(), DAY, 2),
    ]
}

fn periods() -> Vec<Vector> {
    let book = book![base(1, 100).dates(10101, 99991231)];
    let mut vectors = Vec::new();
    for end in
        [0, 1, 101, 10100, 20240631, 20240931, 20250229, 21000229, 20241301, 20240732, 20240700, 99991232, 100000101, 0xFFFF_FFFF]
    {
        let shows = format!("the end {end} is no day");
        vectors.push(Vector::refused(&shows, &book, &ask(DAY).bytes(), end, 9));
    }
    vectors.push(Vector::refused("the day after the last of all", &book, &ask(99991231).bytes(), 100000101, 9));
    for end in [20240614, 20240531, 20231231, 10101] {
        let shows = format!("the end {end} is before the start");
        vectors.push(Vector::refused(&shows, &book, &ask(DAY).bytes(), end, 9));
    }
    vectors
}

/// Two stretches are 40 bytes or 2 records.
fn room() -> Vec<Vector> {
    let book = book![base(1, 100), base(2, 200).dates(20240616, 20240616)];
    let two = [at(DAY, DAY, 100), at(20240616, 20240616, 200)];
    let written = |shows, bytes, records| Vector::new(shows, &book, &ask(DAY), 20240616, &two).room(bytes, records);
    let refused = |shows, bytes, records| Vector::refused(shows, &book, &ask(DAY).bytes(), 20240616, 7).room(bytes, records);
    vec![
        written("just enough room", 40, 2),
        written("a byte or a record more", 41, 3),
        written("much more", 30_000, 1_500),
        refused("a byte or a record short", 39, 1),
        refused("no room at all", 0, 0),
    ]
}
