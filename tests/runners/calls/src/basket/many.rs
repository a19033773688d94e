//! As many questions as there may be, one more, and the most that can be written.

use super::{answered, priced, without, Part, Vector};
use crate::book;
use crate::parts::{ask, base, extra, off, DAY};
use crate::price::Line;
use second::make::{self, Article, Question, Record};

const MOST: usize = 200;

pub fn vectors() -> Vec<Vector> {
    [counts(), most_lines()].concat()
}

fn counts() -> Vec<Vector> {
    let book = book![base(1, 1_000)];
    let one = (ask(DAY), priced(&[(1, 'B', 0, 1_000)], 1_000));
    let missing = (Question::new("A2", DAY), without(3));
    let full = vec![one.clone(); MOST];
    let by_turns: Vec<(Question, Part)> = (0..MOST).map(|at| if at % 2 == 0 { &one } else { &missing }.clone()).collect();
    // Each question tells its place by its quantity.
    let numbered: Vec<(Question, Part)> =
        (1..=MOST as u32).map(|at| (ask(DAY).quantity(at), one.1.clone().total(1_000 * i64::from(at)))).collect();
    let bytes = |count| make::basket(&vec![ask(DAY); count]);
    let missing_bytes = |count| make::basket(&vec![Question::new("A2", DAY); count]);
    vec![
        answered("199 questions", &book, &full[1..]),
        answered("200 questions", &book, &full),
        answered("200 questions of different quantities", &book, &numbered),
        answered("200 questions, every other without a price", &book, &by_turns),
        answered("200 questions without a price", &book, &vec![missing; MOST]),
        Vector::refused("201 questions", &book, &bytes(MOST + 1), 2).room(20_000),
        Vector::refused("201 questions, and no room", &book, &bytes(MOST + 1), 2).room(0),
        Vector::refused("201 questions without a price", &book, &missing_bytes(MOST + 1), 2).room(20_000),
        Vector::refused("400 questions", &book, &bytes(2 * MOST), 2).room(20_000),
        Vector::refused("200 questions and a byte", &book, &[bytes(MOST), vec![0]].concat(), 2).room(20_000),
        Vector::refused("201 questions, and a broken book", &book[1..], &bytes(MOST + 1), 1).room(20_000),
    ]
}

/// 200 questions with 99 lines each: every level without a name and with each of 32.
fn most_lines() -> Vec<Vector> {
    let names: Vec<String> = (1..=32).map(|place| format!("N{place:02}")).collect();
    let mut lines: Vec<Line> = Vec::new();
    let mut records: Vec<Record> = vec![Article::new("A1", "").into()];
    for (level, row, cents) in [('B', base as fn(u32, i32) -> _, 3), ('X', extra, 2), ('D', off, -1)] {
        records.push(row(0, cents).into());
        lines.push((0, level, 0, i64::from(cents)));
        for (name, place) in names.iter().zip(1..) {
            records.push(row(place.into(), cents).condition(name).into());
            lines.push((place.into(), level, place, i64::from(cents)));
        }
    }
    let question = ask(DAY).granted(&names.iter().map(String::as_str).collect::<Vec<_>>());
    let full = answered("200 times 99 lines", &make::book(&records), &vec![(question, priced(&lines, 4 * 33)); MOST]);
    let room = full.written.len();
    let short = Vector::refused("a byte short of them", &full.strings[0], &full.strings[1], 7).room(room - 1);
    vec![full.room(room), short]
}
