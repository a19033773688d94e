//! The price calendar: the library beside its acceptance alone, and beside the second implementation, which prices day after day.

use crate::books;
use crate::catalog::{self, Catalog, Manner};
use crate::dice::Dice;
use crate::library;
use crate::timing::{self, Pass, Row, Subject};
use second::book::Book;
use second::days::{next_day, period};
use std::collections::BTreeSet;
use std::time::{Duration, Instant};

const ROWS: usize = 40_000;
const START: u32 = 20_240_101;
/// The ends of 30, 365 and 1,096 days.
const ENDS: [u32; 3] = [20_240_130, 20_241_230, 20_261_231];
const GRANTED: usize = 5;
const ROUNDS: usize = 100;
/// Where a run takes seconds.
const FEW_ROUNDS: usize = 3;
/// Of a book of its own, so that those that are thrown behind it stay what they are.
const SPREAD_SEED: u64 = 20_240_701;
const STRETCH: usize = 20;
const MOST_BYTES: usize = 1_096 * STRETCH;

pub fn measure(dice: &mut Dice) -> Vec<Row> {
    let lists = catalog::catalog(dice, ROWS, &Manner::price_lists());
    let own_days = catalog::catalog(dice, ROWS, &beginning_within(1_096));
    let alone = catalog::book(dice, &[ROWS], &beginning_within(1_001));
    let spread = Manner { spread_roundings: true, ..beginning_within(1_096) };
    let spread = catalog::catalog(&mut Dice::new(SPREAD_SEED), ROWS, &spread);
    let mut rows = Vec::new();
    for end in ENDS {
        rows.push(time("50 rows, price lists", &lists, lists.near_end(), end, ROUNDS));
    }
    for end in ENDS {
        rows.push(time("50 rows, days of their own", &own_days, own_days.near_end(), end, ROUNDS));
    }
    rows.push(time("50 rows, days of their own, roundings spread", &spread, spread.near_end(), ENDS[2], ROUNDS));
    rows.push(time("all rows of one article", &alone, &alone.articles[0], ENDS[2], FEW_ROUNDS));
    rows
}

/// Rows that begin on one of the first so many days of the longest period, and last.
fn beginning_within(days: usize) -> Manner {
    let mut from = period(START, ENDS[2]).expect("the longest period is one");
    from.truncate(days);
    Manner { from, to: vec![20_291_231], ..Manner::price_lists() }
}

fn time(what: &str, book: &Catalog, article: &str, end: u32, rounds: usize) -> Row {
    let mut question = catalog::question(article, GRANTED);
    question.date = START;
    let question = question.bytes();
    let (stretches, by_second) = same(&book.bytes, &question, end);
    let subjects = [
        Subject::new(1, timing::byte_sum),
        Subject::new(1, |book| library::book_ok(book).into()),
        Subject::new(1, |book| library::calendar(book, &question, end, &mut [0; MOST_BYTES]).length),
    ];
    let times = timing::best_times(&subjects, &book.bytes, rounds);
    let days = period(START, end).expect("a period that is timed is one").len();
    Row {
        call: "calendar",
        input: what.to_string(),
        size: format!("days {days}, change days {}, stretches {stretches}", change_days(&book.bytes, article, end)),
        times: [times[1], by_second, times[2]],
        pass: Some(Pass { records: books::count(&book.bytes), time: times[0] }),
        beside: String::new(),
    }
}

/// Both give the same answer and leave the same bytes. How many stretches there are, and how long the second implementation took.
fn same(book: &[u8], question: &[u8], end: u32) -> (usize, Duration) {
    let (mut by_library, mut by_second) = ([0xEE; MOST_BYTES], [0xEE; MOST_BYTES]);
    let answer = library::calendar(book, question, end, &mut by_library);
    let start = Instant::now();
    let other = second::calendar(book, question, end, &mut by_second);
    let time = start.elapsed();
    assert_eq!(answer, other, "the answers differ on {question:?} to {end}");
    assert_eq!(by_library, by_second, "the stretches differ on {question:?} to {end}");
    assert_eq!(answer.number, 0, "a timed calendar is refused");
    (answer.length as usize / STRETCH, time)
}

/// The days of the period, its first aside, on which a row of the article for sale begins or has just ended.
fn change_days(book: &[u8], article: &str, end: u32) -> usize {
    let book = Book::read(book).expect("a book that is timed is one");
    let rows = book.prices.iter().filter(|row| row.article == article.as_bytes() && row.sort == b'S');
    let days: BTreeSet<u32> = rows.flat_map(|row| [Some(row.from), next_day(row.to)]).flatten().collect();
    days.range(START + 1..=end).count()
}
