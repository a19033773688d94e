//! The price of an article: the library beside its acceptance alone, and beside the second implementation in Rust.

use crate::books;
use crate::catalog::{self, Catalog, Manner};
use crate::dice::Dice;
use crate::library;
use crate::timing::{self, Pass, Row, Subject};
use second::price::LINE_LENGTH;
use second::PriceAnswer;
use std::time::Duration;

const ROWS: [usize; 3] = [10_000, 20_000, 40_000];
const GRANTED: [usize; 3] = [0, 5, 32];
const THROWN: usize = 500;
/// The books take turns too, so that they can be compared with each other: a lap of so many rounds on each. The second
/// implementation goes once in a lap.
const LAPS: usize = 10;
const ROUNDS: usize = 20;
const MOST_LINES: usize = 99 * LINE_LENGTH;

pub fn measure(dice: &mut Dice) -> Vec<Row> {
    let plain = ROWS.map(|rows| catalog::catalog(dice, rows, &Manner::price_lists()));
    let others = [
        ("conditions in any order", Manner { own_order: true, ..Manner::price_lists() }),
        ("article numbers of one length", Manner { one_length: true, ..Manner::price_lists() }),
        ("roundings spread", Manner { spread_roundings: true, ..Manner::price_lists() }),
    ]
    .map(|(what, manner)| (what, catalog::catalog(dice, ROWS[2], &manner)));
    agree(dice, &plain[0]);
    let mut cases = Vec::new();
    for (book, rows) in plain.iter().zip(ROWS) {
        cases.push(Case::new("plain, near the start", rows, book, book.near_start()));
        cases.push(Case::new("plain, near the end", rows, book, book.near_end()));
    }
    cases.extend(others.iter().map(|(what, book)| Case::new(what, ROWS[2], book, book.near_end())));
    for _ in 0..LAPS {
        cases.iter_mut().for_each(Case::lap);
    }
    cases.iter().flat_map(Case::rows).collect()
}

/// Both give the same answer and leave the same bytes, for thrown questions.
fn agree(dice: &mut Dice, book: &Catalog) {
    let mut priced = 0;
    for _ in 0..THROWN {
        let article = &book.articles[dice.index(book.articles.len())];
        let granted = dice.index(33);
        let question = catalog::question(article, granted).currency(dice.one_of(&[b"EUR", b"CHF", b"SEK", &[0; 3]]));
        let quantity = dice.one_of(&[1, 9, 10]);
        priced += usize::from(same(&book.bytes, &question.quantity(quantity).bytes()).number == 0);
    }
    println!("{THROWN} questions to a book of {} price rows: no difference, {priced} have a price", ROWS[0]);
}

fn same(book: &[u8], question: &[u8]) -> PriceAnswer {
    let (mut by_library, mut by_second) = ([0xEE; MOST_LINES], [0xEE; MOST_LINES]);
    let answer = library::price(book, question, &mut by_library);
    assert_eq!(answer, second::price(book, question, &mut by_second), "the answers differ on {question:?}");
    assert_eq!(by_library, by_second, "the lines differ on {question:?}");
    answer
}

/// An article of a book, with a question for each number of granted names. The times are of a byte sum, of acceptance, then for each
/// question of the second implementation and of the library.
struct Case<'a> {
    what: &'a str,
    price_rows: usize,
    book: &'a [u8],
    questions: [Vec<u8>; 3],
    lines: [u64; 3],
    best: [Duration; 8],
}

impl<'a> Case<'a> {
    fn new(what: &'a str, price_rows: usize, book: &'a Catalog, article: &str) -> Case<'a> {
        let questions = GRANTED.map(|granted| catalog::question(article, granted).bytes());
        let lines = questions.each_ref().map(|question| same(&book.bytes, question).lines);
        assert!(!lines.contains(&0), "a question that is timed has no price");
        Case { what, price_rows, book: &book.bytes, questions, lines, best: [Duration::MAX; 8] }
    }

    fn lap(&mut self) {
        let mut subjects = vec![Subject::new(1, timing::byte_sum), Subject::new(1, |book| library::book_ok(book).into())];
        for question in &self.questions {
            subjects.push(Subject::new(ROUNDS, |book| second::price(book, question, &mut [0; MOST_LINES]).lines));
            subjects.push(Subject::new(1, |book| library::price(book, question, &mut [0; MOST_LINES]).lines));
        }
        for (best, time) in self.best.iter_mut().zip(timing::best_times(&subjects, self.book, ROUNDS)) {
            *best = time.min(*best);
        }
    }

    fn rows(&self) -> Vec<Row> {
        self.best[2..].chunks(2).enumerate().map(|(index, pair)| self.row(index, pair[0], pair[1])).collect()
    }

    fn row(&self, index: usize, by_second: Duration, by_library: Duration) -> Row {
        let no_names = self.best[3];
        Row {
            call: "price",
            input: self.what.to_string(),
            size: format!("price rows {}, names {}, lines {}", self.price_rows, GRANTED[index], self.lines[index]),
            times: [self.best[1], by_second, by_library],
            pass: Some(Pass { records: books::count(self.book), time: self.best[0] }),
            beside: format!("{} of no names", timing::ratio(by_library, no_names)),
        }
    }
}
