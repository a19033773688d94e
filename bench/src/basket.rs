//! A basket of questions at once: beside one price call, beside a call for each question, beside the second implementation, and
//! beside the same in plain Rust.

use crate::catalog::{self, Catalog, Manner};
use crate::dice::Dice;
use crate::library;
use crate::reference;
use crate::timing::{self, Row, Subject};
use second::price::LINE_LENGTH;
use std::collections::HashMap;
use std::time::Duration;

const ROWS: usize = 40_000;
const GRANTED: usize = 5;
const SIZES: [usize; 3] = [1, 20, 200];
/// The second implementation goes once.
const ROUNDS: usize = 50;
const MOST_LINES: usize = 99 * LINE_LENGTH;
const ANSWER: usize = 33;

const HEAD: usize = 5;
const ARTICLE: u8 = 1;
const PRICE: u8 = 2;

pub fn measure(dice: &mut Dice) -> Vec<Row> {
    let book = catalog::catalog(dice, ROWS, &Manner::price_lists());
    SIZES.map(|size| row(&book, &asked(dice, &book, size))).into()
}

fn asked(dice: &mut Dice, book: &Catalog, size: usize) -> Vec<Vec<u8>> {
    (0..size).map(|_| catalog::question(&book.articles[dice.index(book.articles.len())], GRANTED).bytes()).collect()
}

fn row(book: &Catalog, questions: &[Vec<u8>]) -> Row {
    let all = questions.concat();
    let room = questions.len() * (ANSWER + MOST_LINES);
    agree(&book.bytes, questions, &all, room);
    let last = questions.last().expect("a basket that is timed has a question");
    let by_library = |book: &[u8]| library::basket(book, &all, &mut vec![0; room]).length;
    let subjects = [
        Subject::new(1, |book| library::price(book, last, &mut [0; MOST_LINES]).lines),
        Subject::new(10, |book| questions.iter().map(|one| library::price(book, one, &mut [0; MOST_LINES]).lines).sum()),
        Subject::new(1, by_library),
        Subject::new(ROUNDS, |book| second::basket(book, &all, &mut vec![0; room]).length),
        Subject::new(1, |book| plain(book, questions).len() as u64),
    ];
    let times = timing::best_times(&subjects, &book.bytes, ROUNDS);
    let beside = |what: &str, time: Duration| {
        format!("{what} {:.2} ms, c is {} of it", time.as_secs_f64() * 1e3, timing::ratio(times[2], time))
    };
    Row {
        call: "basket",
        input: format!("questions {}", questions.len()),
        size: format!("price rows {ROWS}, names {GRANTED}"),
        times: [times[0], times[1], times[2]],
        pass: None,
        beside: format!("{}; {}", beside("second", times[3]), beside("plain Rust", times[4])),
    }
}

/// All four give the same bytes.
fn agree(book: &[u8], questions: &[Vec<u8>], all: &[u8], room: usize) {
    let (mut by_library, mut by_second) = (vec![0xEE; room], vec![0xEE; room]);
    let answer = library::basket(book, all, &mut by_library);
    assert_eq!(answer, second::basket(book, all, &mut by_second), "the answers differ");
    assert_eq!(by_library, by_second, "the bytes differ");
    assert_eq!(plain(book, questions), by_library[..answer.length as usize], "plain Rust has other bytes");
    let (mut heads, mut lines): (Vec<u8>, Vec<u8>) = (Vec::new(), Vec::new());
    for question in questions {
        let mut own = [0; MOST_LINES];
        let answer = library::price(book, question, &mut own);
        assert_eq!(answer.number, 0, "a question that is timed has no price");
        heads.extend(answer.bytes());
        lines.extend(&own[..answer.lines as usize * LINE_LENGTH]);
    }
    heads.extend(lines);
    assert_eq!(heads, by_library[..answer.length as usize], "single calls have other bytes");
}

/// As one writes it in Rust: the book is accepted, the records of the wanted articles are gathered by a map in one pass, and each
/// question is priced from what was gathered for it.
fn plain(book: &[u8], questions: &[Vec<u8>]) -> Vec<u8> {
    assert!(reference::book_ok(book), "the book that is timed is one");
    let mut wanted: HashMap<&[u8], Vec<&[u8]>> = questions.iter().map(|question| (article_of(question), Vec::new())).collect();
    let mut others = Vec::new();
    let mut rest = &book[HEAD..];
    while let [high, low, ..] = *rest {
        let (record, behind) = rest.split_at(2 + usize::from(u16::from_be_bytes([high, low])));
        if !matches!(record[2], ARTICLE | PRICE) {
            others.push(record);
        } else if let Some(own) = wanted.get_mut(&record[4..][..usize::from(record[3])]) {
            own.push(record);
        }
        rest = behind;
    }
    let (mut heads, mut lines): (Vec<u8>, Vec<u8>) = (Vec::new(), Vec::new());
    for question in questions {
        let mut own = [0; MOST_LINES];
        let answer = second::price(&gathered(&wanted[article_of(question)], &others), question, &mut own);
        heads.extend(answer.bytes());
        lines.extend(&own[..answer.lines as usize * LINE_LENGTH]);
    }
    heads.extend(lines);
    heads
}

fn article_of(question: &[u8]) -> &[u8] {
    &question[HEAD + 1..][..usize::from(question[HEAD])]
}

/// A book of these records.
fn gathered(own: &[&[u8]], others: &[&[u8]]) -> Vec<u8> {
    let mut book = vec![0, 0, 0, 0, 1];
    for record in others.iter().chain(own) {
        book.extend_from_slice(record);
    }
    let length = u32::try_from(book.len()).expect("a part of a book is no longer than the book");
    book[..4].copy_from_slice(&length.to_be_bytes());
    book
}
