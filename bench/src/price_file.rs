//! The manufacturer's price file, read and written: the library beside a byte sum or acceptance alone, beside plain Rust, and beside
//! the second implementation.

use crate::dice::Dice;
use crate::library;
use crate::plain_file::{self, Unwritten};
use crate::timing::{self, Pass, Row, Subject};
use second::file_cases::FileCase;
use second::file_compare::FileCall;
use second::file_faults::faults;
use second::make::{self, Record};
use second::Placed;
use std::cell::RefCell;
use std::time::{Duration, Instant};

const FEW_ROWS: usize = 10_000;
const ROWS: usize = 50_000;
const TEN: usize = 10;
/// The files take turns too, so that they can be compared with each other: a lap of so many rounds on each.
const LAPS: usize = 5;
const ROUNDS: usize = 8;
const THROWN: u64 = 5_000;
const SEED: u64 = 20_240_630;

pub fn measure(dice: &mut Dice) -> Vec<Row> {
    agree();
    let manners = [
        Manner { what: "ten text names", rows: FEW_ROWS, names: TEN, quoted: false },
        Manner { what: "ten text names", rows: ROWS, names: TEN, quoted: false },
        Manner { what: "a text name for each row", rows: ROWS, names: ROWS, quoted: false },
        Manner { what: "quoted fields, comments", rows: ROWS, names: TEN, quoted: true },
    ];
    let files = manners.map(|manner| (file(dice, &manner), manner));
    let mut cases: Vec<Case> = files.iter().map(|(file, manner)| Case::new(FileCall::Read, manner, file.clone())).collect();
    cases.extend(files.iter().map(|(file, manner)| Case::new(FileCall::Write, manner, book_of(file))));
    for _ in 0..LAPS {
        cases.iter_mut().for_each(Case::lap);
    }
    let (readers, writers) = cases.split_at(files.len());
    [readers, writers].iter().flat_map(|cases| cases.iter().map(|case| case.row(&cases[1]))).collect()
}

// What is timed.

/// How a file is made.
struct Manner {
    what: &'static str,
    rows: usize,
    /// How many different text names there are.
    names: usize,
    /// Articles that need quotes, texts in quotes that they do not need, and a comment and a blank line behind every tenth row.
    quoted: bool,
}

/// A file as a manufacturer's is: article after article, each with fifty rows of its own.
fn file(dice: &mut Dice, manner: &Manner) -> Vec<u8> {
    let mut file = b"# article;condition;sort;level;rule;text;value;fixed;currency;from;to;quantity;rounding\n".to_vec();
    let mut article = String::new();
    for index in 0..manner.rows {
        if index % 50 == 0 {
            article = article_number(dice, index / 50);
        }
        let text = format!("price_{:05}", index % manner.names);
        let (article, text) = if manner.quoted {
            (format!("\"{article};\"\"{}\"\" \"", index % 4), format!("\"{text}\"  "))
        } else {
            (article.clone(), text)
        };
        file.extend(line(dice, &article, &text, index % 50).into_bytes());
        if manner.quoted && index % 10 == 9 {
            file.extend(b"# the next ten rows\n\n");
        }
    }
    file
}

fn article_number(dice: &mut Dice, place: usize) -> String {
    let series: String = (0..dice.between(2, 8)).map(|_| dice.between(65, 90) as u8 as char).collect();
    format!("{series}-{place:04}")
}

/// A line of an article by its index among them: the first three are unconditioned rows of the three levels.
fn line(dice: &mut Dice, article: &str, text: &str, index: usize) -> String {
    const WORDS: [&str; 8] = ["OAK", "ASH", "BEECH", "STEEL", "LEATHER", "FELT", "CHROME", "GLASS"];
    let condition = if index < 3 { String::new() } else { format!("{}{index}", WORDS[index % WORDS.len()]) };
    let (level, fixed, most) = [("B", 1, 50_000), ("X", 0, 5_000), ("D", 0, 500)][index % 3];
    let (cents, rule) = (dice.between(100, most), dice.one_of(&[1, 2]));
    let sign = if level == "D" { "-" } else { "" };
    let value = format!("{sign}{}.{:02}", cents / 100, cents % 100);
    let from = dice.one_of(&["20240101", "20240701", "20250101", ""]);
    let quantity = dice.one_of(&[0, 0, 0, 9]);
    format!("{article};{condition};S;{level};{rule};{text};{value};{fixed};EUR;{from};20251231;{quantity};\n")
}

/// The book of a file's records, with an article record behind every tenth, which the writer has to leave out.
fn book_of(file: &[u8]) -> Vec<u8> {
    let records = plain_file::read(file).expect("a file that is timed is good");
    let other = Record::Article(make::Article::new("A1", "")).bytes();
    let mut book = vec![0, 0, 0, 0, 1];
    let mut rest = &records[..];
    let mut count = 0;
    while let [high, low, ..] = *rest {
        let (record, behind) = rest.split_at(2 + usize::from(u16::from_be_bytes([high, low])));
        book.extend(record);
        count += 1;
        if count % 10 == 0 {
            book.extend(&other);
        }
        rest = behind;
    }
    let length = u32::try_from(book.len()).expect("a book that is timed is short enough");
    book[..4].copy_from_slice(&length.to_be_bytes());
    book
}

// Agreement.

/// All three say the same of thrown files and books and of all known faults.
fn agree() {
    for index in 0..THROWN {
        let case = FileCase::generate_small(SEED, index);
        same(FileCall::Read, &case);
        same(FileCall::Write, &case);
    }
    let mut known = 0;
    for fault in faults() {
        same(fault.call, &fault.case);
        known += 1;
    }
    println!("{THROWN} price files and books, and {known} known faults: no difference");
}

fn same(call: FileCall, case: &FileCase) {
    let inputs = case.inputs();
    let (input, room) = (call.input(&inputs), call.size(case, &inputs));
    let (mut by_library, mut by_second) = (vec![0xEE; room], vec![0xEE; room]);
    let answer = by_call(call, input, &mut by_library);
    assert_eq!(answer, by_the_second(call, input, &mut by_second), "the answers differ");
    assert!(by_library == by_second, "the bytes differ");
    // Plain Rust has its own room.
    match plain(call, input) {
        Ok(bytes) if bytes.len() <= room => assert!(by_library.starts_with(&bytes), "plain Rust has other bytes"),
        Ok(_) => assert_eq!(answer.number, 7, "plain Rust writes what the library refuses"),
        Err(refused) => assert_eq!(answer, refused, "plain Rust refuses something else"),
    }
}

fn by_call(call: FileCall, input: &[u8], out: &mut [u8]) -> Placed {
    match call {
        FileCall::Read => library::read_prices(input, out),
        FileCall::Write => library::write_prices(input, out),
    }
}

fn by_the_second(call: FileCall, input: &[u8], out: &mut [u8]) -> Placed {
    match call {
        FileCall::Read => second::read_prices(input, out),
        FileCall::Write => second::write_prices(input, out),
    }
}

fn plain(call: FileCall, input: &[u8]) -> Result<Vec<u8>, Placed> {
    match call {
        FileCall::Read => plain_file::read(input).map_err(|line| Placed::refused_at(13, line)),
        FileCall::Write => plain_file::write(input).map_err(|unwritten| match unwritten {
            Unwritten::BadBook => Placed::refused(1),
            Unwritten::Record(place) => Placed::refused_at(13, place),
        }),
    }
}

// Times.

/// A file to read or a book to write from. The times are of a byte sum, of what a is, of plain Rust and of the library.
struct Case {
    call: FileCall,
    what: &'static str,
    rows: usize,
    input: Vec<u8>,
    /// Lent again and again, so that nobody waits for fresh memory.
    out: RefCell<Vec<u8>>,
    best: [Duration; 4],
    second: Duration,
}

impl Case {
    /// All three give the same bytes; the second implementation goes once.
    fn new(call: FileCall, manner: &Manner, input: Vec<u8>) -> Case {
        let due = plain(call, &input).expect("what is timed is good");
        let (mut by_library, mut by_second) = (vec![0xEE; due.len()], vec![0xEE; due.len()]);
        by_call(call, &input, &mut by_library);
        let start = Instant::now();
        by_the_second(call, &input, &mut by_second);
        let second = start.elapsed();
        assert!(due == by_library && due == by_second, "the bytes differ");
        let out = RefCell::new(by_library);
        Case { call, what: manner.what, rows: manner.rows, input, out, best: [Duration::MAX; 4], second }
    }

    fn lap(&mut self) {
        let call = self.call;
        let subjects = [
            Subject::new(1, timing::byte_sum),
            Subject::new(1, |input| least(call, input)),
            Subject::new(1, |input| plain(call, input).map_or(0, |bytes| bytes.len() as u64)),
            Subject::new(1, |input| by_call(call, input, &mut self.out.borrow_mut()).length),
        ];
        for (best, time) in self.best.iter_mut().zip(timing::best_times(&subjects, &self.input, ROUNDS)) {
            *best = time.min(*best);
        }
    }

    /// `ten` is the case of the most rows with ten text names.
    fn row(&self, ten: &Case) -> Row {
        let [pass, least, plain, library] = self.best;
        let as_many_rows = library.mul_f64(ten.rows as f64 / self.rows as f64);
        let by_ten = format!("a row {} of ten names in {} rows", timing::ratio(as_many_rows, ten.best[3]), ten.rows);
        let by_second = timing::ratio(library, self.second);
        Row {
            call: self.call.name(),
            input: self.what.to_string(),
            size: format!("rows {}, bytes {}", self.rows, self.input.len()),
            times: [least, plain, library],
            pass: Some(Pass { records: self.rows, time: pass }),
            beside: format!("{by_ten}; second {:.2} ms, c is {by_second} of it", self.second.as_secs_f64() * 1e3),
        }
    }
}

/// What the call cannot do without: a file has to be read, a book to be accepted.
fn least(call: FileCall, input: &[u8]) -> u64 {
    match call {
        FileCall::Read => timing::byte_sum(input),
        FileCall::Write => library::book_ok(input).into(),
    }
}
