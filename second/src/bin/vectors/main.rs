//! Writes the vectors that the program `crates/vectors` runs, and prints what each has to give.
//!
//! `vectors FILE` writes the vectors to the file and prints a line for each; both are the same
//! every time. A vector is
//!
//! | Bytes | What |
//! |---|---|
//! | 1 | the call, by its number below |
//! | 4 | the calendar's end or the text's number, otherwise 0 |
//! | 4 | how many bytes are lent for the output |
//! | 4 and 4 | the sizes of the two parts |
//! | so many | the two parts |
//! | 4 and so many, twice | only for the calls 9 and 10: the properties and the relation, each behind its size |
//!
//! with big-endian numbers. The calls and their two parts are
//!
//! | Number | Call | Parts |
//! |---|---|---|
//! | 1 to 4 | price, calendar, final number, packaging | book, question |
//! | 5 | text | asked and fallback text book |
//! | 6 | basket | book, questions |
//! | 7, 8 | read prices, write prices | price file or book, nothing |
//! | 9 | price derived | book, question |
//! | 10 | derive | nothing, question |
//!
//! A line has the call's name, the fields of its answer in decimal
//! (currency and units in hexadecimal), and what stands afterwards in the lent bytes and in some
//! behind them, which all were 165 before.

mod drawn;
mod relations;
mod vector;
mod worked;

use std::process::ExitCode;

use vector::Vector;

/// The program reads no more.
const LONGEST: usize = 524_288;

fn main() -> ExitCode {
    let arguments: Vec<String> = std::env::args().skip(1).collect();
    let [path] = &arguments[..] else {
        eprintln!("usage: vectors FILE");
        return ExitCode::from(2);
    };
    let mut vectors: Vec<Vector> = worked::vectors();
    vectors.extend(drawn::vectors());
    vectors.extend(relations::vectors());
    vectors.extend(drawn::of_relations());
    let bytes: Vec<u8> = vectors.iter().flat_map(Vector::bytes).collect();
    assert!(bytes.len() <= LONGEST, "too many bytes for the program");
    if let Err(error) = std::fs::write(path, &bytes) {
        eprintln!("{path}: {error}");
        return ExitCode::FAILURE;
    }
    for vector in &vectors {
        println!("{}", vector.line());
    }
    ExitCode::SUCCESS
}
