//! The calendar program: what it prints for what it reads.

use crate::book::book_ok;
use crate::calendar::stretches;
use crate::question::question_ok;
use crate::reader::split_off;
use crate::refusal::{BAD_BOOK, BAD_PERIOD, BAD_QUESTION};

const LONGEST_INPUT: usize = 65_536;

pub fn program(input: &[u8]) -> Vec<u8> {
    match print_stretches(input) {
        Ok(printed) => printed,
        Err(number) => format!("refusal {number}\n").into_bytes(),
    }
}

/// Each part is looked at whole before the next one is split off, so that the refusals keep the
/// order they have in the calendar call.
fn print_stretches(input: &[u8]) -> Result<Vec<u8>, u8> {
    if input.len() > LONGEST_INPUT {
        return Err(BAD_BOOK);
    }
    let (book, rest) = split_off(input).ok_or(BAD_BOOK)?;
    if !book_ok(book) {
        return Err(BAD_BOOK);
    }
    let (question, rest) = split_off(rest).ok_or(BAD_QUESTION)?;
    if !question_ok(question) {
        return Err(BAD_QUESTION);
    }
    let end: [u8; 4] = rest.try_into().map_err(|_| BAD_PERIOD)?;

    let mut printed = Vec::new();
    for stretch in stretches(book, question, u32::from_be_bytes(end))? {
        let currency =
            if stretch.currency == [0; 3] { "---".to_string() } else { stretch.currency.map(char::from).iter().collect() };
        let line = format!("{} {} {} {} {}\n", stretch.first, stretch.last, stretch.refusal, currency, stretch.unit);
        printed.extend(line.into_bytes());
    }
    Ok(printed)
}
