//! The price of every day of a period, gathered into stretches of equal days.

use crate::answers::{CalendarAnswer, Stretch};
use crate::book::Book;
use crate::days::period;
use crate::price::price_on;
use crate::question::Question;
use crate::refusal::{BAD_BOOK, BAD_PERIOD, BAD_QUESTION, DONE, NO_ARTICLE, TOO_LITTLE_ROOM};

pub const STRETCH_LENGTH: usize = 20;

pub fn calendar(book: &[u8], question: &[u8], end: u32, out: &mut [u8]) -> CalendarAnswer {
    answer(stretches(book, question, end).and_then(|stretches| {
        let bytes: Vec<u8> = stretches.iter().flat_map(Stretch::bytes).collect();
        write(&bytes, out)
    }))
}

pub fn calendar_list(book: &[u8], question: &[u8], end: u32, out: &mut [Stretch]) -> CalendarAnswer {
    answer(stretches(book, question, end).and_then(|stretches| write(&stretches, out)))
}

fn answer(written: Result<u64, u8>) -> CalendarAnswer {
    match written {
        Ok(length) => CalendarAnswer { length, number: DONE },
        Err(number) => CalendarAnswer::refused(number),
    }
}

/// Copies all of `parts` to the front of `out`, or nothing if the room is too little. Gives how many they are, or the refusal.
pub fn write<T: Copy>(parts: &[T], out: &mut [T]) -> Result<u64, u8> {
    if out.len() < parts.len() {
        return Err(TOO_LITTLE_ROOM);
    }
    out[..parts.len()].copy_from_slice(parts);
    Ok(parts.len() as u64)
}

impl Stretch {
    pub fn bytes(&self) -> Vec<u8> {
        let mut bytes = Vec::with_capacity(STRETCH_LENGTH);
        bytes.extend(self.first.to_be_bytes());
        bytes.extend(self.last.to_be_bytes());
        bytes.push(self.refusal);
        bytes.extend(self.currency);
        bytes.extend(self.unit.to_be_bytes());
        bytes
    }
}

/// All stretches of the period that starts on the question's date, or the refusal.
pub fn stretches(book: &[u8], question: &[u8], end: u32) -> Result<Vec<Stretch>, u8> {
    let book = Book::read(book).ok_or(BAD_BOOK)?;
    let question = Question::read(question).ok_or(BAD_QUESTION)?;
    let days = period(question.date, end).ok_or(BAD_PERIOD)?;
    book.article(&question.article).ok_or(NO_ARTICLE)?;

    let mut stretches: Vec<Stretch> = Vec::new();
    for day in days {
        let alone = stretch_of_day(&book, &question, day);
        match stretches.last_mut() {
            Some(last) if same_price(last, &alone) => last.last = day,
            _ => stretches.push(alone),
        }
    }
    Ok(stretches)
}

fn stretch_of_day(book: &Book, question: &Question, day: u32) -> Stretch {
    let (refusal, currency, unit) = match price_on(book, question, day) {
        Ok(priced) => (DONE, priced.currency, priced.unit),
        Err(number) => (number, [0; 3], 0),
    };
    Stretch { first: day, last: day, unit, refusal, currency }
}

fn same_price(one: &Stretch, other: &Stretch) -> bool {
    (one.refusal, one.currency, one.unit) == (other.refusal, other.currency, other.unit)
}
