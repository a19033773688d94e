//! Many questions on one book, answered at once.

use crate::answers::{PriceAnswer, Written};
use crate::book::Book;
use crate::calendar::write;
use crate::price::answered;
use crate::question::Question;
use crate::reader::split_off;
use crate::refusal::{BAD_BOOK, BAD_QUESTION, DONE};

pub const ANSWER_LENGTH: usize = 33;

const MOST_QUESTIONS: usize = 200;

/// What one question adds to what is written.
#[derive(Debug, Clone)]
pub struct Part {
    pub answer: PriceAnswer,
    /// The bytes of its lines; none if it is refused.
    pub lines: Vec<u8>,
}

impl Part {
    /// How many bytes it adds.
    pub fn length(&self) -> usize {
        ANSWER_LENGTH + self.lines.len()
    }
}

/// The room is asked for once, for all answers and lines together; no question has a 7 of its own.
pub fn basket(book: &[u8], questions: &[u8], out: &mut [u8]) -> Written {
    match parts(book, questions).and_then(|parts| write(&laid_out(&parts), out)) {
        Ok(length) => Written { length, number: DONE },
        Err(refusal) => Written::refused(refusal),
    }
}

/// What each question gets, or the refusal of the whole call.
pub fn parts(book: &[u8], questions: &[u8]) -> Result<Vec<Part>, u8> {
    let book = Book::read(book).ok_or(BAD_BOOK)?;
    let questions = read_all(questions).ok_or(BAD_QUESTION)?;
    Ok(questions.iter().map(|question| part(&book, question)).collect())
}

/// The answer of the single call. A refused question (3 to 6) has a number and zeros, and the next one goes on.
fn part(book: &Book, question: &Question) -> Part {
    match answered(book, question) {
        Ok((answer, lines)) => Part { answer, lines },
        Err(number) => Part { answer: PriceAnswer::refused(number), lines: Vec::new() },
    }
}

/// All answers, and behind the last of them all lines, both in the order of the questions.
fn laid_out(parts: &[Part]) -> Vec<u8> {
    let mut bytes = Vec::new();
    for part in parts {
        bytes.extend(part.answer.bytes());
    }
    for part in parts {
        bytes.extend(&part.lines);
    }
    bytes
}

/// Questions laid end to end, none at all up to 200; `None` if one is broken or cut, or if they are too many.
fn read_all(bytes: &[u8]) -> Option<Vec<Question>> {
    let mut questions = Vec::new();
    let mut rest = bytes;
    while !rest.is_empty() {
        let (question, behind) = split_off(rest)?;
        questions.push(Question::read(question)?);
        rest = behind;
    }
    (questions.len() <= MOST_QUESTIONS).then_some(questions)
}

impl PriceAnswer {
    /// The answer as it stands in a basket.
    pub fn bytes(&self) -> Vec<u8> {
        let mut bytes = Vec::with_capacity(ANSWER_LENGTH);
        bytes.push(self.number);
        bytes.extend(self.unit.to_be_bytes());
        bytes.extend(self.total.to_be_bytes());
        bytes.extend(self.currency);
        bytes.extend(self.lines.to_be_bytes());
        bytes.extend(self.unused.to_be_bytes());
        bytes.push(self.unused_count);
        bytes
    }
}
