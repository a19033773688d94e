//! Implementations in which something is broken, to see that the comparison notices it.

use second::book::Book;
use second::calls::{Calls, Second};
use second::price::{answered_by, Reckoning};
use second::question::Question;
use second::reader::split_off;
use second::refusal::{BAD_BOOK, BAD_QUESTION, TOO_LITTLE_ROOM};
use second::{CalendarAnswer, PackagingAnswer, PriceAnswer, Stretch, TextAnswer, Written};

pub enum Broken {
    /// What is done to the answer of a price and to the lent bytes.
    Price(fn(&mut PriceAnswer, &mut [u8])),
    /// The same for a basket.
    Basket(fn(&mut Written, &mut [u8])),
    /// A price by other rules.
    Rules(Rules),
    /// Every call refuses questions of version 2.
    OneVersion,
}

/// How a price is worked out. A test spoils one of these.
pub struct Rules {
    /// What happens to a question that was read.
    pub read: fn(&mut Question),
    pub amount: fn(&Reckoning) -> i128,
    /// The bytes of the lines, for a question of this version.
    pub lines: fn(u8, Vec<u8>) -> Vec<u8>,
}

pub const RIGHT: Rules = Rules { read: |_| {}, amount: Reckoning::amount, lines: |_, lines| lines };

impl Rules {
    fn price(&self, book: &[u8], question: &[u8], out: &mut [u8]) -> Result<PriceAnswer, u8> {
        let book = Book::read(book).ok_or(BAD_BOOK)?;
        let mut asked = Question::read(question).ok_or(BAD_QUESTION)?;
        (self.read)(&mut asked);
        let (answer, lines) = answered_by(self.amount, &book, &asked)?;
        let lines = (self.lines)(version(question), lines);
        out.get_mut(..lines.len()).ok_or(TOO_LITTLE_ROOM)?.copy_from_slice(&lines);
        Ok(answer)
    }
}

fn version(question: &[u8]) -> u8 {
    question.get(4).copied().unwrap_or_default()
}

impl Broken {
    /// The question that is asked in place of another.
    fn asked(&self, question: &[u8]) -> Vec<u8> {
        let mut question = question.to_vec();
        if matches!(self, Broken::OneVersion) && version(&question) == 2 {
            question[4] = u8::MAX;
        }
        question
    }

    /// The same for questions laid end to end.
    fn all_asked(&self, questions: &[u8]) -> Vec<u8> {
        let mut all = Vec::new();
        let mut rest = questions;
        while let Some((question, behind)) = split_off(rest).filter(|(question, _)| !question.is_empty()) {
            all.extend(self.asked(question));
            rest = behind;
        }
        all.extend(rest);
        all
    }
}

impl Calls for Broken {
    fn price(&self, book: &[u8], question: &[u8], out: &mut [u8]) -> PriceAnswer {
        if let Broken::Rules(rules) = self {
            return rules.price(book, question, out).unwrap_or_else(PriceAnswer::refused);
        }
        let mut answer = Second.price(book, &self.asked(question), out);
        if let Broken::Price(spoil) = self {
            spoil(&mut answer, out);
        }
        answer
    }

    fn calendar(&self, book: &[u8], question: &[u8], end: u32, out: &mut [u8]) -> CalendarAnswer {
        Second.calendar(book, &self.asked(question), end, out)
    }

    fn calendar_list(&self, book: &[u8], question: &[u8], end: u32, out: &mut [Stretch]) -> CalendarAnswer {
        Second.calendar_list(book, &self.asked(question), end, out)
    }

    fn final_number(&self, book: &[u8], question: &[u8], out: &mut [u8]) -> Written {
        Second.final_number(book, &self.asked(question), out)
    }

    fn packaging(&self, book: &[u8], question: &[u8]) -> PackagingAnswer {
        Second.packaging(book, &self.asked(question))
    }

    fn text(&self, asked: &[u8], fallback: &[u8], number: u32) -> TextAnswer {
        Second.text(asked, fallback, number)
    }

    fn basket(&self, book: &[u8], questions: &[u8], out: &mut [u8]) -> Written {
        let mut answer = Second.basket(book, &self.all_asked(questions), out);
        if let Broken::Basket(spoil) = self {
            spoil(&mut answer, out);
        }
        answer
    }
}
