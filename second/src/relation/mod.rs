//! Relations: texts that grant conditions by the properties of an article. A text is read whole into a tree, byte by byte; the tree
//! is then judged by the properties that stand beside the question, and the names it derives go where granted names go.

mod judge;
mod properties;
mod read;
mod text;
mod tree;
mod truth;

pub use properties::Properties;
pub use text::is_blank;
pub use tree::{Assignment, Comparison, Condition, Operand, Relation, Value};
pub use truth::Truth;

use crate::answers::{DerivedAnswer, Placed, PriceAnswer};
use crate::book::Book;
use crate::calendar::write;
use crate::price::answered;
use crate::question::{Question, Sent, FACTOR_OF_ONE};
use crate::refusal::{BAD_BOOK, BAD_QUESTION, DONE};

/// Something is refused before any byte is written.
#[derive(Debug, Clone, Copy, PartialEq, Eq)]
pub struct Refused {
    pub number: u8,
    /// A byte of the relation, from 1; 0 where the number tells no place.
    pub place: u64,
}

impl From<u8> for Refused {
    fn from(number: u8) -> Self {
        Refused { number, place: 0 }
    }
}

/// Refusals: 1, 2, then 14 or 15, then 16, then those of the price from 3 on.
pub fn price_derived(book: &[u8], question: &[u8], properties: &[u8], relation: &[u8], out: &mut [u8]) -> DerivedAnswer {
    match try_price(book, question, properties, relation, out) {
        Ok(answer) => answer.into(),
        Err(refused) => DerivedAnswer::refused_at(refused.number, refused.place),
    }
}

fn try_price(book: &[u8], question: &[u8], properties: &[u8], relation: &[u8], out: &mut [u8]) -> Result<PriceAnswer, Refused> {
    let book = Book::read(book).ok_or(BAD_BOOK)?;
    let (mut question, names) = question_and_names(question, properties, relation)?;
    question.granted = names.into_iter().map(|name| Sent { name, factor: FACTOR_OF_ONE }).collect();
    let (answer, lines) = answered(&book, &question)?;
    write(&lines, out)?;
    Ok(answer)
}

/// Writes the question with the names in it. Refusals: 2, then 14 or 15, then 16, then 7.
pub fn derive(question: &[u8], properties: &[u8], relation: &[u8], out: &mut [u8]) -> Placed {
    let written = with_names(question, properties, relation).and_then(|bytes| Ok(write(&bytes, out)?));
    match written {
        Ok(length) => Placed { length, place: 0, number: DONE },
        Err(refused) => Placed::refused_at(refused.number, refused.place),
    }
}

/// The bytes of a question with the derived names in it.
pub fn with_names(question: &[u8], properties: &[u8], relation: &[u8]) -> Result<Vec<u8>, Refused> {
    let (read, names) = question_and_names(question, properties, relation)?;
    Ok(granting(question, &read, &names))
}

/// What both calls begin with: a question that grants nothing itself, and the names that are derived for it.
fn question_and_names(question: &[u8], properties: &[u8], relation: &[u8]) -> Result<(Question, Vec<Vec<u8>>), Refused> {
    let question = Question::read(question).filter(|question| question.granted.is_empty()).ok_or(BAD_QUESTION)?;
    let properties = Properties::read(properties).ok_or(BAD_QUESTION)?;
    let names = Relation::read(relation)?.names(&properties)?;
    Ok((question, names))
}

/// The good question without names, its bytes and what they say, with these names where it says that it has none: everything
/// before that and behind it stays, but for the length in front. In version 2 a factor stands behind each name.
fn granting(bytes: &[u8], question: &Question, names: &[Vec<u8>]) -> Vec<u8> {
    // Length, version, the article's length; the article; sort, currency, date, quantity.
    let count = 4 + 1 + 1 + question.article.len() + 1 + 3 + 4 + 4;
    let has_factors = bytes[4] == 2;
    let mut middle = vec![names.len() as u8];
    for name in names {
        middle.push(name.len() as u8);
        middle.extend(name);
        if has_factors {
            middle.extend(FACTOR_OF_ONE.to_be_bytes());
        }
    }
    let behind_length = [&bytes[4..count], &middle, &bytes[count + 1..]].concat();
    let length = behind_length.len() as u32 + 4;
    [&length.to_be_bytes()[..], &behind_length].concat()
}
