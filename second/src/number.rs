//! The final article number: base number and property values joined by a scheme.

use crate::answers::Written;
use crate::book::{Book, Scheme};
use crate::calendar::write;
use crate::question::{Property, Question, State};
use crate::refusal::{BAD_BOOK, BAD_QUESTION, DONE, NO_ARTICLE};

pub fn final_number(book: &[u8], question: &[u8], out: &mut [u8]) -> Written {
    match final_number_of(book, question).and_then(|number| write(&number, out)) {
        Ok(length) => Written { length, number: DONE },
        Err(refusal) => Written::refused(refusal),
    }
}

fn final_number_of(book: &[u8], question: &[u8]) -> Result<Vec<u8>, u8> {
    let book = Book::read(book).ok_or(BAD_BOOK)?;
    let question = Question::read(question).ok_or(BAD_QUESTION)?;
    let article = book.article(&question.article).ok_or(NO_ARTICLE)?;
    // An empty id is the id of no scheme, so it is missing as well.
    match book.scheme(&article.scheme) {
        Some(scheme) => Ok(joined(scheme, &question)),
        None => Ok(question.article),
    }
}

fn joined(scheme: &Scheme, question: &Question) -> Vec<u8> {
    let values: Vec<Vec<u8>> = question.properties.iter().filter_map(|property| written_value(scheme, property)).collect();
    let mut number = question.article.clone();
    if !values.is_empty() {
        if scheme.number_separator.is_empty() {
            number.push(b' ');
        } else {
            number.extend(&scheme.number_separator);
        }
        number.extend(values.join(&scheme.value_separator[..]));
    }
    number
}

/// How a property stands in the number; `None` if it is left out.
fn written_value(scheme: &Scheme, property: &Property) -> Option<Vec<u8>> {
    let width = usize::from(property.width);
    match &property.state {
        State::Valued(value) => {
            let mut written = value.clone();
            if !scheme.trims {
                written.resize(width, b' ');
            }
            Some(written)
        }
        State::Hidden if scheme.shows_hidden => Some(vec![scheme.hidden; width]),
        State::Hidden => None,
        State::Unselected => Some(vec![scheme.unselected; width]),
    }
}
