//! Packaging data of an article with its granted conditions.

use crate::answers::PackagingAnswer;
use crate::book::{has_bit, Book, Packaging};
use crate::question::Question;
use crate::refusal::{BAD_BOOK, BAD_PACKAGING, BAD_QUESTION, DONE, NO_ARTICLE, NO_PACKAGING};

const TARE: usize = 4;
const NET: usize = 5;
const ITEMS: usize = 6;

pub fn packaging(book: &[u8], question: &[u8]) -> PackagingAnswer {
    match try_packaging(book, question) {
        Ok(answer) => answer,
        Err(number) => PackagingAnswer::refused(number),
    }
}

fn try_packaging(book: &[u8], question: &[u8]) -> Result<PackagingAnswer, u8> {
    let book = Book::read(book).ok_or(BAD_BOOK)?;
    let question = Question::read(question).ok_or(BAD_QUESTION)?;
    book.article(&question.article).ok_or(NO_ARTICLE)?;
    let records = used_records(&book, &question).ok_or(NO_PACKAGING)?;

    let mut present = 0;
    let mut values = [0i64; 8];
    let mut units = [None; 3];
    for record in records {
        present |= record.present;
        for (sum, value) in values.iter_mut().zip(record.values) {
            *sum += i64::from(value);
        }
        for (held, given) in units.iter_mut().zip(record.units) {
            match (*held, given) {
                (_, None) => {}
                (None, Some(_)) => *held = given,
                (Some(_), Some(_)) if *held == given => {}
                (Some(_), Some(_)) => return Err(BAD_PACKAGING),
            }
        }
    }

    let gross =
        if [TARE, NET, ITEMS].iter().all(|&bit| has_bit(present, bit)) { values[TARE] + values[NET] * values[ITEMS] } else { 0 };
    if gross < 0 || values.iter().any(|&value| value < 0) {
        return Err(BAD_PACKAGING);
    }
    let mut answer = PackagingAnswer { gross, values, number: DONE, present, units: [0; 9] };
    for (place, unit) in answer.units.chunks_exact_mut(3).zip(units) {
        place.copy_from_slice(&unit.unwrap_or([0; 3]));
    }
    Ok(answer)
}

/// The unconditioned record and those of the granted names; `None` without the former.
fn used_records<'a>(book: &'a Book, question: &Question) -> Option<Vec<&'a Packaging>> {
    let mut records = vec![book.packaging(&question.article, b"")?];
    for granted in question.granted_once() {
        let own = book.packaging(&question.article, &granted.name);
        records.extend(own.or_else(|| book.packaging(b"*", &granted.name)));
    }
    Some(records)
}
