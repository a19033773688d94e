//! From the price records of a book to a price file.

use super::{placed, Refused};
use crate::answers::Placed;
use crate::book::{Book, PriceRow, Rule, Value};
use crate::reader::opened;
use crate::refusal::BAD_BOOK;

/// The greatest date that eight digits can say.
const GREATEST_DATE: u32 = 99_999_999;

const PRICE_KIND: u8 = 2;

/// Refusals: 1, then 13 with the place of the first price record that no line can say, then 7.
pub fn write_prices(book: &[u8], out: &mut [u8]) -> Placed {
    placed(file_of(book), out)
}

/// A line for each price record of the book, in book order.
pub fn file_of(book: &[u8]) -> Result<Vec<u8>, Refused> {
    let rows = Book::read(book).ok_or(Refused::Whole(BAD_BOOK))?.prices;
    for (row, place) in rows.iter().zip(places(book)) {
        if row.rounding != 0 || row.from > GREATEST_DATE || row.to > GREATEST_DATE {
            return Err(Refused::Row(place));
        }
    }
    Ok(rows.iter().flat_map(line).collect())
}

/// Where each price record of a good book begins: the place of the first byte of its length, the book's first byte being 1.
fn places(book: &[u8]) -> Vec<u64> {
    let mut reader = opened(book).expect("the book is good");
    let mut places = Vec::new();
    while !reader.at_end() {
        let place = reader.place() as u64 + 1;
        let length = reader.u16().expect("the book is good");
        let record = reader.take(usize::from(length)).expect("the book is good");
        if record[0] == PRICE_KIND {
            places.push(place);
        }
    }
    places
}

/// Thirteen fields, the last one empty, and the line end.
fn line(row: &PriceRow) -> Vec<u8> {
    let (value, flag) = match row.value {
        Value::Fixed(cents) => (cents, "1"),
        Value::Percent(hundredths) => (hundredths, "0"),
    };
    let rule = match row.rule {
        Rule::BaseLines => "1",
        Rule::RunningTotal => "2",
    };
    let fields: [Vec<u8>; 13] = [
        written_article(&row.article),
        written(&row.condition),
        vec![row.sort],
        vec![row.level],
        rule.into(),
        written_text_number(row.text).into(),
        with_two_decimals(value).into(),
        flag.into(),
        row.currency.to_vec(),
        written_date(row.from).into(),
        written_date(row.to).into(),
        row.up_to.to_string().into(),
        Vec::new(),
    ];
    let mut line = fields.join(&b';');
    line.push(b'\n');
    line
}

/// An article that starts with `#` would begin a comment.
fn written_article(article: &[u8]) -> Vec<u8> {
    if article.starts_with(b"#") {
        quoted(article)
    } else {
        written(article)
    }
}

/// Quotes stand where reading needs them: around a semicolon, and around what starts with a quote.
fn written(name: &[u8]) -> Vec<u8> {
    if name.contains(&b';') || name.starts_with(b"\"") {
        quoted(name)
    } else {
        name.to_vec()
    }
}

fn quoted(name: &[u8]) -> Vec<u8> {
    let mut field = vec![b'"'];
    for &byte in name {
        if byte == b'"' {
            field.push(b'"');
        }
        field.push(byte);
    }
    field.push(b'"');
    field
}

/// In decimal, 0 blank.
fn written_text_number(number: u32) -> String {
    if number == 0 {
        String::new()
    } else {
        number.to_string()
    }
}

/// Always a digit before the point and two behind it.
fn with_two_decimals(hundredths: i32) -> String {
    let sign = if hundredths < 0 { "-" } else { "" };
    let size = hundredths.unsigned_abs();
    format!("{sign}{}.{:02}", size / 100, size % 100)
}

/// In eight digits, 0 blank.
fn written_date(date: u32) -> String {
    if date == 0 {
        String::new()
    } else {
        format!("{date:08}")
    }
}
