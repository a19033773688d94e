//! From a price file to the price records of a book.

use super::lines::{fields, lines, says_nothing};
use super::values::{currency, date, name, one_of, quantity, rule, text_name, value};
use super::{placed, Refused};
use crate::answers::Placed;
use crate::book::{PriceRow, Rule, Value};
use std::collections::HashMap;

/// The text names of the lines so far, with their numbers.
type Names = HashMap<Vec<u8>, u32>;

/// Writes the records alone, without a book's head. Refusals: 13 with the number of the first bad line, then 7.
pub fn read_prices(file: &[u8], out: &mut [u8]) -> Placed {
    placed(records(file), out)
}

/// The records of all lines one behind the other, or the number of the first bad line. Every line is counted, from 1, also those
/// that say nothing.
pub fn records(file: &[u8]) -> Result<Vec<u8>, Refused> {
    let mut bytes = Vec::new();
    let mut names = Names::new();
    for (number, line) in (1..).zip(lines(file)) {
        if !says_nothing(line) {
            let row = row(line, &mut names).ok_or(Refused::Row(number))?;
            bytes.extend(record(&row));
        }
    }
    Ok(bytes)
}

/// The row of a line, or `None` if the line is bad.
fn row(line: &[u8], names: &mut Names) -> Option<PriceRow> {
    let fields: [Vec<u8>; 13] = fields(line)?.try_into().ok()?;
    let [article, condition, sort, level, calculated, text, amount, flag, money, from, to, scale, rounding] = fields;
    // There are no rounding records to give a name to.
    if !rounding.is_empty() {
        return None;
    }
    Some(PriceRow {
        article: name(&article, 1, 40)?,
        condition: name(&condition, 0, 20)?,
        sort: one_of(&sort, b"SP")?,
        level: one_of(&level, b"BXD")?,
        rule: rule(&calculated)?,
        text: text_number(text_name(&text)?, names),
        value: value(&amount, &flag)?,
        currency: currency(&money)?,
        from: date(&from)?,
        to: date(&to)?,
        up_to: quantity(&scale)?,
        rounding: 0,
    })
}

/// Names have the numbers 1, 2, 3 and on in the order in which they first appear; a blank one is 0.
fn text_number(name: &[u8], names: &mut Names) -> u32 {
    if name.is_empty() {
        return 0;
    }
    let next = u32::try_from(names.len() + 1).expect("no file has so many lines");
    *names.entry(name.to_vec()).or_insert(next)
}

/// The record with its length in front, as it stands in a book.
fn record(row: &PriceRow) -> Vec<u8> {
    let body = body(row);
    let length = u16::try_from(body.len()).expect("a price record is short");
    [&length.to_be_bytes()[..], &body[..]].concat()
}

/// The kind and the body of a price record.
fn body(row: &PriceRow) -> Vec<u8> {
    let (flag, value) = match row.value {
        Value::Fixed(cents) => (1, cents),
        Value::Percent(hundredths) => (0, hundredths),
    };
    let rule = match row.rule {
        Rule::BaseLines => 1,
        Rule::RunningTotal => 2,
    };
    let mut body = vec![2];
    for name in [&row.article, &row.condition] {
        body.push(name.len() as u8);
        body.extend(name);
    }
    body.extend([row.sort, row.level, rule]);
    body.extend(row.text.to_be_bytes());
    body.push(flag);
    body.extend(value.to_be_bytes());
    body.extend(row.currency);
    for number in [row.from, row.to, row.up_to] {
        body.extend(number.to_be_bytes());
    }
    body.extend(row.rounding.to_be_bytes());
    body
}
