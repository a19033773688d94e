//! What a field of a price file may say. `None` is a field that makes its line bad.

use crate::book::{Rule, Value};
use crate::reader::is_name_byte;

/// So many name bytes as the book allows there.
pub fn name(field: &[u8], shortest: usize, longest: usize) -> Option<Vec<u8>> {
    let fits = shortest <= field.len() && field.len() <= longest;
    (fits && field.iter().all(|&byte| is_name_byte(byte))).then(|| field.to_vec())
}

/// A name of the text table: name bytes, none at all or any number of them.
pub fn text_name(field: &[u8]) -> Option<&[u8]> {
    field.iter().all(|&byte| is_name_byte(byte)).then_some(field)
}

/// One character of those given.
pub fn one_of(field: &[u8], allowed: &[u8]) -> Option<u8> {
    match field {
        [byte] if allowed.contains(byte) => Some(*byte),
        _ => None,
    }
}

/// An empty rule is bad: nothing says what it would become.
pub fn rule(field: &[u8]) -> Option<Rule> {
    match one_of(field, b"12")? {
        b'1' => Some(Rule::BaseLines),
        _ => Some(Rule::RunningTotal),
    }
}

/// The flag decides what the number is and how great it may be, as in the book.
pub fn value(number: &[u8], flag: &[u8]) -> Option<Value> {
    match one_of(flag, b"01")? {
        b'1' => Some(Value::Fixed(within(hundredths(number)?, 100_000_000)?)),
        _ => Some(Value::Percent(within(hundredths(number)?, 100_000)?)),
    }
}

fn within(number: i64, bound: i64) -> Option<i32> {
    if -bound <= number && number <= bound {
        i32::try_from(number).ok()
    } else {
        None
    }
}

/// A number with at most two decimals, times a hundred: perhaps a minus, then digits, at least one, with at most one point among
/// them, before them or behind them. Decimals behind the second must be zeros.
fn hundredths(field: &[u8]) -> Option<i64> {
    let (sign, number) = match field {
        [b'-', number @ ..] => (-1, number),
        _ => (1, field),
    };
    let (whole, decimals) = split_at_point(number);
    if whole.is_empty() && decimals.is_empty() {
        return None;
    }
    if decimals.iter().skip(2).any(|&digit| digit != b'0') {
        return None;
    }
    let mut two = decimals.to_vec();
    two.resize(2, b'0');
    let size = digits(&[whole, &two[..]].concat())?;
    Some(sign * i64::try_from(size).ok()?)
}

/// What stands before the first point and what behind it; without a point, nothing stands behind it.
fn split_at_point(number: &[u8]) -> (&[u8], &[u8]) {
    match number.iter().position(|&byte| byte == b'.') {
        Some(point) => (&number[..point], &number[point + 1..]),
        None => (number, &[]),
    }
}

/// A whole number of digits alone, at least one; leading zeros are good. `None` also if 64 bits do not hold it, which is beyond
/// every bound here.
fn digits(field: &[u8]) -> Option<u64> {
    if field.is_empty() {
        return None;
    }
    let mut number: u64 = 0;
    for byte in field {
        if !byte.is_ascii_digit() {
            return None;
        }
        number = number.checked_mul(10)?.checked_add(u64::from(byte - b'0'))?;
    }
    Some(number)
}

/// Three capitals; an empty currency is bad.
pub fn currency(field: &[u8]) -> Option<[u8; 3]> {
    let currency: [u8; 3] = field.try_into().ok()?;
    currency.iter().all(u8::is_ascii_uppercase).then_some(currency)
}

/// Empty is 0; else eight digits, whether or not they are a day.
pub fn date(field: &[u8]) -> Option<u32> {
    match field.len() {
        0 => Some(0),
        8 => u32::try_from(digits(field)?).ok(),
        _ => None,
    }
}

/// The number as it stands: what the book calls up-to is copied.
pub fn quantity(field: &[u8]) -> Option<u32> {
    u32::try_from(digits(field)?).ok()
}
