//! The manufacturer's price file in plain Rust: written for the benchmark from document 003 (1 and 2.16) and the request, to compare
//! with. The reader splits the file into lines, a line into a vector of fields, and looks text names up in a hash map; the writer
//! formats field after field. Both write into a vector. Nothing in them is tuned, and nothing is done twice.

use crate::reference;
use std::borrow::Cow;
use std::collections::HashMap;
use std::io::Write;

/// The price records of a file, or the number of the first bad line.
pub fn read(file: &[u8]) -> Result<Vec<u8>, u64> {
    let mut names = HashMap::new();
    let mut records = Vec::new();
    for (place, line) in file.split(|&byte| byte == b'\n').enumerate() {
        let blank = line.iter().all(|&byte| byte == b' ' || byte == b'\t');
        if !blank && line[0] != b'#' {
            record(line, &mut names, &mut records).ok_or(place as u64 + 1)?;
        }
    }
    Ok(records)
}

/// Puts the record of a line behind the others.
fn record(line: &[u8], names: &mut HashMap<Vec<u8>, u32>, to: &mut Vec<u8>) -> Option<()> {
    let fields = fields(line)?;
    let [article, condition, sort, level, rule, text, value, flag, currency, from, to_date, quantity, rounding] = &fields[..]
    else {
        return None;
    };
    holds(rounding.is_empty())?;
    let flag = one_of(flag, b"01")? - b'0';
    let most = if flag == 1 { 100_000_000 } else { 100_000 };
    let mut body = vec![2];
    put_name(article, 1..=40, &mut body)?;
    put_name(condition, 0..=20, &mut body)?;
    body.push(one_of(sort, b"SP")?);
    body.push(one_of(level, b"BXD")?);
    body.push(one_of(rule, b"12")? - b'0');
    body.extend(text_number(text, names)?.to_be_bytes());
    body.push(flag);
    body.extend(hundredths(value, most)?.to_be_bytes());
    holds(currency.len() == 3 && currency.iter().all(u8::is_ascii_uppercase))?;
    body.extend_from_slice(currency);
    body.extend(date(from)?.to_be_bytes());
    body.extend(date(to_date)?.to_be_bytes());
    body.extend(u32::try_from(whole(quantity)?).ok()?.to_be_bytes());
    body.extend([0, 0]);
    to.extend((body.len() as u16).to_be_bytes());
    to.extend(body);
    Some(())
}

fn fields(line: &[u8]) -> Option<Vec<Cow<'_, [u8]>>> {
    let mut fields = Vec::new();
    let mut rest = line;
    loop {
        let (field, behind) = if rest.first() == Some(&b'"') { quoted(&rest[1..])? } else { unquoted(rest) };
        fields.push(field);
        match behind.split_first() {
            None => return Some(fields),
            Some((b';', next)) => rest = next,
            Some(_) => return None,
        }
    }
}

fn unquoted(bytes: &[u8]) -> (Cow<'_, [u8]>, &[u8]) {
    let end = bytes.iter().position(|&byte| byte == b';').unwrap_or(bytes.len());
    (Cow::Borrowed(&bytes[..end]), &bytes[end..])
}

/// Behind the opening quote: up to the next one that does not stand for two, and without the spaces behind it.
fn quoted(bytes: &[u8]) -> Option<(Cow<'_, [u8]>, &[u8])> {
    let mut content = Vec::new();
    let mut place = 0;
    loop {
        match (bytes.get(place)?, bytes.get(place + 1)) {
            (b'"', Some(b'"')) => {
                content.push(b'"');
                place += 2;
            }
            (b'"', _) => break,
            (&byte, _) => {
                content.push(byte);
                place += 1;
            }
        }
    }
    let behind = &bytes[place + 1..];
    let spaces = behind.iter().take_while(|&&byte| byte == b' ').count();
    Some((Cow::Owned(content), &behind[spaces..]))
}

fn holds(fact: bool) -> Option<()> {
    fact.then_some(())
}

fn is_name(bytes: &[u8]) -> bool {
    bytes.iter().all(|byte| matches!(byte, 32..=126 | 160..=255))
}

fn put_name(name: &[u8], lengths: std::ops::RangeInclusive<usize>, to: &mut Vec<u8>) -> Option<()> {
    holds(lengths.contains(&name.len()) && is_name(name))?;
    to.push(name.len() as u8);
    to.extend(name);
    Some(())
}

fn one_of(field: &[u8], some: &[u8]) -> Option<u8> {
    match field {
        [byte] if some.contains(byte) => Some(*byte),
        _ => None,
    }
}

fn text_number(name: &[u8], names: &mut HashMap<Vec<u8>, u32>) -> Option<u32> {
    holds(is_name(name))?;
    if name.is_empty() {
        return Some(0);
    }
    if let Some(number) = names.get(name) {
        return Some(*number);
    }
    let number = names.len() as u32 + 1;
    names.insert(name.to_vec(), number);
    Some(number)
}

/// A decimal with at most two places that are not zero, times a hundred.
fn hundredths(field: &[u8], most: u64) -> Option<i32> {
    let (negative, number) = match field.split_first() {
        Some((b'-', number)) => (true, number),
        _ => (false, field),
    };
    let mut parts = number.splitn(2, |&byte| byte == b'.');
    let (before, behind) = (parts.next()?, parts.next().unwrap_or(b""));
    let (two, more) = behind.split_at(behind.len().min(2));
    holds(more.iter().all(|&byte| byte == b'0'))?;
    let mut digits = [before, two].concat();
    holds(!digits.is_empty())?;
    digits.resize(before.len() + 2, b'0');
    let size = whole(&digits)?;
    holds(size <= most)?;
    Some(if negative { -(size as i32) } else { size as i32 })
}

fn whole(digits: &[u8]) -> Option<u64> {
    holds(!digits.is_empty())?;
    digits.iter().try_fold(0u64, |number, byte| {
        holds(byte.is_ascii_digit())?;
        number.checked_mul(10)?.checked_add(u64::from(byte - b'0'))
    })
}

fn date(field: &[u8]) -> Option<u32> {
    if field.is_empty() {
        return Some(0);
    }
    holds(field.len() == 8)?;
    whole(field).map(|date| date as u32)
}

/// Why no file is written.
#[derive(Debug, PartialEq, Eq)]
pub enum Unwritten {
    BadBook,
    /// The place of the first record that makes no line.
    Record(u64),
}

/// The file of a book's price records.
pub fn write(book: &[u8]) -> Result<Vec<u8>, Unwritten> {
    if !reference::book_ok(book) {
        return Err(Unwritten::BadBook);
    }
    let mut file = Vec::new();
    let mut place = 5;
    while place < book.len() {
        let length = 2 + usize::from(u16::from_be_bytes([book[place], book[place + 1]]));
        let record = &book[place..][..length];
        if record[2] == 2 {
            line(&record[3..], &mut file).ok_or(Unwritten::Record(place as u64 + 1))?;
        }
        place += length;
    }
    Ok(file)
}

/// Puts the line of a price record's body behind the others.
fn line(body: &[u8], to: &mut Vec<u8>) -> Option<()> {
    let (article, rest) = body[1..].split_at(body[0].into());
    let (condition, rest) = rest[1..].split_at(rest[0].into());
    let number = |place: usize| u32::from_be_bytes([rest[place], rest[place + 1], rest[place + 2], rest[place + 3]]);
    let (value, from, to_date) = (number(8) as i32, number(15), number(19));
    holds(rest[27..29] == [0, 0] && from <= 99_999_999 && to_date <= 99_999_999)?;
    put_field(article, article.starts_with(b"#"), to);
    put_field(condition, false, to);
    let text = if number(3) == 0 { String::new() } else { number(3).to_string() };
    let (sign, size) = (if value < 0 { "-" } else { "" }, value.unsigned_abs());
    let letter = |place: usize| char::from(rest[place]);
    let (currency, quantity) = (String::from_utf8_lossy(&rest[12..15]), number(23));
    write!(to, "{};{};{};{text};{sign}{}.{:02};", letter(0), letter(1), rest[2], size / 100, size % 100).ok()?;
    write!(to, "{};{currency};{};{};{quantity};\n", rest[7], eight_digits(from), eight_digits(to_date)).ok()
}

fn eight_digits(date: u32) -> String {
    if date == 0 {
        String::new()
    } else {
        format!("{date:08}")
    }
}

/// A name and a semicolon, in quotes where reading needs them.
fn put_field(name: &[u8], comment: bool, to: &mut Vec<u8>) {
    if comment || name.contains(&b';') || name.starts_with(b"\"") {
        to.push(b'"');
        for &byte in name {
            if byte == b'"' {
                to.push(b'"');
            }
            to.push(byte);
        }
        to.push(b'"');
    } else {
        to.extend(name);
    }
    to.push(b';');
}
