//! Lines of a megabyte, bad lines far down, and many text names.

use super::{good_line, good_records, row, shown, with, Fault, ARTICLE, CONDITION, FROM, QUANTITY, SORT, TEXT, VALUE};
use crate::make::{Price, Record};

const LENGTH: usize = 1_000_000;

pub fn faults() -> Vec<Fault> {
    let mut faults = vec![long_texts()];
    faults.extend(good_lines());
    faults.extend(bad_lines());
    faults.extend(far_down());
    faults.extend(many_names());
    faults
}

fn many(byte: u8) -> Vec<u8> {
    vec![byte; LENGTH]
}

/// A long line behind a good one, and before one.
fn in_line_2(line: &[u8], due: Option<Vec<u8>>) -> Fault {
    let what = format!("a long line, {}", shown(line));
    let file = [&good_line()[..], line, &good_line()].join(&b'\n');
    match due {
        Some(records) => Fault::of_file(what, &file, Some(Ok([good_records(1), records, good_records(1)].concat()))),
        None => Fault::bad_at(what, &file, 2),
    }
}

/// Two texts whose names differ in the last byte alone, and each of them once more.
fn long_texts() -> Fault {
    let (one, mut other) = (many(b't'), many(b't'));
    other[LENGTH - 1] = b'u';
    let file = [&one, &other, &one, &other].map(|name| with(TEXT, name)).join(&b'\n');
    let records = [1, 2, 1, 2].map(|number| Record::from(row().text(number)).bytes()).concat();
    Fault::of_file("long names of texts".to_string(), &file, Some(Ok(records)))
}

fn good_lines() -> Vec<Fault> {
    let one = |row: Price| Some(Record::from(row).bytes());
    let zeros = |before: &[u8], behind: &[u8]| [before, &many(b'0'), behind].concat();
    vec![
        in_line_2(&[b"#", &many(b'"')[..]].concat(), Some(Vec::new())),
        in_line_2(&many(b' '), Some(Vec::new())),
        in_line_2(&with(TEXT, &[b"\"", &many(b'"')[..], b"\""].concat()), one(row().text(1))),
        in_line_2(&with(CONDITION, &[b"\"OAK\"", &many(b' ')[..]].concat()), one(row().condition("OAK"))),
        in_line_2(&with(VALUE, &zeros(b"-", b"5.00")), one(Price { value: -500, ..row() })),
        in_line_2(&with(VALUE, &zeros(b"5.", b"")), one(Price { value: 500, ..row() })),
        in_line_2(&with(QUANTITY, &zeros(b"", b"9")), one(row().up_to(9))),
    ]
}

fn bad_lines() -> Vec<Fault> {
    let zeros = |before: &[u8], behind: &[u8]| [before, &many(b'0'), behind].concat();
    let bad = [
        many(b';'),
        many(b'A'),
        many(b'"'),
        many(b'\0'),
        many(b'\r'),
        [&many(b' ')[..], b"#"].concat(),
        with(ARTICLE, &many(b'A')),
        with(CONDITION, &many(b'A')),
        with(SORT, &many(b'S')),
        with(TEXT, &[b"\"", &many(b't')[..]].concat()),
        with(TEXT, &[&many(b't')[..], b"\0"].concat()),
        with(VALUE, &many(b'9')),
        with(VALUE, &zeros(b"5.", b"1")),
        with(FROM, &many(b'0')),
        with(QUANTITY, &zeros(b"1", b"")),
        [&good_line()[..], &many(b' ')].concat(),
    ];
    bad.iter().map(|line| in_line_2(line, None)).collect()
}

/// Bad lines where one byte, and two, no longer count the lines.
fn far_down() -> Vec<Fault> {
    let mut faults = Vec::new();
    for line in [255, 256, 257, 65_535, 65_536, 65_537] {
        let before = [&good_line()[..], b"\n"].concat().repeat(line - 1);
        faults.push(Fault::bad_at(format!("line {line} bad"), &[&before[..], b"bad\nbad"].concat(), line as u64));
        let comments = b"#\n".repeat(line - 1);
        faults.push(Fault::bad_at(format!("line {line} bad behind comments"), &[&comments[..], b"bad"].concat(), line as u64));
    }
    faults
}

/// The names, then the same from the last to the first: each has the number of its place. They are spelled in turns without quotes
/// and with them.
fn there_and_back(what: &str, names: &[Vec<u8>]) -> Fault {
    let numbers = 1..=names.len() as u32;
    let order: Vec<u32> = numbers.clone().chain(numbers.rev()).collect();
    let line = |&number: &u32| {
        let name = &names[number as usize - 1];
        let spelled = if number % 3 == 0 { [b"\"", &name[..], b"\" "].concat() } else { name.clone() };
        with(TEXT, &spelled)
    };
    let file = order.iter().map(line).collect::<Vec<_>>().join(&b'\n');
    let records = order.iter().flat_map(|&number| Record::from(row().text(number)).bytes()).collect();
    Fault::of_file(what.to_string(), &file, Some(Ok(records)))
}

/// More names than two bytes can count; names of the same letters, which a sum would not tell apart; and names of which each begins
/// the next.
fn many_names() -> Vec<Fault> {
    let counted: Vec<Vec<u8>> = (0..70_000).map(|number| format!("n{number}").into_bytes()).collect();
    let beginnings: Vec<Vec<u8>> = (1..=1_000).map(|length| vec![b't'; length]).collect();
    vec![
        there_and_back("70,000 names of texts", &counted),
        there_and_back("names of texts of the same letters", &orders_of(b"ABCDabc")),
        there_and_back("names of texts that begin one another", &beginnings),
    ]
}

/// Every order of some letters.
fn orders_of(letters: &[u8]) -> Vec<Vec<u8>> {
    if letters.is_empty() {
        return vec![Vec::new()];
    }
    let mut orders = Vec::new();
    for (place, &first) in letters.iter().enumerate() {
        let others = [&letters[..place], &letters[place + 1..]].concat();
        orders.extend(orders_of(&others).into_iter().map(|order| [&[first], &order[..]].concat()));
    }
    orders
}
