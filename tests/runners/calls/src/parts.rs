//! The parts that vectors are made of: bytes from hex, an article's rows, questions. Article `A1`, sale, euros, all of 2024.

use second::make::{Price, Question};

/// A day on which the rows below hold.
pub const DAY: u32 = 20240615;

/// A price book with an article record of `A1` and the records given.
#[macro_export]
macro_rules! book {
    ($($record:expr),* $(,)?) => {
        second::make::book(&[second::make::Article::new("A1", "").into(), $($record.into()),*])
    };
}

/// The bytes that hex digits say; blanks between them are for the reader. `None` if they are no such digits.
pub fn hex(digits: &str) -> Option<Vec<u8>> {
    let digits: Vec<u8> = digits.bytes().filter(|byte| *byte != b' ').collect();
    digits
        .chunks(2)
        .map(|pair| match std::str::from_utf8(pair) {
            Ok(pair) if pair.len() == 2 => u8::from_str_radix(pair, 16).ok(),
            _ => None,
        })
        .collect()
}

/// A fixed base row with its text number.
pub fn base(text: u32, cents: i32) -> Price {
    Price::fixed("A1", b'B', cents).text(text)
}

/// A fixed surcharge.
pub fn extra(text: u32, cents: i32) -> Price {
    Price::fixed("A1", b'X', cents).text(text)
}

/// A fixed discount.
pub fn off(text: u32, cents: i32) -> Price {
    Price::fixed("A1", b'D', cents).text(text)
}

/// A percentage, in hundredths of a percent, on a level by a rule.
pub fn share(text: u32, level: u8, rule: u8, hundredths: i32) -> Price {
    Price::percent("A1", level, rule, hundredths).text(text)
}

/// Asks for one `A1`, at the sale price, in euros.
pub fn ask(date: u32) -> Question {
    Question::new("A1", date)
}

/// Book K. The text numbers show each of their four bytes, and that they have no sign.
pub fn k() -> Vec<u8> {
    book![
        base(0x0102_0304, 10_000).dates(20240101, 20240630),
        base(0xFFFF_FFFF, 10_500).dates(20240701, 20241231),
        share(7, b'X', 1, 1_250).condition("OAK"),
        share(0x8000_0000, b'D', 2, -333),
    ]
}
