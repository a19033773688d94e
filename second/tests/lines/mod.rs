//! Asks for a price and reads its lines back.

use second::make::Question;
use second::price::LINE_LENGTH;
use second::{price, PriceAnswer};

/// What lent bytes hold before a call.
pub const PATTERN: u8 = 0xA5;

/// A line as the tests read it: text number, level, place, amount, factor.
pub type Line = (u32, char, u8, i64, u16);

/// Prices with a long buffer and reads back the lines; bytes behind them must be untouched.
pub fn lines_of(book: &[u8], question: &Question) -> (PriceAnswer, Vec<Line>) {
    let mut out = [PATTERN; 99 * LINE_LENGTH + 5];
    let answer = price(book, &question.bytes(), &mut out);
    let (written, behind) = out.split_at(answer.lines as usize * LINE_LENGTH);
    assert!(behind.iter().all(|&byte| byte == PATTERN));
    (answer, written.chunks_exact(LINE_LENGTH).map(line).collect())
}

fn line(bytes: &[u8]) -> Line {
    (
        u32::from_be_bytes(bytes[0..4].try_into().unwrap()),
        char::from(bytes[4]),
        bytes[5],
        i64::from_be_bytes(bytes[6..14].try_into().unwrap()),
        u16::from_be_bytes(bytes[14..16].try_into().unwrap()),
    )
}

pub fn amounts(book: &[u8], question: &Question) -> Vec<i64> {
    lines_of(book, question).1.iter().map(|line| line.3).collect()
}

/// The unit total or the refusal.
pub fn unit(book: &[u8], question: &Question) -> Result<i64, u8> {
    let (answer, _) = lines_of(book, question);
    if answer.number == 0 {
        Ok(answer.unit)
    } else {
        assert_eq!(answer, refused(answer.number));
        Err(answer.number)
    }
}

pub fn refused(number: u8) -> PriceAnswer {
    PriceAnswer { number, ..PriceAnswer::default() }
}
