//! Text books and the text of a line.

use crate::answers::TextAnswer;
use crate::reader::{opened, LONGEST_BOOK};
use crate::refusal::{BAD_BOOK, DONE, NO_TEXT};

/// Where a text lies in its book.
#[derive(Debug, Clone, Copy)]
pub struct TextRecord {
    pub number: u32,
    pub place: usize,
    pub length: usize,
}

/// All records of a text book, or `None` if it breaks its layout.
pub fn read_text_book(bytes: &[u8]) -> Option<Vec<TextRecord>> {
    if bytes.len() > LONGEST_BOOK {
        return None;
    }
    let mut reader = opened(bytes)?;
    let mut records = Vec::new();
    while !reader.at_end() {
        let number = reader.u32()?;
        let length = usize::from(reader.u16()?);
        let place = reader.place();
        reader.take(length)?;
        records.push(TextRecord { number, place, length });
    }
    Some(records)
}

pub fn text_book_ok(bytes: &[u8]) -> bool {
    read_text_book(bytes).is_some()
}

/// Finds a text in the asked book, else in the fallback book, and says where it lies there:
/// the place of its first byte, counted from 0 at the book's first byte.
pub fn text(asked: &[u8], fallback: &[u8], number: u32) -> TextAnswer {
    let (Some(asked), Some(fallback)) = (read_text_book(asked), read_text_book(fallback)) else {
        return TextAnswer::refused(BAD_BOOK);
    };
    for (book, records) in [(1, asked), (2, fallback)] {
        if let Some(record) = records.iter().find(|record| record.number == number) {
            return TextAnswer { place: record.place as u64, length: record.length as u64, number: DONE, book };
        }
    }
    TextAnswer::refused(NO_TEXT)
}
