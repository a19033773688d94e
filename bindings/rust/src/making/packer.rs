//! How fields become bytes: big-endian numbers, names with their length in front, a whole with its length and version in front.

use crate::{latin_1, FieldError};

pub(super) type Packed = Result<(), FieldError>;

/// Packs the fields of one thing, which has the name `of`.
pub(super) struct Packer<'o> {
    to: &'o mut Vec<u8>,
    of: &'static str,
}

impl<'o> Packer<'o> {
    pub fn new(to: &'o mut Vec<u8>, of: &'static str) -> Packer<'o> {
        Packer { to, of }
    }

    pub fn unfit(&self, field: &str, sentence: impl Into<String>) -> FieldError {
        FieldError::new(format!("{}.{field}", self.of), sentence)
    }

    pub fn bytes(&mut self, bytes: &[u8]) {
        self.to.extend_from_slice(bytes);
    }

    /// A name of so many bytes.
    pub fn name(&mut self, field: &str, text: &str, least: usize, most: usize) -> Packed {
        let length = text.chars().count();
        if length > most {
            return Err(self.unfit(field, format!("{length} bytes, and at most {most} are allowed")));
        }
        if length < least {
            return Err(self.unfit(field, "empty, and at least 1 byte is needed"));
        }
        self.to.push(length as u8);
        text.chars().try_for_each(|letter| self.character(field, letter))
    }

    /// A byte that names may have.
    pub fn character(&mut self, field: &str, letter: char) -> Packed {
        let byte = latin_1::byte(letter).ok_or_else(|| self.unfit(field, format!("{letter:?} is not in Latin-1")))?;
        match byte {
            32..=126 | 160..=255 => self.to.push(byte),
            _ => return Err(self.unfit(field, format!("{letter:?} is no letter that can be printed"))),
        }
        Ok(())
    }

    /// Three capitals.
    pub fn currency(&mut self, field: &str, text: &str) -> Packed {
        if text.len() != 3 || !text.bytes().all(|letter| letter.is_ascii_uppercase()) {
            return Err(self.unfit(field, format!("{text:?}, and three capitals are needed")));
        }
        self.bytes(text.as_bytes());
        Ok(())
    }

    /// A number that is allowed from `least` to `most`.
    pub fn within(&mut self, field: &str, value: u32, least: u32, most: u32) -> Packed {
        if !(least..=most).contains(&value) {
            return Err(self.unfit(field, format!("{value}, and {least} to {most} are allowed")));
        }
        self.bytes(&value.to_be_bytes());
        Ok(())
    }

    /// A signed number of four bytes that is at most so far from zero.
    pub fn near_zero(&mut self, field: &str, value: i64, most: i32) -> Packed {
        let near = i32::try_from(value).ok().filter(|value| (-most..=most).contains(value));
        let near = near.ok_or_else(|| self.unfit(field, format!("{value}, and at most {most} either side of zero is allowed")))?;
        self.bytes(&near.to_be_bytes());
        Ok(())
    }
}

const LENGTH_BYTES: usize = 4;
/// Of books and text books, and of questions without factors.
pub(super) const VERSION: u8 = 1;

/// A whole without anything in it.
pub(super) fn empty_whole(version: u8) -> Vec<u8> {
    let mut bytes = vec![0; LENGTH_BYTES];
    bytes.push(version);
    set_length(&mut bytes);
    bytes
}

/// Puts the length of a whole in front.
pub(super) fn set_length(whole: &mut [u8]) {
    let length = whole.len() as u32;
    whole[..LENGTH_BYTES].copy_from_slice(&length.to_be_bytes());
}

/// Books and text books have no more bytes than these.
const MOST_BYTES: usize = 4_194_304;

/// Lets something be packed behind a book or text book, which stays as it was if that fails.
pub(super) fn append(book: &mut Vec<u8>, of: &'static str, pack: impl FnOnce(&mut Vec<u8>) -> Packed) -> Packed {
    let before = book.len();
    let packed = pack(book).and_then(|()| match book.len() {
        length if length > MOST_BYTES => Err(FieldError::new(of, format!("{length} bytes, and at most {MOST_BYTES} are allowed"))),
        _ => Ok(()),
    });
    if packed.is_err() {
        book.truncate(before);
    }
    set_length(book);
    packed
}
