//! Text books.

use super::packer::{append, empty_whole, Packed, VERSION};
use super::FieldError;
use crate::latin_1;
use std::ops::Deref;

/// A text book that is being made: the texts of lines by their numbers. At any time it is the bytes of a good text book, and can be
/// lent to [`text`](crate::text()) as such. Of texts with one number the first counts.
#[derive(Clone, Debug, PartialEq, Eq)]
pub struct TextBook {
    bytes: Vec<u8>,
    texts: usize,
}

impl TextBook {
    /// A text book without texts.
    pub fn new() -> TextBook {
        TextBook { bytes: empty_whole(VERSION), texts: 0 }
    }

    /// Packs a text in Latin-1. If a letter of it is not in Latin-1, or there is no room for it, the book stays as it is.
    pub fn add(&mut self, number: u32, text: &str) -> Result<&mut TextBook, FieldError> {
        let byte = |letter| {
            let unfit = || FieldError::new("TextBook.text", format!("{letter:?} is not in Latin-1")).in_record(self.texts + 1);
            latin_1::byte(letter).ok_or_else(unfit)
        };
        let bytes = text.chars().map(byte).collect::<Result<Vec<u8>, FieldError>>()?;
        self.add_bytes(number, &bytes)
    }

    /// Packs a text in whatever letters its readers expect.
    pub fn add_bytes(&mut self, number: u32, text: &[u8]) -> Result<&mut TextBook, FieldError> {
        let place = self.texts + 1;
        append(&mut self.bytes, "TextBook", |bytes| pack(bytes, number, text)).map_err(|error| error.in_record(place))?;
        self.texts = place;
        Ok(self)
    }

    /// The bytes alone.
    pub fn into_bytes(self) -> Vec<u8> {
        self.bytes
    }
}

fn pack(to: &mut Vec<u8>, number: u32, text: &[u8]) -> Packed {
    let most = u16::MAX;
    let length = u16::try_from(text.len())
        .map_err(|_| FieldError::new("TextBook.text", format!("{} bytes, and at most {most} are allowed", text.len())))?;
    to.extend(number.to_be_bytes());
    to.extend(length.to_be_bytes());
    to.extend(text);
    Ok(())
}

impl Default for TextBook {
    fn default() -> TextBook {
        TextBook::new()
    }
}

impl Deref for TextBook {
    type Target = [u8];

    fn deref(&self) -> &[u8] {
        &self.bytes
    }
}
