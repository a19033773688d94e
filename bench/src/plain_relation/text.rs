//! The bytes of a relation: blanks, words, signs, strings and numbers.

use super::tree::Comparison;
use super::Refused;
use std::cmp::Ordering;

const MOST_DIGITS: usize = 18;

pub struct Text<'a> {
    bytes: &'a [u8],
    /// How many of them are read.
    read: usize,
}

pub fn begins_word(byte: u8) -> bool {
    byte.is_ascii_alphabetic() || byte == b'_'
}

impl<'a> Text<'a> {
    pub fn new(bytes: &'a [u8]) -> Text<'a> {
        Text { bytes, read: 0 }
    }

    /// The next byte that is no blank, which is not read yet; `None` at the end.
    pub fn next(&mut self) -> Option<u8> {
        self.run(|byte| matches!(byte, b' ' | b'\t' | b'\n' | b'\r'));
        self.bytes.get(self.read).copied()
    }

    pub fn needs(&mut self, byte: u8) -> Result<(), Refused> {
        if self.next() != Some(byte) {
            return Err(self.wrong());
        }
        self.read += 1;
        Ok(())
    }

    /// Of the byte at hand, from 1; at the end, one more than there are bytes.
    pub fn place(&self) -> usize {
        self.read + 1
    }

    /// No text has the byte at hand here, or none ends here.
    pub fn wrong(&self) -> Refused {
        Refused { number: 14, place: self.place() }
    }

    pub fn word(&mut self) -> &'a [u8] {
        self.run(|byte| begins_word(byte) || byte.is_ascii_digit())
    }

    /// One of these words, and what it means. The first byte is wrong with which none of them goes on.
    pub fn keyword<M: Copy>(&mut self, words: &[(&str, M)]) -> Result<M, Refused> {
        let found = self.word();
        if let Some((_, meaning)) = words.iter().find(|(word, _)| word.as_bytes().eq_ignore_ascii_case(found)) {
            return Ok(*meaning);
        }
        let alike = |word: &str| word.bytes().zip(found).take_while(|(due, byte)| due.eq_ignore_ascii_case(byte)).count();
        let most = words.iter().map(|(word, _)| alike(word)).max();
        self.read -= found.len() - most.unwrap_or(0);
        Err(self.wrong())
    }

    /// The sign of a comparison, if one is at hand.
    pub fn sign(&mut self) -> Option<Comparison> {
        self.next();
        let (sign, comparison): (usize, Comparison) = match self.bytes[self.read..] {
            [b'<', b'=', ..] => (2, Ordering::is_le),
            [b'<', b'>', ..] => (2, Ordering::is_ne),
            [b'=', b'>', ..] | [b'>', b'=', ..] => (2, Ordering::is_ge),
            [b'<', ..] => (1, Ordering::is_lt),
            [b'=', ..] => (1, Ordering::is_eq),
            [b'>', ..] => (1, Ordering::is_gt),
            _ => return None,
        };
        self.read += sign;
        Some(comparison)
    }

    pub fn string(&mut self) -> Result<&'a [u8], Refused> {
        self.needs(b'\'')?;
        let string = self.run(|byte| byte != b'\'');
        self.needs(b'\'')?;
        Ok(string)
    }

    pub fn number(&mut self) -> Result<i64, Refused> {
        let negative = self.next() == Some(b'-');
        self.read += usize::from(negative);
        let digits = self.run(|byte| byte.is_ascii_digit());
        if digits.is_empty() {
            return Err(self.wrong());
        }
        if digits.len() > MOST_DIGITS {
            self.read -= digits.len() - MOST_DIGITS;
            return Err(self.wrong());
        }
        let size = digits.iter().fold(0, |size, digit| size * 10 + i64::from(digit - b'0'));
        Ok(if negative { -size } else { size })
    }

    /// The longest run of such bytes.
    fn run(&mut self, such: impl Fn(u8) -> bool) -> &'a [u8] {
        let rest = &self.bytes[self.read..];
        let length = rest.iter().position(|&byte| !such(byte)).unwrap_or(rest.len());
        self.read += length;
        &rest[..length]
    }
}
