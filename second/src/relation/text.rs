//! The bytes of a relation: blanks, words, signs, strings and numbers. Whatever does not fit is refused at its first byte that does
//! not, and what ends too early at the place behind the last byte.

use super::tree::Comparison;
use super::Refused;
use crate::refusal::BAD_RELATION;

const MOST_DIGITS: usize = 18;

/// Those of two bytes first, as the longest one counts.
const SIGNS: [(&[u8], Comparison); 7] = [
    (b"<=", Comparison::LessOrEqual),
    (b"<>", Comparison::Unequal),
    (b"=>", Comparison::GreaterOrEqual),
    (b">=", Comparison::GreaterOrEqual),
    (b"<", Comparison::Less),
    (b"=", Comparison::Equal),
    (b">", Comparison::Greater),
];

pub struct Text<'a> {
    bytes: &'a [u8],
    taken: usize,
}

pub fn is_blank(byte: u8) -> bool {
    b" \t\n\r".contains(&byte)
}

pub fn begins_word(byte: u8) -> bool {
    byte.is_ascii_alphabetic() || byte == b'_'
}

fn goes_on_in_word(byte: u8) -> bool {
    begins_word(byte) || byte.is_ascii_digit()
}

impl<'a> Text<'a> {
    pub fn new(bytes: &'a [u8]) -> Self {
        Text { bytes, taken: 0 }
    }

    /// The byte at hand; `None` at the end.
    pub fn next(&self) -> Option<u8> {
        self.bytes.get(self.taken).copied()
    }

    /// The place of the byte at hand, from 1; at the end, the one behind the last byte.
    pub fn place(&self) -> u64 {
        self.taken as u64 + 1
    }

    /// Nothing goes on with the byte at hand, or nothing ends here.
    pub fn wrong(&self) -> Refused {
        Refused { number: BAD_RELATION, place: self.place() }
    }

    pub fn skip_blanks(&mut self) {
        while self.next().is_some_and(is_blank) {
            self.taken += 1;
        }
    }

    /// Takes this byte if it is at hand.
    pub fn takes(&mut self, byte: u8) -> bool {
        let there = self.next() == Some(byte);
        self.taken += usize::from(there);
        there
    }

    pub fn needs(&mut self, byte: u8) -> Result<(), Refused> {
        if self.takes(byte) {
            Ok(())
        } else {
            Err(self.wrong())
        }
    }

    /// The longest run of word bytes, raised.
    pub fn word(&mut self) -> Vec<u8> {
        let start = self.taken;
        while self.next().is_some_and(goes_on_in_word) {
            self.taken += 1;
        }
        self.bytes[start..self.taken].to_ascii_uppercase()
    }

    /// One of these words where no name may stand, and what it means. A byte is wrong if none of them goes on with it, or if it
    /// ends a word that is none of them.
    pub fn keyword<M: Copy>(&mut self, words: &[(&str, M)]) -> Result<M, Refused> {
        let start = self.taken;
        while self.next().is_some_and(goes_on_in_word) {
            let longer = self.bytes[start..=self.taken].to_ascii_uppercase();
            if !words.iter().any(|(word, _)| word.as_bytes().starts_with(&longer)) {
                return Err(self.wrong());
            }
            self.taken += 1;
        }
        let run = self.bytes[start..self.taken].to_ascii_uppercase();
        let found = words.iter().find(|(word, _)| word.as_bytes() == run);
        found.map(|(_, meaning)| *meaning).ok_or(self.wrong())
    }

    /// A sign that compares, if one is at hand.
    pub fn sign(&mut self) -> Option<Comparison> {
        let rest = &self.bytes[self.taken..];
        let (sign, comparison) = SIGNS.iter().find(|(sign, _)| rest.starts_with(sign))?;
        self.taken += sign.len();
        Some(*comparison)
    }

    /// Whatever stands between two quotes.
    pub fn string(&mut self) -> Result<Vec<u8>, Refused> {
        self.needs(b'\'')?;
        let start = self.taken;
        while self.next().is_some_and(|byte| byte != b'\'') {
            self.taken += 1;
        }
        let string = self.bytes[start..self.taken].to_vec();
        self.needs(b'\'')?;
        Ok(string)
    }

    /// Perhaps a minus, and right behind it 1 to 18 digits.
    pub fn number(&mut self) -> Result<i64, Refused> {
        let sign = if self.takes(b'-') { -1 } else { 1 };
        let start = self.taken;
        let mut size = 0;
        while let Some(digit @ b'0'..=b'9') = self.next() {
            if self.taken - start == MOST_DIGITS {
                return Err(self.wrong());
            }
            size = size * 10 + i64::from(digit - b'0');
            self.taken += 1;
        }
        if self.taken == start {
            return Err(self.wrong());
        }
        Ok(sign * size)
    }
}
