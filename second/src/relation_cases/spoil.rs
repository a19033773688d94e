//! Spoils the tokens of a text, or damages the finished text. Here and there the text stays good, so that both sides of a bound are
//! met.

use super::{RelationScene, Token};
use crate::cases::Damage;

/// Tokens to put where they most often do not belong.
const WORDS: [&str; 30] = [
    "AND",
    "OR",
    "NOT",
    "IF",
    "IN",
    "SPECIFIED",
    "LT",
    "LE",
    "EQ",
    "NE",
    "GE",
    "GT",
    "BAN",
    "SET_PRICING_FACTOR",
    "SET_PCKG_FACTOR",
    "$VARCOND",
    "$BAN",
    "$VARCONDS",
    "$",
    "VARCOND",
    "AN",
    "ANDS",
    "A",
    "I",
    "IS",
    "L",
    "LIKE",
    "N",
    "SPECIFIE",
    "_",
];

const SIGNS: [&str; 18] = ["(", ")", ",", "=", "<", ">", "<>", "=>", "=<", "==", "!=", "(", ")", ";", "-", "+", "\"", "."];

/// Bytes that mean something in a text, or nothing anywhere.
const BYTES: &[u8] = b"''(),,=<>-$_ \t\n\r0199AaDdFINnORTz#.;\"\0\x0b\x7f\xa0\xc4\xe4";

impl RelationScene {
    /// Takes a token out, puts one in, puts one in the place of another, repeats one, lets two change places, or makes a number
    /// longer.
    pub(super) fn spoil_tokens(&mut self, tokens: &mut Vec<Token>) {
        let (place, other) = (self.random.below(tokens.len()), self.random.below(tokens.len()));
        match self.random.below(10) {
            0 | 1 => _ = tokens.remove(place),
            2 | 3 => tokens.insert(place, self.odd_token()),
            4 | 5 => tokens[place] = self.odd_token(),
            6 => tokens.insert(place, tokens[place].clone()),
            7 => tokens.swap(place, other),
            _ => self.lengthen_number(tokens),
        }
    }

    /// To as many digits as a number may have, or to one more or less.
    fn lengthen_number(&mut self, tokens: &mut [Token]) {
        let length = self.random.pick(&[17, 18, 19, 19, 20]);
        let number = tokens.iter_mut().find_map(|token| if let Token::Number(number) = token { Some(number) } else { None });
        if let Some(number) = number {
            let sign = usize::from(number.first() == Some(&b'-'));
            number.resize(length + sign, b'7');
        }
    }

    fn odd_token(&mut self) -> Token {
        match self.random.below(8) {
            0..=3 => Token::word(self.random.pick(&WORDS)),
            4..=6 => Token::sign(self.random.pick(&SIGNS)),
            _ => Token::Number(self.random.pick(&["0", "1", "5", "9"]).repeat(self.random.between(1, 20)).into()),
        }
    }

    /// Changes a byte or more of the finished text.
    pub(super) fn spoil_text(&mut self, text: &mut Vec<u8>) {
        self.text_damage().apply(text);
        if self.random.percent(20) {
            self.text_damage().apply(text);
        }
    }

    fn text_damage(&mut self) -> Damage {
        let place = self.random.below(1 << 20);
        match self.random.below(10) {
            0 => Damage::DropLast(self.random.between(1, 30)),
            1 | 2 => Damage::KeepFirst(self.random.below(100)),
            3 => Damage::Append((0..self.random.between(1, 4)).map(|_| self.random.pick(BYTES)).collect()),
            4 | 5 => Damage::Change { place, mask: 1 << self.random.below(8) },
            6 => Damage::Change { place, mask: self.random.byte() },
            7 | 8 => Damage::Insert { place, byte: self.random.pick(BYTES) },
            _ => Damage::Remove { place },
        }
    }
}
