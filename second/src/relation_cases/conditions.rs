//! Conditions of every construct.

use super::lists::{NUMBERS, PROPERTIES, TEXTS};
use super::{RelationScene, Token};
use crate::letters::{raised, small};
use crate::make::{latin1, Listed, ListedValue};

const COMPARISONS: [&str; 14] = ["<", "<=", "=", "=", "<>", "=>", ">=", ">", "LT", "LE", "EQ", "NE", "GE", "GT"];

/// Numbers that are spelled otherwise than they would be written, or as long as may be.
const SPELLED_NUMBERS: [&str; 5] = ["-0", "000", "-000000000000000005", "000000000000000900", "123456789012345678"];

impl RelationScene {
    /// A condition for one of so many assignments: where there are many, they are short.
    pub(super) fn condition(&mut self, tokens: &mut Vec<Token>, assignments: usize) {
        if assignments < 6 && self.random.percent(7) {
            let deep = self.random.pick(&[13, 14, 15, 16, 16, 17, 17, 18]);
            self.nested(tokens, deep);
        } else if assignments > 12 {
            self.single(tokens, 0);
        } else {
            self.any(tokens, 4);
        }
    }

    /// Single conditions joined by OR and AND, with so many parentheses within one another at most.
    fn any(&mut self, tokens: &mut Vec<Token>, deep: usize) {
        self.single(tokens, deep);
        while self.random.percent(38) {
            tokens.push(self.joint());
            self.single(tokens, deep);
        }
    }

    fn joint(&mut self) -> Token {
        Token::word(self.random.pick(&["AND", "OR"]))
    }

    fn single(&mut self, tokens: &mut Vec<Token>, deep: usize) {
        while self.random.percent(14) {
            tokens.push(Token::word("NOT"));
        }
        match self.random.below(20) {
            0..=3 if deep > 0 => {
                tokens.push(Token::sign("("));
                self.any(tokens, deep - 1);
                tokens.push(Token::sign(")"));
            }
            4..=6 => tokens.extend([Token::word("SPECIFIED"), self.property()]),
            7..=9 => self.one_of(tokens),
            _ => self.compared(tokens),
        }
    }

    /// So many parentheses within one another, with some conditions beside them.
    fn nested(&mut self, tokens: &mut Vec<Token>, deep: usize) {
        for _ in 0..deep {
            if self.random.percent(15) {
                self.single(tokens, 0);
                tokens.push(self.joint());
            }
            while self.random.percent(10) {
                tokens.push(Token::word("NOT"));
            }
            tokens.push(Token::sign("("));
        }
        self.single(tokens, 0);
        for _ in 0..deep {
            tokens.push(Token::sign(")"));
            if self.random.percent(15) {
                tokens.push(self.joint());
                self.single(tokens, 1);
            }
        }
    }

    fn one_of(&mut self, tokens: &mut Vec<Token>) {
        let listed = self.any_listed();
        tokens.extend([name_of(&listed), Token::word("IN"), Token::sign("(")]);
        let count = self.random.pick(&[1, 1, 2, 3, 5]);
        for place in 0..count {
            if place > 0 {
                tokens.push(Token::sign(","));
            }
            tokens.push(self.constant_for(&listed));
        }
        tokens.push(Token::sign(")"));
    }

    fn compared(&mut self, tokens: &mut Vec<Token>) {
        let listed = self.any_listed();
        let mut operands = match self.random.below(10) {
            0 | 1 => [name_of(&listed), self.property()],
            2 => [self.constant(), self.constant()],
            _ => [name_of(&listed), self.constant_for(&listed)],
        };
        if self.random.percent(25) {
            operands.reverse();
        }
        let [left, right] = operands;
        let comparison = self.random.pick(&COMPARISONS);
        let sign = if comparison.as_bytes()[0].is_ascii_alphabetic() { Token::word(comparison) } else { Token::sign(comparison) };
        tokens.extend([left, sign, right]);
    }

    /// A property of the list, if a text can say its name, or one that may be missing there.
    fn any_listed(&mut self) -> Listed {
        if !self.properties.is_empty() && self.random.percent(85) {
            let listed = self.random.pick(&self.properties);
            if PROPERTIES.iter().any(|name| latin1(name) == listed.name) {
                return listed;
            }
        }
        Listed::none(self.random.pick(&PROPERTIES))
    }

    fn property(&mut self) -> Token {
        name_of(&self.any_listed())
    }

    /// Often the property's own value, or one that is close to it.
    fn constant_for(&mut self, listed: &Listed) -> Token {
        match &listed.value {
            ListedValue::Text(text) if self.random.percent(50) => self.close_text(text),
            ListedValue::Number(number) if self.random.percent(50) => self.close_number(*number),
            _ => self.constant(),
        }
    }

    fn close_text(&mut self, text: &[u8]) -> Token {
        let mut text = text.to_vec();
        match self.random.below(6) {
            0 => text = text.into_iter().map(small).collect(),
            1 => text = raised(&text),
            2 => text.push(self.random.pick(b"aA_ \0\xff")),
            3 => _ = text.pop(),
            _ => {}
        }
        Token::Text(text)
    }

    /// A constant has eighteen digits at most, and so has one close to it.
    fn close_number(&mut self, number: i64) -> Token {
        const GREATEST: i64 = 999_999_999_999_999_999;
        let step = self.random.pick(&[-1, 0, 0, 0, 1]);
        Token::number(number.clamp(-GREATEST + 1, GREATEST - 1) + step)
    }

    fn constant(&mut self) -> Token {
        match self.random.below(20) {
            0..=9 => Token::Text(latin1(self.random.pick(&TEXTS))),
            10 => Token::Text(self.odd_text()),
            11 => Token::Number(self.random.pick(&SPELLED_NUMBERS).into()),
            _ => Token::number(self.random.pick(&NUMBERS)),
        }
    }

    /// Any bytes but the quote.
    fn odd_text(&mut self) -> Vec<u8> {
        let length = self.random.pick(&[1, 2, 5, 30]);
        let any = (0..length).map(|_| self.random.byte()).collect::<Vec<_>>();
        any.into_iter().filter(|&byte| byte != b'\'').collect()
    }
}

fn name_of(listed: &Listed) -> Token {
    Token::Word(listed.name.clone())
}
