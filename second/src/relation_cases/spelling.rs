//! The tokens of a text, and the many ways to spell the same text.

use super::RelationScene;

#[derive(Debug, Clone, PartialEq, Eq)]
pub enum Token {
    /// Its letters may be small or not.
    Word(Vec<u8>),
    Number(Vec<u8>),
    /// What stands between the quotes.
    Text(Vec<u8>),
    Sign(Vec<u8>),
}

const BLANKS: [&[u8]; 7] = [b" ", b" ", b"  ", b"\t", b"\n", b"\r\n", b" \t \n "];

impl Token {
    pub fn word(word: &str) -> Token {
        Token::Word(word.into())
    }

    pub fn sign(sign: &str) -> Token {
        Token::Sign(sign.into())
    }

    pub fn number(number: i64) -> Token {
        Token::Number(number.to_string().into())
    }

    fn bytes(&self) -> Vec<u8> {
        match self {
            Token::Word(bytes) | Token::Number(bytes) | Token::Sign(bytes) => bytes.clone(),
            Token::Text(text) => [b"'", &text[..], b"'"].concat(),
        }
    }

    /// Whether the two would read as one word with no blank between them.
    fn runs_into(&self, next: &Token) -> bool {
        match (self, next) {
            (Token::Word(_), Token::Word(next)) => next.first() != Some(&b'$'),
            (Token::Word(_), Token::Number(next)) => next.first() != Some(&b'-'),
            _ => false,
        }
    }
}

impl RelationScene {
    /// The text of the tokens, with blanks where they are needed, and sometimes where they are not.
    pub fn spelled(&mut self, tokens: &[Token]) -> Vec<u8> {
        let mut text = self.gap(false);
        for (place, token) in tokens.iter().enumerate() {
            text.extend(self.recased(token));
            let needed = tokens.get(place + 1).is_some_and(|next| token.runs_into(next));
            text.extend(self.gap(needed));
        }
        text
    }

    fn gap(&mut self, needed: bool) -> Vec<u8> {
        if needed || self.random.percent(self.blanks) {
            self.random.pick(&BLANKS).to_vec()
        } else {
            Vec::new()
        }
    }

    fn recased(&mut self, token: &Token) -> Vec<u8> {
        let mut bytes = token.bytes();
        if let Token::Word(_) = token {
            for byte in &mut bytes {
                if self.random.percent(self.small) {
                    byte.make_ascii_lowercase();
                }
            }
        }
        bytes
    }
}
