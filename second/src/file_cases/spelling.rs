//! The many ways to spell the same row, and lines that say nothing.

use super::{FileScene, Line, Row};

const BLANK_LINES: [&[u8]; 6] = [b"", b"", b" ", b"\t", b"   ", b" \t \t"];

const COMMENTS: [&[u8]; 8] = [b"#", b"# a comment", b"#;", b"#\"", b"#\r", b"#\0\x9f", b"##", b"#A1;;S;B;1;;1;1;EUR;;;0;"];

impl FileScene {
    /// The line of a row.
    pub fn spelled(&mut self, row: &Row) -> Line {
        let price = &row.price;
        let contents: Line = vec![
            price.article.clone(),
            price.condition.clone(),
            vec![price.sort],
            vec![price.level],
            price.rule.to_string().into(),
            row.text.clone(),
            self.spelled_value(price.value),
            price.fixed.to_string().into(),
            price.currency.to_vec(),
            self.spelled_date(price.from),
            self.spelled_date(price.to),
            self.zeros_before(price.up_to.to_string().into()),
            Vec::new(),
        ];
        contents.iter().enumerate().map(|(place, content)| self.field(place, content)).collect()
    }

    /// The field with this content at this place of a line: in quotes where it needs them, and sometimes where it does not.
    pub(super) fn field(&mut self, place: usize, content: &[u8]) -> Vec<u8> {
        let comment = place == 0 && content.starts_with(b"#");
        if comment || content.contains(&b';') || content.starts_with(b"\"") || self.random.percent(self.quoting) {
            self.quoted(content)
        } else {
            content.to_vec()
        }
    }

    /// In quotes, with some spaces behind the closing one.
    fn quoted(&mut self, content: &[u8]) -> Vec<u8> {
        let mut field = in_quotes(content);
        field.extend(vec![b' '; self.random.pick(&[0, 0, 1, 2, 9])]);
        field
    }

    /// A comment or a blank line.
    pub(super) fn says_nothing(&mut self) -> Vec<u8> {
        if self.random.percent(50) {
            self.random.pick(&BLANK_LINES).to_vec()
        } else {
            self.random.pick(&COMMENTS).to_vec()
        }
    }

    /// The date 0 is a blank field or eight zeros.
    fn spelled_date(&mut self, date: u32) -> Vec<u8> {
        if date == 0 && self.random.percent(70) {
            Vec::new()
        } else {
            format!("{date:08}").into()
        }
    }

    fn spelled_value(&mut self, value: i32) -> Vec<u8> {
        let size = value.unsigned_abs();
        let decimals = self.spelled_decimals(size % 100);
        let whole = self.spelled_whole(size / 100, !decimals.is_empty());
        let mut field = Vec::new();
        if value < 0 || value == 0 && self.random.percent(20) {
            field.push(b'-');
        }
        field.extend(whole);
        if !decimals.is_empty() || self.random.percent(20) {
            field.push(b'.');
        }
        field.extend(decimals);
        field
    }

    /// Two decimals, or without the zeros at their end, or with more of them.
    fn spelled_decimals(&mut self, hundredths: u32) -> Vec<u8> {
        let mut decimals = format!("{hundredths:02}").into_bytes();
        match self.random.below(5) {
            0 | 1 => {
                while decimals.last() == Some(&b'0') {
                    decimals.pop();
                }
            }
            2 => decimals.extend(vec![b'0'; self.random.pick(&[1, 2, 30])]),
            _ => {}
        }
        decimals
    }

    /// What stands before the point; a zero may be missing if there are decimals.
    fn spelled_whole(&mut self, whole: u32, with_decimals: bool) -> Vec<u8> {
        if whole == 0 && with_decimals && self.random.percent(40) {
            Vec::new()
        } else {
            self.zeros_before(whole.to_string().into())
        }
    }

    fn zeros_before(&mut self, digits: Vec<u8>) -> Vec<u8> {
        let zeros = self.random.pick(&[0, 0, 0, 0, 1, 2, 30]);
        [vec![b'0'; zeros], digits].concat()
    }
}

/// The content in quotes, each of its own doubled.
pub(super) fn in_quotes(content: &[u8]) -> Vec<u8> {
    let mut field = vec![b'"'];
    for &byte in content {
        field.extend(if byte == b'"' { vec![byte, byte] } else { vec![byte] });
    }
    field.push(b'"');
    field
}
