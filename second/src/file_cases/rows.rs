//! The rows that a file or a book is made of. The pools hold what lies at a bound, and names that reading could stumble over.

use super::{FileCase, FileScene, Line};
use crate::make::{latin1, Price};
use crate::reader::LONGEST_BOOK;

/// What a line of a file says.
#[derive(Debug, Clone, PartialEq, Eq)]
pub struct Row {
    /// Everything but the text, whose number hangs on the lines before.
    pub price: Price,
    pub text: Vec<u8>,
}

/// For articles, conditions and texts alike.
const NAMES: [&str; 24] = [
    "A1", "A1", "OAK", "oak", "A", "A1 ", " A1", " ", "*", "#", "#A1", "A#", "\"", "\"\"", "\"A1\"", "A\"1", "A1\"", ";", "A;1",
    ";\"", "\";\"", "\u{a0}", "\u{ff}~", "1",
];

const FIXED: [i32; 16] = [0, 1, -1, 5, -5, 10, 50, -50, 99, 100, -100, 1250, 99_999_999, -99_999_999, 100_000_000, -100_000_000];

const PERCENT: [i32; 14] = [0, 1, -1, 9, 10, -10, 99, 100, -333, 1250, 99_999, -99_999, 100_000, -100_000];

/// Days or not, all of eight digits.
const DATES: [u32; 12] = [0, 0, 1, 9, 10101, 1_000_000, 9_999_999, 10_000_000, 20230229, 20240101, 20241231, 99_999_999];

const QUANTITIES: [u32; 10] = [0, 0, 1, 1, 9, 10, 100_000, 1 << 31, u32::MAX - 1, u32::MAX];

impl FileScene {
    pub fn row(&mut self) -> Row {
        Row { price: self.price(), text: self.text_name() }
    }

    /// A price record that a file can say, without a text.
    pub(super) fn price(&mut self) -> Price {
        let fixed = self.random.pick(&[0, 1, 1]);
        Price {
            article: self.name(1, 40),
            condition: self.name(0, 20),
            sort: self.random.pick(b"SSP"),
            level: self.random.pick(b"BXD"),
            rule: self.random.pick(&[1, 2]),
            text: 0,
            fixed,
            value: self.value(fixed),
            currency: self.random.pick(&[*b"EUR", *b"EUR", *b"USD", *b"AZA"]),
            from: self.date(),
            to: self.date(),
            up_to: if self.random.percent(15) { self.random.number() as u32 } else { self.random.pick(&QUANTITIES) },
            rounding: 0,
        }
    }

    /// A name whose length is within the bounds, often at one of them.
    fn name(&mut self, shortest: usize, longest: usize) -> Vec<u8> {
        match self.random.below(20) {
            0..=3 if shortest == 0 => Vec::new(),
            0..=14 => latin1(self.random.pick(&NAMES)),
            15 => vec![self.random.pick(b"N\";# "); longest],
            _ => {
                let length = self.random.between(shortest, longest);
                (0..length).map(|_| self.name_byte()).collect()
            }
        }
    }

    fn name_byte(&mut self) -> u8 {
        self.random.pick(b"AZaz09 ~!#'\",.;-\xa0\xc4\xff")
    }

    /// Names of texts repeat, are blank, or are long.
    fn text_name(&mut self) -> Vec<u8> {
        match self.random.below(20) {
            0..=4 => Vec::new(),
            5 => vec![b't'; self.random.pick(&[41, 255, 256, 300])],
            _ => self.name(0, 20),
        }
    }

    fn value(&mut self, fixed: u8) -> i32 {
        let bound = if fixed == 1 { 100_000_000 } else { 100_000 };
        match self.random.below(10) {
            0..=1 => self.random.between(0, 2 * bound) as i32 - bound as i32,
            2..=3 => self.random.between(0, 2_000) as i32 - 1_000,
            _ if fixed == 1 => self.random.pick(&FIXED),
            _ => self.random.pick(&PERCENT),
        }
    }

    fn date(&mut self) -> u32 {
        if self.random.percent(15) {
            self.random.below(100_000_000) as u32
        } else {
            self.random.pick(&DATES)
        }
    }

    // Very big files.

    /// More text names than a byte can count, each of them twice, on lines whose numbers have several digits.
    pub(super) fn name_many(&mut self, case: &mut FileCase) {
        case.file_damages.clear();
        case.lines.clear();
        let names = self.random.pick(&[255, 256, 257, 600]);
        for number in (0..names).chain(0..names) {
            let row = Row { text: format!("n{number}").into_bytes(), ..self.row() };
            case.lines.push(self.spelled(&row));
        }
        if self.random.percent(40) {
            self.spoil_lines(&mut case.lines);
        }
    }

    /// So many rows that no book could hold their records.
    pub(super) fn fill_file(&mut self, case: &mut FileCase) {
        case.file_damages.clear();
        let price = Price { article: vec![b'N'; 40], condition: vec![b'C'; 20], ..self.price() };
        let line: Line = self.spelled(&Row { price, text: b"t".to_vec() });
        // Each record takes 94 bytes.
        case.lines = vec![line; LONGEST_BOOK / 94 + 1];
        if self.random.percent(40) {
            self.spoil_lines(&mut case.lines);
        }
    }
}
