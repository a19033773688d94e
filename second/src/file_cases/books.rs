//! Books to write a file from.

use super::{FileCase, FileScene};
use crate::cases::{filling, plain_case, Damage};
use crate::make::{self, Price, Record};
use crate::reader::LONGEST_BOOK;

/// How the text numbers of a book go on.
#[derive(Debug, Clone, Copy, PartialEq, Eq)]
enum Texts {
    /// 1, 2, 3 and on by first appearance, so that the file reads back as the same records.
    Running,
    Any,
}

impl FileScene {
    /// Price records among others, and what is done to the finished book.
    pub(super) fn book(&mut self) -> (Vec<Record>, Vec<Damage>) {
        let mut records = self.price_records();
        for _ in 0..self.random.below(4) {
            let other = self.other_record();
            records.insert(self.random.below(records.len() + 1), other);
        }
        let mut damages = Vec::new();
        match self.random.below(100) {
            0..=19 => self.spoil_record(&mut records),
            20..=22 => {
                self.spoil_record(&mut records);
                damages.push(self.book_damage());
            }
            23..=30 => {
                damages.push(self.book_damage());
                damages.push(Damage::MendLength);
            }
            31..=34 => damages.push(self.book_damage()),
            _ => {}
        }
        (records, damages)
    }

    fn price_records(&mut self) -> Vec<Record> {
        let texts = self.random.pick(&[Texts::Running, Texts::Running, Texts::Any]);
        let mut greatest = 0;
        let mut records = Vec::new();
        for _ in 0..self.random.pick(&[0, 1, 1, 2, 3, 5, 9, 14]) {
            let text = match texts {
                Texts::Running => self.random.below(greatest as usize + 2) as u32,
                Texts::Any => self.random.pick(&[0, 0, 1, 2, 7, 10, 1 << 31, u32::MAX]),
            };
            greatest = greatest.max(text);
            records.push(self.price().text(text).into());
        }
        records
    }

    /// A record of another kind.
    fn other_record(&mut self) -> Record {
        let others: Vec<Record> = plain_case().book.into_iter().filter(|record| !matches!(record, Record::Price(_))).collect();
        self.random.pick(&others)
    }

    /// A rounding number or a date too great, in one price record or in several.
    fn spoil_record(&mut self, records: &mut [Record]) {
        for _ in 0..self.random.pick(&[1, 1, 2]) {
            let place = self.random.below(records.len());
            if let Some(Record::Price(row)) = records.get_mut(place) {
                self.spoil_price(row);
            }
        }
    }

    fn spoil_price(&mut self, row: &mut Price) {
        let date = self.random.pick(&[99_999_999, 100_000_000, 100_000_001, 1 << 31, u32::MAX]);
        match self.random.below(3) {
            0 => row.rounding = self.random.pick(&[1, 255, 256, u16::MAX]),
            1 => row.from = date,
            _ => row.to = date,
        }
    }

    /// Done to a finished book.
    fn book_damage(&mut self) -> Damage {
        let place = self.random.below(1 << 20);
        match self.random.below(8) {
            0 => Damage::DropLast(self.random.between(1, 12)),
            1 => Damage::KeepFirst(self.random.below(40)),
            2 => Damage::Append((0..self.random.between(1, 8)).map(|_| self.random.byte()).collect()),
            3 | 4 => Damage::Change { place, mask: 1 << self.random.below(8) },
            5 => Damage::Insert { place, byte: self.random.byte() },
            6 => Damage::Remove { place },
            _ => Damage::SetVersion(self.random.pick(&[0, 2, 255])),
        }
    }

    /// Makes the book as long as it may be, or one byte shorter or longer; a price record that makes no line may stand at its end.
    pub(super) fn fill_book(&mut self, case: &mut FileCase) {
        case.book_damages.clear();
        let row = Record::from(Price { article: vec![b';'; 40], ..self.price() });
        let rows = 3_000_000 / row.bytes().len();
        case.book.extend(vec![row; rows]);
        let last = Record::from(self.price().rounding(self.random.pick(&[0, 1])));
        let wanted = self.random.pick(&[LONGEST_BOOK - 1, LONGEST_BOOK, LONGEST_BOOK, LONGEST_BOOK + 1]);
        case.book.extend(filling(wanted - make::book(&case.book).len() - last.bytes().len()));
        case.book.push(last);
    }
}
