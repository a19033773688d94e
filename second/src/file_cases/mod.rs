//! Makes cases for the price file: a file to read, a book to write from, and how much room is lent.
//!
//! A file is made of rows that are spelled in one of the many ways that mean the same, with comments and blank lines between
//! them. A part of the files is spoilt in a line, or damaged once it is finished; the same goes for the books.

mod books;
mod rows;
mod spelling;
mod spoil;

pub use rows::Row;

use crate::cases::{Damage, Room};
use crate::make::{self, Article, Price, Record};
use crate::random::Random;

/// The fields of a line as they are spelled; a semicolon goes between any two. What is no row has one field.
pub type Line = Vec<Vec<u8>>;

#[derive(Debug, Clone)]
pub struct FileCase {
    pub lines: Vec<Line>,
    /// Whether the last line has a line end.
    pub ended: bool,
    /// Done to the finished file, in this order.
    pub file_damages: Vec<Damage>,
    pub read_room: Room,
    pub book: Vec<Record>,
    /// Done to the finished book, in this order.
    pub book_damages: Vec<Damage>,
    pub write_room: Room,
}

/// The bytes that the calls get.
#[derive(Debug, Clone, PartialEq, Eq)]
pub struct FileInputs {
    pub file: Vec<u8>,
    pub book: Vec<u8>,
}

/// Draws the parts of one case.
pub struct FileScene {
    random: Random,
    /// In so many of a hundred fields quotes stand where none are needed.
    quoting: usize,
}

impl FileCase {
    /// The case of a seed and an index, now and then a very big one.
    pub fn generate(seed: u64, index: u64) -> FileCase {
        let mut scene = FileScene::new(Random::stream(seed, index));
        let mut case = scene.case();
        if index % 500 == 7 {
            scene.name_many(&mut case);
        }
        if index % 4_000 == 11 {
            scene.fill_file(&mut case);
        }
        if index % 4_000 == 13 {
            scene.fill_book(&mut case);
        }
        case
    }

    /// The case of a seed and an index, never a very big one.
    pub fn generate_small(seed: u64, index: u64) -> FileCase {
        FileScene::new(Random::stream(seed, index)).case()
    }

    pub fn inputs(&self) -> FileInputs {
        FileInputs {
            file: damaged(file(&self.lines, self.ended), &self.file_damages),
            book: damaged(make::book(&self.book), &self.book_damages),
        }
    }
}

fn damaged(mut bytes: Vec<u8>, damages: &[Damage]) -> Vec<u8> {
    for damage in damages {
        damage.apply(&mut bytes);
    }
    bytes
}

/// The file of some lines, with or without a line end behind the last one.
pub fn file(lines: &[Line], ended: bool) -> Vec<u8> {
    let lines: Vec<Vec<u8>> = lines.iter().map(|fields| fields.join(&b';')).collect();
    let mut file = lines.join(&b'\n');
    if ended && !lines.is_empty() {
        file.push(b'\n');
    }
    file
}

// Every value of every byte.

/// A small case on which both calls succeed: a comment, a row in plain fields and one in quoted ones.
pub fn plain_file_case() -> FileCase {
    let plain = ["A1", "OAK", "S", "X", "1", "T", "-12.50", "1", "EUR", "20240101", "20241231", "9", ""];
    let quoted = plain.map(|field| format!("\"{field}\" ").into_bytes());
    FileCase {
        lines: vec![vec![b"#".to_vec()], plain.map(|field| field.as_bytes().to_vec()).to_vec(), quoted.to_vec()],
        ended: true,
        file_damages: Vec::new(),
        read_room: Room::Longer(30),
        book: vec![
            Price::fixed("A1", b'B', 10_050).text(1).into(),
            Article::new("A1", "S1").into(),
            Price::percent("#;", b'D', 2, -333).condition("\"").dates(0, 10101).up_to(9).into(),
        ],
        book_damages: Vec::new(),
        write_room: Room::Longer(30),
    }
}

/// The plain case with one byte of the file, or of the book, changed, for every byte and every other value.
pub fn sweep_files() -> impl Iterator<Item = FileCase> {
    let plain = plain_file_case();
    let inputs = plain.inputs();
    let changes =
        |length: usize| (0..length * 256).map(|step| vec![Damage::Change { place: step / 256, mask: (step % 256) as u8 }]);
    let (in_file, in_book) = (plain.clone(), plain);
    let files = changes(inputs.file.len()).map(move |file_damages| FileCase { file_damages, ..in_file.clone() });
    let books = changes(inputs.book.len()).map(move |book_damages| FileCase { book_damages, ..in_book.clone() });
    files.chain(books)
}

// Random cases.

impl FileScene {
    pub fn new(mut random: Random) -> Self {
        let quoting = random.pick(&[0, 5, 5, 30, 100]);
        FileScene { random, quoting }
    }

    fn case(&mut self) -> FileCase {
        let mut lines = self.lines();
        let mut file_damages = Vec::new();
        match self.random.below(100) {
            0..=24 => self.spoil_lines(&mut lines),
            25..=29 => file_damages.push(self.file_damage()),
            30..=32 => {
                self.spoil_lines(&mut lines);
                self.spoil_lines(&mut lines);
            }
            33 => self.end_otherwise(&mut lines),
            _ => {}
        }
        let ended = self.random.percent(80);
        let read_room = self.room(36 * 10);
        let (book, book_damages) = self.book();
        let write_room = self.room(50 * 10);
        FileCase { lines, ended, file_damages, read_room, book, book_damages, write_room }
    }

    /// Rows, with what says nothing between them.
    fn lines(&mut self) -> Vec<Line> {
        let mut lines = Vec::new();
        for _ in 0..self.random.pick(&[0, 1, 1, 2, 3, 5, 9, 14]) {
            while self.random.percent(20) {
                lines.push(vec![self.says_nothing()]);
            }
            let row = self.row();
            lines.push(self.spelled(&row));
        }
        while self.random.percent(20) {
            lines.push(vec![self.says_nothing()]);
        }
        lines
    }

    fn room(&mut self, greatest: usize) -> Room {
        let longer = Room::Longer(self.random.between(1, 40));
        let any = Room::Any(self.random.below(greatest));
        self.random.weighted(&[(45, Room::Exact), (12, Room::OneShort), (3, Room::Empty), (30, longer), (10, any)])
    }
}
