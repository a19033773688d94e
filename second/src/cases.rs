//! Makes cases: a book, a question, a period, text books, a basket of questions, and how much room is lent.
//!
//! Values come from small pools, so that rows, names and dates meet each other all the time, and
//! the pools hold what lies at a bound and next to it. A part of the cases is damaged.

use crate::basket::ANSWER_LENGTH;
use crate::days::{day_before, is_day, next_day, period};
use crate::letters::small;
use crate::make::{self, latin1, Article, Granted, Packaging, Price, Property, Question, Record, Rounding, Scheme, TextRecord};
use crate::price::LINE_LENGTH;
use crate::random::Random;
use crate::reader::LONGEST_BOOK;

#[derive(Debug, Clone)]
pub struct Case {
    pub book: Vec<Record>,
    pub question: Question,
    pub end: u32,
    pub asked: Vec<TextRecord>,
    pub fallback: Vec<TextRecord>,
    pub text_number: u32,
    pub basket: Vec<Question>,
    /// Done to the finished bytes, in this order.
    pub damages: Vec<(Target, Damage)>,
    pub rooms: Rooms,
}

/// The room lent to each call that writes.
#[derive(Debug, Clone, Copy)]
pub struct Rooms {
    pub price: Room,
    pub calendar: Room,
    pub list: Room,
    pub number: Room,
    pub basket: Room,
}

#[derive(Debug, Clone, Copy)]
pub enum Room {
    Exact,
    OneShort,
    Empty,
    Longer(usize),
    Any(usize),
}

/// Which bytes are damaged.
#[derive(Debug, Clone, Copy, PartialEq, Eq)]
pub enum Target {
    Book,
    Question,
    Asked,
    Fallback,
    Program,
    /// One question of the basket, by its place.
    InBasket(usize),
    Basket,
}

/// Places are taken modulo the length, so that a case can shrink under its damage.
#[derive(Debug, Clone)]
pub enum Damage {
    DropLast(usize),
    KeepFirst(usize),
    Append(Vec<u8>),
    Change {
        place: usize,
        mask: u8,
    },
    Insert {
        place: usize,
        byte: u8,
    },
    Remove {
        place: usize,
    },
    SetLength(u32),
    SetVersion(u8),
    /// Makes the length in front right again, so that the damage is only met further in.
    MendLength,
}

/// The bytes that the calls get.
#[derive(Debug, Clone, PartialEq, Eq)]
pub struct Inputs {
    pub book: Vec<u8>,
    pub question: Vec<u8>,
    pub end: u32,
    pub asked: Vec<u8>,
    pub fallback: Vec<u8>,
    pub text_number: u32,
    pub program: Vec<u8>,
    pub basket: Vec<u8>,
}

impl Room {
    /// How much is lent when so much is needed.
    pub fn size(self, needed: usize) -> usize {
        match self {
            Room::Exact => needed,
            Room::OneShort => needed.saturating_sub(1),
            Room::Empty => 0,
            Room::Longer(more) => needed + more,
            Room::Any(size) => size,
        }
    }
}

impl Damage {
    pub fn apply(&self, bytes: &mut Vec<u8>) {
        let length = bytes.len();
        match self {
            Damage::DropLast(count) => bytes.truncate(length.saturating_sub(*count)),
            Damage::KeepFirst(count) => bytes.truncate(*count),
            Damage::Append(more) => bytes.extend(more),
            Damage::Change { place, mask } if length > 0 => bytes[place % length] ^= mask,
            Damage::Change { .. } => {}
            Damage::Insert { place, byte } => bytes.insert(place % (length + 1), *byte),
            Damage::Remove { place } if length > 0 => {
                bytes.remove(place % length);
            }
            Damage::Remove { .. } => {}
            Damage::SetLength(field) => set_length(bytes, *field),
            Damage::SetVersion(version) => {
                if let Some(field) = bytes.get_mut(4) {
                    *field = *version;
                }
            }
            Damage::MendLength => set_length(bytes, length as u32),
        }
    }
}

fn set_length(bytes: &mut [u8], length: u32) {
    if let Some(field) = bytes.get_mut(..4) {
        field.copy_from_slice(&length.to_be_bytes());
    }
}

impl Case {
    /// The case of a seed and an index, now and then a very big one.
    pub fn generate(seed: u64, index: u64) -> Case {
        let mut random = Random::stream(seed, index);
        let mut case = Scene::new(random.clone()).case();
        if index % 300 == 23 {
            fill_program_input(&mut case, &mut random);
        }
        if index % 1_000 == 29 {
            change_daily(&mut case, &mut random);
        }
        if index % 1_000 == 19 {
            fill_text_books(&mut case, &mut random);
        }
        if index % 4_000 == 17 {
            fill_book(&mut case, &mut random);
        }
        case
    }

    /// The case of a seed and an index, never a very big one.
    pub fn generate_small(seed: u64, index: u64) -> Case {
        Scene::new(Random::stream(seed, index)).case()
    }

    pub fn inputs(&self) -> Inputs {
        let damaged = |target: Target, mut bytes: Vec<u8>| {
            for (at, damage) in &self.damages {
                if self.meant(*at) == target {
                    damage.apply(&mut bytes);
                }
            }
            bytes
        };
        let book = damaged(Target::Book, make::book(&self.book));
        let question = damaged(Target::Question, make::question(&self.question));
        let program = [&book[..], &question[..], &self.end.to_be_bytes()[..]].concat();
        let in_basket = |(place, question)| damaged(Target::InBasket(place), make::question(question));
        let basket = self.basket.iter().enumerate().flat_map(in_basket).collect();
        Inputs {
            program: damaged(Target::Program, program),
            book,
            question,
            end: self.end,
            asked: damaged(Target::Asked, make::text_book(&self.asked)),
            fallback: damaged(Target::Fallback, make::text_book(&self.fallback)),
            text_number: self.text_number,
            basket: damaged(Target::Basket, basket),
        }
    }

    /// What is damaged once the basket has shrunk.
    fn meant(&self, target: Target) -> Target {
        match target {
            Target::InBasket(place) if !self.basket.is_empty() => Target::InBasket(place % self.basket.len()),
            _ => target,
        }
    }
}

// Every value of every byte.

/// A small case with a record of every kind and questions of both versions, on which every call succeeds.
pub fn plain_case() -> Case {
    Case {
        book: vec![
            Article::new("A1", "S1").into(),
            Price::fixed("A1", b'B', 10_050).rounding(1).into(),
            Price::percent("A1", b'X', 1, 1250).condition("OAK").into(),
            Price::percent("A1", b'D', 2, -333).up_to(9).into(),
            Rounding::new(1, 2, 100).adds(3, -1).into(),
            Packaging::new("A1", "").value(0, 1).value(3, 2).value(4, 3).value(5, 4).value(6, 5).into(),
            Packaging::new("*", "OAK").value(5, 6).value(7, 7).into(),
            Scheme::new("S1", "/", "_").characters(b'#', b'+').trim(1).into(),
        ],
        question: Question::new("A1", 20240228).factored(&[("oak", 1_500), ("Ash", 250)]).valued(3, "V").hidden(2).unselected(1),
        end: 20240301,
        asked: vec![TextRecord::new(1, b"one"), TextRecord::new(2, b"two")],
        fallback: vec![TextRecord::new(3, b""), TextRecord::new(1, b"uno")],
        text_number: 1,
        basket: vec![
            Question::new("A1", 20240229).granted(&["elm"]).hidden(1),
            Question::new("A2", 20240229).factored(&[("elm", 10_000)]),
        ],
        damages: Vec::new(),
        rooms: Rooms {
            price: Room::Longer(30),
            calendar: Room::Longer(40),
            list: Room::Longer(2),
            number: Room::Longer(9),
            basket: Room::Longer(20),
        },
    }
}

/// The plain case with one byte of one input changed, for every byte and every other value; then the same of its question in
/// version 1.
pub fn sweep() -> impl Iterator<Item = Case> {
    let plain = plain_case();
    let targets = [Target::Book, Target::Question, Target::Asked, Target::Fallback, Target::Basket];
    let of_version_1 = Case { question: plain.question.clone().granted(&["oak", "Ash"]).version(1), ..plain.clone() };
    targets.into_iter().flat_map(move |target| swept(plain.clone(), target)).chain(swept(of_version_1, Target::Question))
}

fn swept(case: Case, target: Target) -> impl Iterator<Item = Case> {
    let inputs = case.inputs();
    let length = match target {
        Target::Book => inputs.book.len(),
        Target::Question => inputs.question.len(),
        Target::Asked => inputs.asked.len(),
        Target::Fallback => inputs.fallback.len(),
        Target::Program => inputs.program.len(),
        Target::InBasket(_) | Target::Basket => inputs.basket.len(),
    };
    (0..length * 256).map(move |step| {
        let (place, mask) = (step / 256, (step % 256) as u8);
        let damages = vec![(target, Damage::Change { place, mask })];
        Case { damages, ..case.clone() }
    })
}

// The pools.

/// Names that begin alike, repeat when raised, or only look as if they did: bytes 223, 247 and 255 stay, though others stand 32
/// before them.
const NAMES: [&str; 14] = [
    "OAK",
    "\u{df}\u{f7}\u{ff}",
    "\u{bf}\u{d7}\u{df}",
    "\u{c0}\u{d6}\u{d8}\u{de}",
    "OA",
    "OAKS",
    "OAK ",
    " ",
    "oak",
    "\u{c4}",
    "\u{e4}",
    "ABCDEFGHIJKLMNOPQRST",
    "ABCDEFGHIJKLMNOPQRSU",
    "@Z[`{",
];

const UNKNOWN_NAMES: [&str; 3] = ["YEW", "*", "ABCDEFGHIJKLMNOPQRS"];

const ARTICLES: [&str; 8] = [
    "A1",
    "a1",
    "A",
    "A11",
    "*",
    "\u{e4}1",
    "A234567890123456789012345678901234567890",
    "A234567890123456789012345678901234567891",
];

const NO_DAYS: [u32; 14] =
    [0, 1, 101, 1231, 10100, 20230229, 20240100, 20240230, 20240631, 20241301, 19000229, 99991232, 100000101, u32::MAX];

const DATES: [u32; 16] = [
    10101, 10102, 10301, 19000228, 20000229, 20231231, 20240101, 20240228, 20240229, 20240301, 20240615, 20240630, 20241231,
    99970101, 99991230, 99991231,
];

const CENTS: [i32; 20] =
    [0, 1, -1, 3, 5, 15, 49, 50, 51, 99, 100, 150, -50, -150, 1250, 10_000, 10_500, -10_000, 100_000_000, -100_000_000];

const HUNDREDTHS: [i32; 18] =
    [0, 1, -1, 99, 100, -100, 333, -333, 1250, 2500, -2500, 5000, -5000, 9_999, 10_000, -10_000, 100_000, -100_000];

/// At the ends and next to them, at what changes nothing and next to it, and some that make halves.
const FACTORS: [u16; 12] = [0, 1, 2, 500, 999, 1_000, 1_000, 1_001, 1_500, 2_500, 9_999, 10_000];

const STEPS: [u32; 11] = [1, 2, 3, 5, 10, 50, 99, 100, 1000, 999_999, 1_000_000];

const ADDS: [i32; 12] = [0, 0, 0, 0, 1, -1, 5, -5, 50, -50, 1_000_000, -1_000_000];

const SEPARATORS: [&str; 9] = ["", "_", "-", "X", " ", "::", "--", "12345678", "\u{a0}"];

const TEXT_NUMBERS: [u32; 7] = [0, 1, 2, 7, 256, 0x0100_0000, u32::MAX];

/// What the rows of a case are about.
#[derive(Debug, Clone, Copy, PartialEq, Eq)]
enum Theme {
    /// Mostly priced without a refusal.
    Calm,
    /// Anything goes.
    Wild,
    /// Totals at and around the bound.
    Limit,
    /// Rows of several currencies.
    Foreign,
}

/// What the parts of one case have in common.
struct Scene {
    random: Random,
    theme: Theme,
    article: Vec<u8>,
    sort: u8,
    date: u32,
    end: u32,
    quantity: u32,
    /// Days at the ends of the period, next to them and within it.
    days: Vec<u32>,
    /// Names that rows and granted names are drawn from.
    names: Vec<Vec<u8>>,
}

impl Scene {
    fn new(mut random: Random) -> Self {
        let theme = random.weighted(&[(40, Theme::Calm), (25, Theme::Wild), (20, Theme::Limit), (15, Theme::Foreign)]);
        let article = random.weighted(&[(85, "A1"), (5, ARTICLES[4]), (5, "A"), (5, ARTICLES[6])]);
        let date = if random.percent(85) { random.pick(&DATES) } else { any_day(&mut random) };
        let end = any_end(&mut random, date);
        let quantity = random.pick(&[1, 1, 2, 9, 10, 11, 99_999, 100_000]);
        let days = days_around(&mut random, date, end);
        let names = (0..random.between(1, 6)).map(|_| latin1(random.pick(&NAMES))).collect();
        Scene { theme, article: latin1(article), sort: random.pick(b"SSSP"), date, end, quantity, days, names, random }
    }

    fn case(mut self) -> Case {
        let version = self.version();
        let granted = self.granted(version);
        let mut book = self.book();
        let mut question = Question {
            version,
            article: self.article.clone(),
            sort: self.sort,
            currency: self.asked_currency(),
            date: self.date,
            quantity: self.quantity,
            granted,
            properties: self.properties(),
        };
        let asked = self.texts();
        let fallback = self.texts();
        let mut damages = Vec::new();
        // Sometimes twice, so that one refusal has to go before another.
        for chance in [16, 4] {
            if self.random.percent(chance) {
                self.damage(&mut book, &mut question, &mut damages);
            }
        }
        let text_number = self.random.pick(&TEXT_NUMBERS);
        let (price, calendar, list, number) = (self.room(LINE_LENGTH * 40), self.room(20 * 40), self.room(40), self.room(200));
        let mut basket = self.basket();
        if self.random.percent(14) {
            self.damage_basket(&mut basket, &mut damages);
        }
        let rooms = Rooms { price, calendar, list, number, basket: self.basket_room(basket.len()) };
        Case { book, question, end: self.end, asked, fallback, text_number, basket, damages, rooms }
    }

    fn room(&mut self, greatest: usize) -> Room {
        let longer = Room::Longer(self.random.between(1, 40));
        let any = Room::Any(self.random.below(greatest));
        self.random.weighted(&[(40, Room::Exact), (12, Room::OneShort), (3, Room::Empty), (30, longer), (15, any)])
    }

    // Names and factors.

    fn version(&mut self) -> u8 {
        self.random.pick(&[1, 2])
    }

    fn granted(&mut self, version: u8) -> Vec<Granted> {
        let count = match self.random.below(20) {
            0..=2 => 0,
            3..=6 => 1,
            7..=14 => self.random.between(2, 5),
            15..=17 => self.random.between(6, 12),
            18 => self.random.between(13, 31),
            _ => 32,
        };
        if count > 12 {
            // Enough different names, so that there can be a line at each place.
            self.names.extend((0..32).map(|n| latin1(&format!("N{n}"))));
        }
        (0..count).map(|_| self.granted_name(version)).collect()
    }

    fn granted_name(&mut self, version: u8) -> Granted {
        let name = match self.random.below(20) {
            0..=15 => self.random.pick(&self.names),
            16..=18 => latin1(self.random.pick(&NAMES)),
            _ => latin1(self.random.pick(&UNKNOWN_NAMES)),
        };
        let granted = Granted::new(self.recased(&name));
        match version {
            1 => granted,
            _ => Granted { factor: self.factor(), ..granted },
        }
    }

    fn factor(&mut self) -> u16 {
        match self.random.below(10) {
            0..=3 => self.random.between(0, 10_000) as u16,
            4..=6 if self.theme == Theme::Limit => 10_000,
            _ => self.random.pick(&FACTORS),
        }
    }

    /// The same name once raised, but with some letters small.
    fn recased(&mut self, name: &[u8]) -> Vec<u8> {
        let chance = self.random.pick(&[0, 50, 100]);
        name.iter().map(|byte| if self.random.percent(chance) { small(*byte) } else { *byte }).collect()
    }

    fn condition(&mut self) -> Vec<u8> {
        match self.random.below(20) {
            0..=6 => Vec::new(),
            7..=18 => self.random.pick(&self.names),
            _ => latin1(self.random.pick(&NAMES)),
        }
    }

    fn row_article(&mut self) -> Vec<u8> {
        if self.random.percent(90) {
            self.article.clone()
        } else {
            latin1(self.random.pick(&ARTICLES))
        }
    }

    // The book.

    fn book(&mut self) -> Vec<Record> {
        let mut records: Vec<Record> = Vec::new();
        for _ in 0..self.random.below(3) {
            let other = latin1(self.random.pick(&ARTICLES));
            if other != self.article {
                records.push(self.article_record(other));
            }
        }
        if self.random.percent(94) {
            let asked = self.article.clone();
            records.push(self.article_record(asked));
            if self.random.percent(10) {
                let again = self.article.clone();
                records.push(self.article_record(again));
            }
        }
        self.price_rows(&mut records);
        for _ in 0..self.random.below(5) {
            records.push(self.rounding().into());
        }
        if self.random.percent(25) {
            self.half_row(&mut records);
        }
        self.packagings(&mut records);
        for _ in 0..self.random.below(4) {
            records.push(self.scheme().into());
        }
        // Any order is as good as another; where the first record counts it should vary.
        for last in (1..records.len()).rev() {
            records.swap(last, self.random.below(last + 1));
        }
        records
    }

    fn article_record(&mut self, number: Vec<u8>) -> Record {
        let scheme = self.scheme_id();
        let scheme = if self.random.percent(15) { String::new() } else { scheme };
        Record::Article(Article { number, scheme: latin1(&scheme) })
    }

    fn price_rows(&mut self, records: &mut Vec<Record>) {
        match self.theme {
            Theme::Limit => self.limit_rows(records),
            Theme::Wild => {}
            Theme::Calm | Theme::Foreign => {
                let mut sure = self.plain_base_row();
                if self.random.percent(70) {
                    (sure.from, sure.to) = (10101, 99991231);
                    sure.up_to = 0;
                }
                records.push(sure.into());
            }
        }
        if self.days.len() > 6 && self.random.percent(60) {
            // Rows that take turns within the period.
            for _ in 0..self.random.between(1, 6) {
                let mut turn = self.plain_base_row();
                let (one, other) = (self.random.pick(&self.days), self.random.pick(&self.days));
                (turn.from, turn.to) = (one.min(other), one.max(other));
                records.push(turn.into());
            }
        }
        if self.random.percent(5) {
            if let Some(days) = period(self.date, self.end).filter(|days| days.len() < 60) {
                for day in days {
                    let mut row = self.plain_base_row();
                    (row.from, row.to) = (day, day);
                    records.push(row.into());
                }
            }
        }
        let count = if self.names.len() > 30 {
            self.random.between(10, 60)
        } else {
            self.random.weighted(&[(10, 0), (10, 1), (30, 4), (30, 9), (20, 16)])
        };
        for _ in 0..count {
            let row = self.price_row();
            records.push(row.into());
        }
    }

    /// A base row of the asked article that needs no condition.
    fn plain_base_row(&mut self) -> Price {
        let value = self.value(b'B', 1);
        Price {
            article: self.article.clone(),
            condition: Vec::new(),
            sort: self.sort,
            level: b'B',
            fixed: 1,
            value,
            ..self.price_row()
        }
    }

    fn price_row(&mut self) -> Price {
        let level = self.random.pick(b"BBBXXXDDD");
        let fixed = u8::from(self.random.percent(if level == b'B' { 90 } else { 50 }));
        let value = self.value(level, fixed);
        let (from, to) = self.row_dates();
        let sort = if self.random.percent(92) { self.sort } else { self.random.pick(b"SP") };
        Price {
            article: self.row_article(),
            condition: self.condition(),
            sort,
            level,
            rule: self.random.pick(&[1, 2]),
            text: self.random.pick(&TEXT_NUMBERS),
            fixed,
            value,
            currency: self.currency(),
            from,
            to,
            up_to: self.up_to(),
            rounding: self.random.pick(&[0, 0, 0, 1, 1, 2, 3, 9, u16::MAX]),
        }
    }

    fn value(&mut self, level: u8, fixed: u8) -> i32 {
        if fixed == 0 {
            if self.random.percent(20) {
                return self.random.between(0, 200_000) as i32 - 100_000;
            }
            let calmed = if self.theme == Theme::Calm { 16 } else { 18 };
            return self.random.pick(&HUNDREDTHS[..calmed]);
        }
        match self.theme {
            Theme::Limit if level == b'B' => self.random.pick(&[100_000_000, 99_999_999, 1]),
            _ if self.random.percent(20) => self.random.between(0, 200_000) as i32 - 50_000,
            Theme::Calm | Theme::Foreign => self.random.pick(&CENTS[..18]),
            Theme::Wild | Theme::Limit => self.random.pick(&CENTS),
        }
    }

    fn currency(&mut self) -> [u8; 3] {
        match self.theme {
            Theme::Calm | Theme::Limit => self.random.weighted(&[(97, *b"EUR"), (3, *b"USD")]),
            Theme::Wild => self.random.weighted(&[(60, *b"EUR"), (25, *b"USD"), (15, *b"EUS")]),
            Theme::Foreign => self.random.weighted(&[(70, *b"EUR"), (30, *b"USD")]),
        }
    }

    fn row_dates(&mut self) -> (u32, u32) {
        let early = [10101, self.date, self.date, self.random.pick(&self.days)];
        let late = [99991231, self.date, self.end, self.random.pick(&self.days)];
        let (one, other) = (self.random.pick(&self.days), self.random.pick(&self.days));
        match self.random.below(100) {
            0..=49 => (self.random.pick(&early), self.random.pick(&late)),
            50..=79 => (one.min(other), one.max(other)),
            80..=85 => (one, other),
            86..=89 => (next_day(self.date).unwrap_or(0), 99991231),
            90..=93 => (10101, day_before(self.date).unwrap_or(0)),
            94..=96 => (self.random.pick(&early), self.random.pick(&NO_DAYS)),
            _ => (self.random.pick(&NO_DAYS), self.random.pick(&late)),
        }
    }

    fn up_to(&mut self) -> u32 {
        let asked = self.quantity;
        self.random.weighted(&[
            (40, 0),
            (14, asked),
            (10, asked - 1),
            (10, asked + 1),
            (7, 9),
            (7, 10),
            (4, 1),
            (4, 100_000),
            (2, 1 << 31),
            (2, u32::MAX),
        ])
    }

    /// Rows whose total comes to the bound exactly, or one cent to either side of it.
    fn limit_rows(&mut self, records: &mut Vec<Record>) {
        let sign = self.random.pick(&[1, -1]);
        let last = self.random.pick(&[-1, 0, 0, 1]);
        let rule = self.random.pick(&[1, 2]);
        let way = self.random.below(10);
        let name = self.random.pick(&self.names);
        let row = |level: u8, fixed: u8, value: i32| Price {
            article: self.article.clone(),
            sort: self.sort,
            rule,
            fixed,
            from: 10101,
            to: 99991231,
            ..Price::fixed("", level, value)
        };
        let mut tenth = row(b'B', 1, sign * 100_000_000);
        match way {
            0 | 1 => records.extend((0..9).map(|n| tenth.clone().condition(&format!("N{n}")).into())),
            // Comes to the bound by itself, if the name is granted with the greatest factor.
            2 | 3 => tenth.condition = name,
            _ => records.push(row(b'X', 0, 90_000).into()),
        }
        records.push(tenth.into());
        records.push(row(b'D', 1, sign * last).into());
    }

    fn rounding(&mut self) -> Rounding {
        let step = if self.random.percent(15) { self.random.between(1, 1_000_000) as u32 } else { self.random.pick(&STEPS) };
        // Great steps and adds would leave no other number in the case alone.
        let tame = self.theme == Theme::Calm && self.random.percent(70);
        Rounding {
            number: self.random.pick(&[1, 1, 2, 3, u16::MAX]),
            way: self.random.pick(&[0, 1, 2]),
            step: if tame { step.min(100) } else { step },
            add_before: self.random.pick(if tame { &ADDS[..10] } else { &ADDS }),
            add_after: self.random.pick(if tame { &ADDS[..10] } else { &ADDS }),
        }
    }

    /// A row that comes to a half of a step with what is added before, to one side of zero or the other, and its rounding, whose
    /// number no other has.
    fn half_row(&mut self, records: &mut Vec<Record>) {
        let step = self.random.pick(&[2, 10, 50, 100, 1_000]);
        let add_before = self.random.pick(&[0, 0, 1, -1, step, -step, 2 * step, -2 * step]);
        let half_steps = self.random.pick(&[-3, -1, -1, -1, 1, 3]);
        let number = 4;
        let row = Price {
            article: self.article.clone(),
            sort: self.sort,
            fixed: 1,
            value: half_steps * step / 2 - add_before,
            rounding: number,
            ..self.price_row()
        };
        records.push(row.into());
        let (way, add_after) = (2, self.random.pick(&ADDS[..8]));
        records.push(Rounding { number, way, step: step as u32, add_before, add_after }.into());
    }

    fn packagings(&mut self, records: &mut Vec<Record>) {
        if self.article != b"*" && self.random.percent(75) {
            let mut sure = self.packaging();
            (sure.article, sure.condition) = (self.article.clone(), Vec::new());
            records.push(sure.into());
        }
        for _ in 0..self.random.below(7) {
            records.push(self.packaging_of_any().into());
        }
    }

    /// A packaging record of this article, of another one or of `*`.
    fn packaging_of_any(&mut self) -> Packaging {
        let mut record = self.packaging();
        if self.random.percent(35) {
            record.article = latin1("*");
        }
        if record.article == b"*" && record.condition.is_empty() {
            record.condition = self.random.pick(&self.names);
        }
        record
    }

    fn packaging(&mut self) -> Packaging {
        let present = match self.random.below(5) {
            0 => 0,
            1 => 255,
            2 => 0b0111_0000,
            _ => self.random.byte(),
        };
        let with_negatives = self.random.percent(20);
        let mut values = [0; 8];
        for (place, value) in values.iter_mut().enumerate() {
            if present >> place & 1 == 1 {
                *value = self.packaging_value(place, with_negatives);
            }
        }
        let pools: [&[&[u8; 3]]; 3] =
            [&[b"MMT", b"INH", b"FOT", b"CMT", b"MTR"], &[b"LTR", b"INQ", b"MTQ"], &[b"KGM", b"LBR", b"MGM"]];
        let needing = [0b0000_0111, 0b0000_1000, 0b0011_0000];
        let mut units = [[0; 3]; 3];
        for place in 0..3 {
            let rare = *self.random.pick(pools[place]);
            let unit = if self.random.percent(95) { *pools[place][0] } else { rare };
            if present & needing[place] != 0 || self.random.percent(50) {
                units[place] = unit;
            }
        }
        Packaging { article: self.row_article(), condition: self.condition(), present, values, units }
    }

    fn packaging_value(&mut self, place: usize, with_negatives: bool) -> i32 {
        let bound = if place < 6 { 10_000_000 } else { 10_000 };
        let size = match self.random.below(20) {
            0..=11 => self.random.between(0, 5000) as i32,
            12..=16 => self.random.pick(&[0, 1, 2, 3]),
            _ => self.random.pick(&[bound, bound - 1]),
        };
        if with_negatives && self.random.percent(30) {
            -size
        } else {
            size
        }
    }

    fn scheme_id(&mut self) -> String {
        let ids = ["S1", "S1", "S1", "S1", "S2", "s1", "S", "ABCDEFGHIJKLMNOPQRST"];
        self.random.pick(&ids).to_string()
    }

    fn scheme(&mut self) -> Scheme {
        let characters = [0, 0, 0, b'-', b'X', b'#', b' ', b'_', 160, 255];
        let id = self.scheme_id();
        let number_separator = self.random.pick(&SEPARATORS);
        let value_separator = self.random.pick(&SEPARATORS);
        let (hidden, unselected) = (self.random.pick(&characters), self.random.pick(&characters));
        let mut scheme = Scheme::new(&id, number_separator, value_separator)
            .visibility(self.random.pick(&[0, 1]))
            .characters(hidden, unselected);
        if self.random.percent(45) {
            scheme.trim = 1;
            if scheme.value_separator.len() < 2 {
                // A separator of one character might be one of the filling characters.
                scheme.value_separator = latin1(self.random.pick(&["::", "--", "XX", "~"]));
            }
        }
        scheme
    }

    // The rest of the question, and the texts.

    fn properties(&mut self) -> Vec<Property> {
        let count = match self.random.below(20) {
            0..=2 => 0,
            3..=16 => self.random.between(1, 5),
            17..=18 => self.random.between(6, 31),
            _ => 32,
        };
        (0..count).map(|_| self.property()).collect()
    }

    fn property(&mut self) -> Property {
        let width = self.random.pick(&[1, 2, 3, 4, 5, 29, 30]);
        let state = self.random.pick(&[0, 0, 1, 2]);
        let length = match self.random.below(4) {
            _ if state != 0 => 0,
            0 => 1,
            1 => usize::from(width),
            _ => self.random.between(1, usize::from(width)),
        };
        let value = (0..length).map(|_| self.random.pick(b"OAKX-_:#!~\xa1\xff")).collect();
        Property { width, state, value }
    }

    fn asked_currency(&mut self) -> [u8; 3] {
        self.random.weighted(&[(60, *b"EUR"), (20, *b"USD"), (20, [0; 3])])
    }

    fn texts(&mut self) -> Vec<TextRecord> {
        (0..self.random.below(6))
            .map(|_| {
                let length = self.random.pick(&[0, 1, 5, 20, 255, 256]);
                TextRecord { number: self.random.pick(&TEXT_NUMBERS), text: (0..length).map(|_| self.random.byte()).collect() }
            })
            .collect()
    }

    // The basket.

    /// A few questions, now and then about as many as there may be, or so many that a byte cannot count them.
    fn basket(&mut self) -> Vec<Question> {
        if self.random.percent(1) {
            let count = self.random.pick(&[199, 200, 200, 201, 201, 256, 257]);
            return (0..count).map(|_| self.short_question()).collect();
        }
        let count = self.random.weighted(&[(8, 0), (17, 1), (25, 2), (25, 3), (15, 4), (10, 6)]);
        (0..count).map(|_| self.basket_question()).collect()
    }

    fn basket_question(&mut self) -> Question {
        let mut question = self.short_question();
        question.granted = self.granted(question.version);
        if self.random.percent(20) {
            question.properties = self.properties();
        }
        question
    }

    /// A question about the case's rows, or next to them, that grants one name at most.
    fn short_question(&mut self) -> Question {
        let sort = if self.random.percent(95) { self.sort } else { self.random.pick(b"SP") };
        let date = if self.random.percent(50) { self.date } else { self.random.pick(&self.days) };
        let quantity = if self.random.percent(60) { self.quantity } else { self.random.pick(&[1, 2, 9, 10, 11, 99_999, 100_000]) };
        let version = self.version();
        Question {
            version,
            article: self.row_article(),
            sort,
            currency: self.asked_currency(),
            date,
            quantity,
            granted: (0..self.random.below(2)).map(|_| self.granted_name(version)).collect(),
            properties: Vec::new(),
        }
    }

    /// Sometimes the answers would have room, but the lines would not.
    fn basket_room(&mut self, questions: usize) -> Room {
        if self.random.percent(8) {
            return Room::Any(questions * ANSWER_LENGTH);
        }
        self.room(6 * ANSWER_LENGTH + LINE_LENGTH * 40)
    }

    // Damage.

    /// Spoils a question of the basket, or the finished bytes of one or of all.
    fn damage_basket(&mut self, basket: &mut [Question], damages: &mut Vec<(Target, Damage)>) {
        let place = self.random.below(basket.len());
        let one = Target::InBasket(place);
        match self.random.below(6) {
            0 | 1 if !basket.is_empty() => self.spoil_question(&mut basket[place]),
            2 if !basket.is_empty() => damages.push((one, self.wrong_length(&basket[place..]))),
            3 | 4 if !basket.is_empty() => {
                damages.push((one, self.byte_damage()));
                if self.random.percent(50) {
                    damages.push((one, Damage::MendLength));
                }
            }
            _ => damages.push((Target::Basket, self.byte_damage())),
        }
    }

    /// A length in front of the first of some questions that is next to the right one, or leads over those behind it, to their
    /// end or beyond it.
    fn wrong_length(&mut self, questions: &[Question]) -> Damage {
        let own = make::question(&questions[0]).len() as u32;
        let all = make::basket(questions).len() as u32;
        Damage::SetLength(self.random.pick(&[4, 20, own - 1, own + 1, all, all + 1]))
    }

    fn damage(&mut self, book: &mut Vec<Record>, question: &mut Question, damages: &mut Vec<(Target, Damage)>) {
        let target = self.random.weighted(&[
            (40, Target::Book),
            (28, Target::Question),
            (8, Target::Asked),
            (8, Target::Fallback),
            (16, Target::Program),
        ]);
        match target {
            Target::Book if self.random.percent(75) => {
                let mut record = self.any_record();
                self.spoil_record(&mut record);
                book.insert(self.random.below(book.len() + 1), record);
            }
            Target::Question if self.random.percent(75) => self.spoil_question(question),
            _ => {
                damages.push((target, self.byte_damage()));
                if self.random.percent(50) {
                    damages.push((target, Damage::MendLength));
                }
            }
        }
    }

    /// A good record of any kind.
    fn any_record(&mut self) -> Record {
        match self.random.below(5) {
            0 => {
                let number = self.row_article();
                self.article_record(number)
            }
            1 => self.price_row().into(),
            2 => self.rounding().into(),
            3 => self.packaging_of_any().into(),
            _ => self.scheme().into(),
        }
    }

    fn byte_damage(&mut self) -> Damage {
        let place = self.random.below(1 << 20);
        let byte = self.random.byte();
        match self.random.below(11) {
            0 | 1 => Damage::DropLast(self.random.between(1, 12)),
            2 => Damage::KeepFirst(self.random.below(40)),
            3 => {
                let more = self.random.between(1, 8);
                Damage::Append((0..more).map(|_| self.random.byte()).collect())
            }
            4 | 5 => Damage::Change { place, mask: 1 << self.random.below(8) },
            6 => Damage::Insert { place, byte },
            7 => Damage::Remove { place },
            8 => Damage::SetVersion(self.random.pick(&[0, 1, 2, 2, 3, 255])),
            _ => {
                let small = self.random.below(64) as u32;
                let lengths = [small, 0, 4, 5, u32::MAX, 1 << 31, 1 << 24, 4_194_304];
                Damage::SetLength(self.random.pick(&lengths))
            }
        }
    }

    /// Puts a byte into a name that no name may have, or makes the name too short or too long.
    fn spoil_name(&mut self, name: &mut Vec<u8>, shortest: usize, longest: usize) {
        let bad_byte = self.random.pick(&[0, 31, 127, 128, 159]);
        match self.random.below(3) {
            0 if shortest > 0 => name.clear(),
            1 if !name.is_empty() => {
                let place = self.random.below(name.len());
                name[place] = bad_byte;
            }
            _ => name.resize(longest + 1, b'N'),
        }
    }

    /// Moves a number just beyond its bound on one side or the other.
    fn beyond(&mut self, bound: i32) -> i32 {
        self.random.pick(&[bound + 1, -bound - 1, i32::MAX, i32::MIN, bound, -bound])
    }

    fn spoil_record(&mut self, record: &mut Record) {
        if self.random.percent(15) {
            *record = self.raw_record(record);
            return;
        }
        match record {
            Record::Article(article) => {
                if self.random.percent(50) {
                    self.spoil_name(&mut article.number, 1, 40);
                } else {
                    self.spoil_name(&mut article.scheme, 0, 20);
                }
            }
            Record::Price(row) => self.spoil_price(row),
            Record::Rounding(rounding) => match self.random.below(5) {
                0 => rounding.number = 0,
                1 => rounding.way = self.random.pick(&[3, 255]),
                2 => rounding.step = self.random.pick(&[0, 1_000_001, 1_000_000, u32::MAX]),
                3 => rounding.add_before = self.beyond(1_000_000),
                _ => rounding.add_after = self.beyond(1_000_000),
            },
            Record::Packaging(packaging) => self.spoil_packaging(packaging),
            Record::Scheme(scheme) => self.spoil_scheme(scheme),
            Record::Raw(_) => {}
        }
    }

    fn raw_record(&mut self, record: &Record) -> Record {
        let mut body = record.bytes()[2..].to_vec();
        match self.random.below(5) {
            0 => body.push(self.random.byte()),
            1 => {
                body.pop();
            }
            2 => body.clear(),
            3 => body[0] = self.random.pick(&[0, 6, 255]),
            _ => body[0] = self.random.pick(&[1, 2, 3, 4, 5]),
        }
        Record::Raw(body)
    }

    fn spoil_price(&mut self, row: &mut Price) {
        match self.random.below(9) {
            0 => self.spoil_name(&mut row.article, 1, 40),
            1 => self.spoil_name(&mut row.condition, 0, 20),
            2 => row.sort = self.random.pick(b"sB\0QRT"),
            3 => row.level = self.random.pick(b"bS\0ACEWY"),
            4 => row.rule = self.random.pick(&[0, 3, b'1']),
            5 => row.fixed = self.random.pick(&[2, b'0', 255]),
            6 => {
                let place = self.random.below(3);
                row.currency[place] = self.random.pick(b"@[az\0 A");
            }
            7 => row.currency = [0; 3],
            _ => {
                let bound = if row.fixed == 1 { 100_000_000 } else { 100_000 };
                row.value = self.beyond(bound);
            }
        }
    }

    fn spoil_packaging(&mut self, packaging: &mut Packaging) {
        let place = self.random.below(8);
        match self.random.below(8) {
            0 => self.spoil_name(&mut packaging.article, 1, 40),
            1 => self.spoil_name(&mut packaging.condition, 0, 20),
            2 => (packaging.article, packaging.condition) = (latin1("*"), Vec::new()),
            3 => {
                packaging.present &= !(1 << place);
                packaging.values[place] = self.random.pick(&[1, -1, 256, 0]);
            }
            4 => {
                let bound = if place < 6 { 10_000_000 } else { 10_000 };
                packaging.present |= 1 << place;
                packaging.values[place] = self.beyond(bound);
            }
            5 | 6 => {
                // A single value; its unit may be the one that is taken away.
                (packaging.present, packaging.values) = (1 << place, [0; 8]);
                packaging.units[self.random.below(3)] = [0; 3];
            }
            _ => {
                let units = [*b"KGM", *b"MMT", *b"LTR", *b"mmt", *b"MM\0", *b"XXX"];
                packaging.units[place % 3] = self.random.pick(&units);
            }
        }
    }

    fn spoil_scheme(&mut self, scheme: &mut Scheme) {
        match self.random.below(12) {
            0 => self.spoil_name(&mut scheme.id, 1, 20),
            1 => self.spoil_name(&mut scheme.number_separator, 0, 8),
            2 => self.spoil_name(&mut scheme.value_separator, 0, 8),
            3 => scheme.visibility = self.random.pick(&[2, b'1']),
            4 => scheme.trim = self.random.pick(&[2, b'1']),
            5 => scheme.hidden = self.random.pick(&[1, 31, 127, 159]),
            6 => scheme.unselected = self.random.pick(&[1, 31, 127, 159]),
            _ => {
                // Trimming with a short separator: allowed or not, by the filling characters.
                scheme.trim = 1;
                scheme.value_separator = latin1(self.random.pick(&["", "-", "X", "#", "_"]));
                scheme.hidden = self.random.pick(&[0, b'-', b'X', b'#']);
                scheme.unselected = self.random.pick(&[0, b'-', b'X', b'#']);
            }
        }
    }

    fn spoil_question(&mut self, question: &mut Question) {
        if question.version == 2 && !question.granted.is_empty() && self.random.percent(50) {
            self.spoil_factor(&mut question.granted);
            return;
        }
        match self.random.below(13) {
            0 => self.spoil_name(&mut question.article, 1, 40),
            1 => question.sort = self.random.pick(b"sB\0"),
            2 => {
                let place = self.random.below(3);
                question.currency[place] = self.random.pick(b"@[az\0 A");
            }
            3 => question.date = self.random.pick(&NO_DAYS),
            4 => question.quantity = self.random.pick(&[0, 100_001, 100_000, u32::MAX]),
            5 => question.granted = vec![Granted::new(latin1("OAK")); self.random.between(32, 34)],
            6 => {
                let property = self.property();
                question.properties = vec![property; self.random.between(32, 34)];
            }
            7 if !question.granted.is_empty() => {
                let place = self.random.below(question.granted.len());
                self.spoil_name(&mut question.granted[place].name, 1, 20);
            }
            8 => question.version = self.random.pick(&[0, 3, 255]),
            _ if !question.properties.is_empty() => {
                let place = self.random.below(question.properties.len());
                self.spoil_property(&mut question.properties[place]);
            }
            _ => question.date = self.random.pick(&NO_DAYS),
        }
    }

    /// Puts a factor out of range, or at its end, behind one of the names, or behind a repeat of it, which has to be looked at as well.
    fn spoil_factor(&mut self, granted: &mut Vec<Granted>) {
        let place = self.random.below(granted.len());
        let factor = self.random.pick(&[10_000, 10_001, 10_001, 10_002, 1 << 14, i16::MAX as u16, 1 << 15, u16::MAX]);
        if granted.len() < 32 && self.random.percent(40) {
            let name = self.recased(&granted[place].name);
            granted.insert(self.random.between(place + 1, granted.len()), Granted { name, factor });
        } else {
            granted[place].factor = factor;
        }
    }

    fn spoil_property(&mut self, property: &mut Property) {
        match self.random.below(6) {
            0 => property.width = self.random.pick(&[0, 31, 255]),
            1 => property.state = self.random.pick(&[3, 255, b'0']),
            2 => property.value.resize(usize::from(property.width) + 1, b'V'),
            3 => property.value.clear(),
            4 => property.state = self.random.pick(&[0, 1, 2]),
            _ => {
                property.state = 0;
                property.value = vec![self.random.pick(&[b' ', 160, b'\\', 31, 127, 159, 161])];
            }
        }
    }
}

fn any_day(random: &mut Random) -> u32 {
    loop {
        let year = random.between(1, 9999);
        let month = random.between(1, 12);
        let date = (year * 10_000 + month * 100 + random.between(1, 31)) as u32;
        if is_day(date) {
            return date;
        }
    }
}

/// The last day of a period of so many days, as far as there are days.
fn end_after(start: u32, days: usize) -> u32 {
    let mut end = start;
    for _ in 1..days {
        end = next_day(end).unwrap_or(end);
    }
    end
}

fn any_end(random: &mut Random, start: u32) -> u32 {
    match random.below(100) {
        0..=24 => start,
        25..=39 => end_after(start, 2),
        40..=74 => end_after(start, random.between(3, 40)),
        75..=79 => end_after(start, random.between(41, 200)),
        80 => end_after(start, random.pick(&[1_095, 1_096, 1_096])),
        81..=83 => end_after(start, 1_097),
        84 => end_after(start, random.between(1_098, 2_000)),
        85..=90 => day_before(start).unwrap_or(start),
        91..=93 => random.pick(&DATES),
        94 => random.pick(&[0, u32::MAX, 1 << 31]),
        _ => random.pick(&NO_DAYS),
    }
}

fn days_around(random: &mut Random, start: u32, end: u32) -> Vec<u32> {
    let mut days = vec![start];
    days.extend(day_before(start));
    days.extend(next_day(start));
    if let Some(within) = period(start, end) {
        days.push(end);
        days.extend(day_before(end));
        days.extend(next_day(end));
        for _ in 0..6 {
            days.push(random.pick(&within));
        }
    }
    days
}

// Very big inputs.

/// Article records that are never asked for, together exactly so many bytes long.
pub(crate) fn filling(bytes: usize) -> Vec<Record> {
    // The shortest record takes 6 bytes, that of a number of 40 bytes takes 45.
    let mut records = Vec::new();
    let mut left = bytes;
    while left >= 6 {
        let length = if left >= 45 + 6 { 45 } else { left.min(45) };
        records.push(Article::new(&"F".repeat(length - 5), "").into());
        left -= length;
        if (1..6).contains(&left) {
            // Too little for a record of its own: the last one gives some bytes back.
            records.pop();
            left += length;
            let shorter = length - 6;
            records.push(Article::new(&"F".repeat(shorter - 5), "").into());
            left -= shorter;
        }
    }
    records
}

/// Makes the program's input as long as it may be, or one byte shorter or longer.
fn fill_program_input(case: &mut Case, random: &mut Random) {
    case.damages.clear();
    let wanted = random.pick(&[65_535, 65_536, 65_536, 65_537]);
    let missing = wanted - case.inputs().program.len();
    case.book.extend(filling(missing));
}

/// Makes a long period with a price of its own on most days.
fn change_daily(case: &mut Case, random: &mut Random) {
    let question = &mut case.question;
    // Every name means another look at every row on every day.
    question.granted.truncate(1);
    case.end = end_after(question.date, random.between(1_000, 1_096));
    for (place, day) in period(question.date, case.end).unwrap_or_default().iter().enumerate() {
        if random.percent(95) {
            let row =
                Price { article: question.article.clone(), sort: question.sort, ..Price::fixed("", b'B', place as i32 % 7 + 1) };
            case.book.push(row.dates(*day, *day).into());
        }
    }
}

/// Makes one of the text books about as long as it may be.
fn fill_text_books(case: &mut Case, random: &mut Random) {
    case.damages.clear();
    let wanted = random.pick(&[LONGEST_BOOK - 1, LONGEST_BOOK, LONGEST_BOOK, LONGEST_BOOK + 1]);
    let texts = if random.percent(50) { &mut case.asked } else { &mut case.fallback };
    let mut missing = wanted - make::text_book(texts).len();
    while missing >= 6 {
        let mut length = (missing - 6).min(65_535);
        let rest = missing - 6 - length;
        if (1..6).contains(&rest) {
            length -= 6;
        }
        texts.push(TextRecord::new(3, &vec![b't'; length]));
        missing -= 6 + length;
    }
}

/// Makes the book as long as it may be, or one byte shorter or longer. The period is cut to two
/// days, as every day looks through the whole book.
fn fill_book(case: &mut Case, random: &mut Random) {
    case.damages.clear();
    case.end = next_day(case.question.date).unwrap_or(case.question.date);
    let wanted = random.pick(&[LONGEST_BOOK - 1, LONGEST_BOOK, LONGEST_BOOK, LONGEST_BOOK + 1]);
    let missing = wanted - make::book(&case.book).len();
    case.book.extend(filling(missing));
}
