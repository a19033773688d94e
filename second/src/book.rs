//! The price book, read into one vector per kind of record.

use crate::reader::{is_name_byte, opened, Reader, LONGEST_BOOK};

#[derive(Debug, Default, Clone)]
pub struct Book {
    pub articles: Vec<Article>,
    pub prices: Vec<PriceRow>,
    pub roundings: Vec<Rounding>,
    pub packagings: Vec<Packaging>,
    pub schemes: Vec<Scheme>,
}

#[derive(Debug, Clone)]
pub struct Article {
    pub number: Vec<u8>,
    pub scheme: Vec<u8>,
}

/// What a price row is worth.
#[derive(Debug, Clone, Copy)]
pub enum Value {
    /// In cents.
    Fixed(i32),
    /// In hundredths of a percent.
    Percent(i32),
}

/// What a percentage is taken of.
#[derive(Debug, Clone, Copy)]
pub enum Rule {
    BaseLines,
    RunningTotal,
}

#[derive(Debug, Clone)]
pub struct PriceRow {
    pub article: Vec<u8>,
    pub condition: Vec<u8>,
    pub sort: u8,
    pub level: u8,
    pub rule: Rule,
    pub text: u32,
    pub value: Value,
    pub currency: [u8; 3],
    pub from: u32,
    pub to: u32,
    pub up_to: u32,
    pub rounding: u16,
}

#[derive(Debug, Clone, Copy)]
pub enum Way {
    Down,
    Up,
    Commercial,
}

#[derive(Debug, Clone, Copy)]
pub struct Rounding {
    pub number: u16,
    pub way: Way,
    pub step: u32,
    pub add_before: i32,
    pub add_after: i32,
}

#[derive(Debug, Clone)]
pub struct Packaging {
    pub article: Vec<u8>,
    pub condition: Vec<u8>,
    pub present: u8,
    pub values: [i32; 8],
    /// Length, volume, weight; `None` where no unit is given.
    pub units: [Option<[u8; 3]>; 3],
}

#[derive(Debug, Clone)]
pub struct Scheme {
    pub id: Vec<u8>,
    pub number_separator: Vec<u8>,
    pub value_separator: Vec<u8>,
    pub shows_hidden: bool,
    /// The default is filled in where the book gives none.
    pub hidden: u8,
    /// The default is filled in where the book gives none.
    pub unselected: u8,
    pub trims: bool,
}

const LENGTH_UNITS: [&[u8; 3]; 5] = [b"CMT", b"FOT", b"INH", b"MMT", b"MTR"];
const VOLUME_UNITS: [&[u8; 3]; 3] = [b"INQ", b"LTR", b"MTQ"];
const WEIGHT_UNITS: [&[u8; 3]; 3] = [b"KGM", b"LBR", b"MGM"];

/// Which of the eight packaging values are counted in each of the three units.
const VALUES_OF_UNIT: [&[usize]; 3] = [&[0, 1, 2], &[3], &[4, 5]];

pub fn book_ok(bytes: &[u8]) -> bool {
    Book::read(bytes).is_some()
}

impl Book {
    /// The whole book, or `None` if any part of it breaks the layout.
    pub fn read(bytes: &[u8]) -> Option<Book> {
        if bytes.len() > LONGEST_BOOK {
            return None;
        }
        let mut reader = opened(bytes)?;
        let mut book = Book::default();
        while !reader.at_end() {
            let length = usize::from(reader.u16()?);
            book.read_record(reader.take(length)?)?;
        }
        Some(book)
    }

    fn read_record(&mut self, record: &[u8]) -> Option<()> {
        let mut reader = Reader::new(record);
        match reader.byte()? {
            1 => self.articles.push(read_article(&mut reader)?),
            2 => self.prices.push(read_price(&mut reader)?),
            3 => self.roundings.push(read_rounding(&mut reader)?),
            4 => self.packagings.push(read_packaging(&mut reader)?),
            5 => self.schemes.push(read_scheme(&mut reader)?),
            _ => return None,
        }
        reader.at_end().then_some(())
    }

    pub fn article(&self, number: &[u8]) -> Option<&Article> {
        self.articles.iter().find(|article| article.number == number)
    }

    pub fn rounding(&self, number: u16) -> Option<&Rounding> {
        self.roundings.iter().find(|rounding| rounding.number == number)
    }

    pub fn packaging(&self, article: &[u8], condition: &[u8]) -> Option<&Packaging> {
        self.packagings.iter().find(|record| record.article == article && record.condition == condition)
    }

    pub fn scheme(&self, id: &[u8]) -> Option<&Scheme> {
        self.schemes.iter().find(|scheme| scheme.id == id)
    }
}

fn read_article(reader: &mut Reader) -> Option<Article> {
    Some(Article { number: reader.name(1, 40)?, scheme: reader.name(0, 20)? })
}

fn read_price(reader: &mut Reader) -> Option<PriceRow> {
    let article = reader.name(1, 40)?;
    let condition = reader.name(0, 20)?;
    let sort = reader.one_of(b"SP")?;
    let level = reader.one_of(b"BXD")?;
    let rule = match reader.byte()? {
        1 => Rule::BaseLines,
        2 => Rule::RunningTotal,
        _ => return None,
    };
    let text = reader.u32()?;
    let value = match reader.byte()? {
        1 => Value::Fixed(reader.i32_within(100_000_000)?),
        0 => Value::Percent(reader.i32_within(100_000)?),
        _ => return None,
    };
    let currency: [u8; 3] = reader.array()?;
    if !currency.iter().all(u8::is_ascii_uppercase) {
        return None;
    }
    Some(PriceRow {
        article,
        condition,
        sort,
        level,
        rule,
        text,
        value,
        currency,
        from: reader.u32()?,
        to: reader.u32()?,
        up_to: reader.u32()?,
        rounding: reader.u16()?,
    })
}

fn read_rounding(reader: &mut Reader) -> Option<Rounding> {
    let number = reader.u16()?;
    let way = match reader.byte()? {
        0 => Way::Down,
        1 => Way::Up,
        2 => Way::Commercial,
        _ => return None,
    };
    let step = reader.u32()?;
    let add_before = reader.i32_within(1_000_000)?;
    let add_after = reader.i32_within(1_000_000)?;
    if number == 0 || !(1..=1_000_000).contains(&step) {
        return None;
    }
    Some(Rounding { number, way, step, add_before, add_after })
}

fn read_packaging(reader: &mut Reader) -> Option<Packaging> {
    let article = reader.name(1, 40)?;
    let condition = reader.name(0, 20)?;
    if article == b"*" && condition.is_empty() {
        return None;
    }
    let present = reader.byte()?;
    let mut values = [0; 8];
    for (place, value) in values.iter_mut().enumerate() {
        let bound = if place < 6 { 10_000_000 } else { 10_000 };
        *value = reader.i32_within(bound)?;
        if !has_bit(present, place) && *value != 0 {
            return None;
        }
    }
    let mut units = [None; 3];
    let groups: [&[&[u8; 3]]; 3] = [&LENGTH_UNITS, &VOLUME_UNITS, &WEIGHT_UNITS];
    for place in 0..3 {
        let unit: [u8; 3] = reader.array()?;
        let needed = VALUES_OF_UNIT[place].iter().any(|&value| has_bit(present, value));
        if groups[place].contains(&&unit) {
            units[place] = Some(unit);
        } else if unit != [0; 3] || needed {
            return None;
        }
    }
    Some(Packaging { article, condition, present, values, units })
}

fn read_scheme(reader: &mut Reader) -> Option<Scheme> {
    let id = reader.name(1, 20)?;
    let number_separator = reader.name(0, 8)?;
    let value_separator = reader.name(0, 8)?;
    let shows_hidden = reader.one_of(&[0, 1])? == 1;
    let hidden = read_character(reader, b'-')?;
    let unselected = read_character(reader, b'X')?;
    let trims = reader.one_of(&[0, 1])? == 1;
    // Once values are trimmed only the separator tells them apart, so it must be there and must
    // not look like the shortest run of either filling character.
    if trims && (value_separator.is_empty() || value_separator == [hidden] || value_separator == [unselected]) {
        return None;
    }
    Some(Scheme { id, number_separator, value_separator, shows_hidden, hidden, unselected, trims })
}

/// A filling character, or its default where a zero says that none is given.
fn read_character(reader: &mut Reader, default: u8) -> Option<u8> {
    match reader.byte()? {
        0 => Some(default),
        byte if is_name_byte(byte) => Some(byte),
        _ => None,
    }
}

pub fn has_bit(bits: u8, place: usize) -> bool {
    bits >> place & 1 == 1
}
