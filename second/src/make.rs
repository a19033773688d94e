//! Builds books, questions and text books from readable values.
//!
//! Nothing is checked here: a test may ask for a value that breaks the layout and gets it
//! written all the same.

use crate::question::FACTOR_OF_ONE;

/// One record of a price book.
#[derive(Debug, Clone, PartialEq, Eq)]
pub enum Record {
    Article(Article),
    Price(Price),
    Rounding(Rounding),
    Packaging(Packaging),
    Scheme(Scheme),
    /// Kind and body as they are.
    Raw(Vec<u8>),
}

#[derive(Debug, Clone, PartialEq, Eq)]
pub struct Article {
    pub number: Vec<u8>,
    pub scheme: Vec<u8>,
}

#[derive(Debug, Clone, PartialEq, Eq)]
pub struct Price {
    pub article: Vec<u8>,
    pub condition: Vec<u8>,
    pub sort: u8,
    pub level: u8,
    pub rule: u8,
    pub text: u32,
    pub fixed: u8,
    pub value: i32,
    pub currency: [u8; 3],
    pub from: u32,
    pub to: u32,
    pub up_to: u32,
    pub rounding: u16,
}

#[derive(Debug, Clone, PartialEq, Eq)]
pub struct Rounding {
    pub number: u16,
    pub way: u8,
    pub step: u32,
    pub add_before: i32,
    pub add_after: i32,
}

#[derive(Debug, Clone, PartialEq, Eq)]
pub struct Packaging {
    pub article: Vec<u8>,
    pub condition: Vec<u8>,
    pub present: u8,
    pub values: [i32; 8],
    pub units: [[u8; 3]; 3],
}

#[derive(Debug, Clone, PartialEq, Eq)]
pub struct Scheme {
    pub id: Vec<u8>,
    pub number_separator: Vec<u8>,
    pub value_separator: Vec<u8>,
    pub visibility: u8,
    pub hidden: u8,
    pub unselected: u8,
    pub trim: u8,
}

#[derive(Debug, Clone, PartialEq, Eq)]
pub struct Question {
    pub version: u8,
    pub article: Vec<u8>,
    pub sort: u8,
    pub currency: [u8; 3],
    pub date: u32,
    pub quantity: u32,
    pub granted: Vec<Granted>,
    pub properties: Vec<Property>,
}

/// A granted name, and the factor that version 2 writes behind it.
#[derive(Debug, Clone, PartialEq, Eq)]
pub struct Granted {
    pub name: Vec<u8>,
    pub factor: u16,
}

#[derive(Debug, Clone, PartialEq, Eq)]
pub struct Property {
    pub width: u8,
    pub state: u8,
    pub value: Vec<u8>,
}

/// A property of the list that stands beside a question.
#[derive(Debug, Clone, PartialEq, Eq)]
pub struct Listed {
    pub name: Vec<u8>,
    pub value: ListedValue,
}

#[derive(Debug, Clone, PartialEq, Eq)]
pub enum ListedValue {
    None,
    Text(Vec<u8>),
    Number(i64),
    /// The byte that says which sort it is, and what follows, as they are.
    Raw(Vec<u8>),
}

#[derive(Debug, Clone, PartialEq, Eq)]
pub struct TextRecord {
    pub number: u32,
    pub text: Vec<u8>,
}

/// The bytes of a text all of whose characters are in Latin-1.
pub fn latin1(text: &str) -> Vec<u8> {
    text.chars().map(|c| u8::try_from(u32::from(c)).expect("a character outside Latin-1")).collect()
}

/// A length byte and the bytes.
fn put_name(bytes: &mut Vec<u8>, name: &[u8]) {
    bytes.push(name.len() as u8);
    bytes.extend(name);
}

/// Puts the length of the whole and the version in front.
fn whole(version: u8, content: &[u8]) -> Vec<u8> {
    let mut bytes = Vec::with_capacity(content.len() + 5);
    bytes.extend((content.len() as u32 + 5).to_be_bytes());
    bytes.push(version);
    bytes.extend(content);
    bytes
}

pub fn book(records: &[Record]) -> Vec<u8> {
    let content: Vec<u8> = records.iter().flat_map(Record::bytes).collect();
    whole(1, &content)
}

pub fn question(question: &Question) -> Vec<u8> {
    let mut content = Vec::new();
    put_name(&mut content, &question.article);
    content.push(question.sort);
    content.extend(question.currency);
    content.extend(question.date.to_be_bytes());
    content.extend(question.quantity.to_be_bytes());
    content.push(question.granted.len() as u8);
    for granted in &question.granted {
        put_name(&mut content, &granted.name);
        if question.version != 1 {
            content.extend(granted.factor.to_be_bytes());
        }
    }
    content.push(question.properties.len() as u8);
    for property in &question.properties {
        content.push(property.width);
        content.push(property.state);
        put_name(&mut content, &property.value);
    }
    whole(question.version, &content)
}

/// Questions laid end to end.
pub fn basket(questions: &[Question]) -> Vec<u8> {
    questions.iter().flat_map(question).collect()
}

/// The list of properties beside a question.
pub fn properties(listed: &[Listed]) -> Vec<u8> {
    let mut bytes = vec![listed.len() as u8];
    for property in listed {
        put_name(&mut bytes, &property.name);
        match &property.value {
            ListedValue::None => bytes.push(0),
            ListedValue::Text(text) => {
                bytes.push(1);
                put_name(&mut bytes, text);
            }
            ListedValue::Number(number) => {
                bytes.push(2);
                bytes.extend(number.to_be_bytes());
            }
            ListedValue::Raw(raw) => bytes.extend(raw),
        }
    }
    bytes
}

pub fn text_book(records: &[TextRecord]) -> Vec<u8> {
    let mut content = Vec::new();
    for record in records {
        content.extend(record.number.to_be_bytes());
        content.extend((record.text.len() as u16).to_be_bytes());
        content.extend(&record.text);
    }
    whole(1, &content)
}

impl Record {
    /// The record with its length in front.
    pub fn bytes(&self) -> Vec<u8> {
        let body = self.body();
        let mut bytes = Vec::with_capacity(body.len() + 2);
        bytes.extend((body.len() as u16).to_be_bytes());
        bytes.extend(body);
        bytes
    }

    /// Kind and body.
    fn body(&self) -> Vec<u8> {
        let mut body = Vec::new();
        match self {
            Record::Article(article) => {
                body.push(1);
                put_name(&mut body, &article.number);
                put_name(&mut body, &article.scheme);
            }
            Record::Price(row) => {
                body.push(2);
                put_name(&mut body, &row.article);
                put_name(&mut body, &row.condition);
                body.extend([row.sort, row.level, row.rule]);
                body.extend(row.text.to_be_bytes());
                body.push(row.fixed);
                body.extend(row.value.to_be_bytes());
                body.extend(row.currency);
                body.extend(row.from.to_be_bytes());
                body.extend(row.to.to_be_bytes());
                body.extend(row.up_to.to_be_bytes());
                body.extend(row.rounding.to_be_bytes());
            }
            Record::Rounding(rounding) => {
                body.push(3);
                body.extend(rounding.number.to_be_bytes());
                body.push(rounding.way);
                body.extend(rounding.step.to_be_bytes());
                body.extend(rounding.add_before.to_be_bytes());
                body.extend(rounding.add_after.to_be_bytes());
            }
            Record::Packaging(packaging) => {
                body.push(4);
                put_name(&mut body, &packaging.article);
                put_name(&mut body, &packaging.condition);
                body.push(packaging.present);
                for value in packaging.values {
                    body.extend(value.to_be_bytes());
                }
                for unit in packaging.units {
                    body.extend(unit);
                }
            }
            Record::Scheme(scheme) => {
                body.push(5);
                put_name(&mut body, &scheme.id);
                put_name(&mut body, &scheme.number_separator);
                put_name(&mut body, &scheme.value_separator);
                body.extend([scheme.visibility, scheme.hidden, scheme.unselected, scheme.trim]);
            }
            Record::Raw(bytes) => body.extend(bytes),
        }
        body
    }
}

impl Article {
    pub fn new(number: &str, scheme: &str) -> Self {
        Article { number: latin1(number), scheme: latin1(scheme) }
    }
}

impl Price {
    /// An unconditioned sale row in euros, valid in all of 2024 for every quantity.
    fn new(article: &str, level: u8, rule: u8, fixed: u8, value: i32) -> Self {
        Price {
            article: latin1(article),
            condition: Vec::new(),
            sort: b'S',
            level,
            rule,
            text: 0,
            fixed,
            value,
            currency: *b"EUR",
            from: 20240101,
            to: 20241231,
            up_to: 0,
            rounding: 0,
        }
    }

    pub fn fixed(article: &str, level: u8, cents: i32) -> Self {
        Price::new(article, level, 1, 1, cents)
    }

    pub fn percent(article: &str, level: u8, rule: u8, hundredths: i32) -> Self {
        Price::new(article, level, rule, 0, hundredths)
    }

    pub fn condition(mut self, condition: &str) -> Self {
        self.condition = latin1(condition);
        self
    }

    pub fn dates(mut self, from: u32, to: u32) -> Self {
        (self.from, self.to) = (from, to);
        self
    }

    pub fn currency(mut self, currency: &[u8; 3]) -> Self {
        self.currency = *currency;
        self
    }

    pub fn up_to(mut self, up_to: u32) -> Self {
        self.up_to = up_to;
        self
    }

    pub fn rounding(mut self, rounding: u16) -> Self {
        self.rounding = rounding;
        self
    }

    pub fn sort(mut self, sort: u8) -> Self {
        self.sort = sort;
        self
    }

    pub fn text(mut self, text: u32) -> Self {
        self.text = text;
        self
    }
}

impl Rounding {
    pub fn new(number: u16, way: u8, step: u32) -> Self {
        Rounding { number, way, step, add_before: 0, add_after: 0 }
    }

    pub fn adds(mut self, before: i32, after: i32) -> Self {
        (self.add_before, self.add_after) = (before, after);
        self
    }
}

impl Packaging {
    /// A record without any value; units MMT, LTR, KGM.
    pub fn new(article: &str, condition: &str) -> Self {
        Packaging {
            article: latin1(article),
            condition: latin1(condition),
            present: 0,
            values: [0; 8],
            units: [*b"MMT", *b"LTR", *b"KGM"],
        }
    }

    /// Gives a value by its place in the record, from 0.
    pub fn value(mut self, place: usize, value: i32) -> Self {
        self.present |= 1 << place;
        self.values[place] = value;
        self
    }

    pub fn units(mut self, length: &[u8; 3], volume: &[u8; 3], weight: &[u8; 3]) -> Self {
        self.units = [*length, *volume, *weight];
        self
    }
}

impl Scheme {
    /// Hidden values shown, no characters given, no trimming.
    pub fn new(id: &str, number_separator: &str, value_separator: &str) -> Self {
        Scheme {
            id: latin1(id),
            number_separator: latin1(number_separator),
            value_separator: latin1(value_separator),
            visibility: 1,
            hidden: 0,
            unselected: 0,
            trim: 0,
        }
    }

    pub fn visibility(mut self, visibility: u8) -> Self {
        self.visibility = visibility;
        self
    }

    pub fn characters(mut self, hidden: u8, unselected: u8) -> Self {
        (self.hidden, self.unselected) = (hidden, unselected);
        self
    }

    pub fn trim(mut self, trim: u8) -> Self {
        self.trim = trim;
        self
    }
}

impl Question {
    /// Asks for one piece in euros at the sale price, with nothing granted, in version 1.
    pub fn new(article: &str, date: u32) -> Self {
        Question {
            version: 1,
            article: latin1(article),
            sort: b'S',
            currency: *b"EUR",
            date,
            quantity: 1,
            granted: Vec::new(),
            properties: Vec::new(),
        }
    }

    pub fn sort(mut self, sort: u8) -> Self {
        self.sort = sort;
        self
    }

    pub fn currency(mut self, currency: &[u8; 3]) -> Self {
        self.currency = *currency;
        self
    }

    pub fn quantity(mut self, quantity: u32) -> Self {
        self.quantity = quantity;
        self
    }

    pub fn version(mut self, version: u8) -> Self {
        self.version = version;
        self
    }

    pub fn granted(mut self, names: &[&str]) -> Self {
        self.granted = names.iter().map(|name| Granted::new(latin1(name))).collect();
        self
    }

    /// Grants names with factors, which takes version 2.
    pub fn factored(mut self, names: &[(&str, u16)]) -> Self {
        self.granted = names.iter().map(|(name, factor)| Granted { name: latin1(name), factor: *factor }).collect();
        self.version(2)
    }

    pub fn valued(self, width: u8, value: &str) -> Self {
        self.property(width, 0, value)
    }

    pub fn hidden(self, width: u8) -> Self {
        self.property(width, 1, "")
    }

    pub fn unselected(self, width: u8) -> Self {
        self.property(width, 2, "")
    }

    pub fn property(mut self, width: u8, state: u8, value: &str) -> Self {
        self.properties.push(Property { width, state, value: latin1(value) });
        self
    }

    pub fn bytes(&self) -> Vec<u8> {
        question(self)
    }
}

impl Granted {
    /// A name whose factor changes nothing.
    pub fn new(name: Vec<u8>) -> Self {
        Granted { name, factor: FACTOR_OF_ONE }
    }
}

impl Listed {
    /// A property without a value.
    pub fn none(name: &str) -> Self {
        Listed { name: latin1(name), value: ListedValue::None }
    }

    pub fn text(name: &str, text: &str) -> Self {
        Listed { name: latin1(name), value: ListedValue::Text(latin1(text)) }
    }

    pub fn number(name: &str, number: i64) -> Self {
        Listed { name: latin1(name), value: ListedValue::Number(number) }
    }
}

impl TextRecord {
    pub fn new(number: u32, text: &[u8]) -> Self {
        TextRecord { number, text: text.to_vec() }
    }
}

impl From<Article> for Record {
    fn from(article: Article) -> Self {
        Record::Article(article)
    }
}

impl From<Price> for Record {
    fn from(row: Price) -> Self {
        Record::Price(row)
    }
}

impl From<Rounding> for Record {
    fn from(rounding: Rounding) -> Self {
        Record::Rounding(rounding)
    }
}

impl From<Packaging> for Record {
    fn from(packaging: Packaging) -> Self {
        Record::Packaging(packaging)
    }
}

impl From<Scheme> for Record {
    fn from(scheme: Scheme) -> Self {
        Record::Scheme(scheme)
    }
}
