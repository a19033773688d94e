//! The question, read whole for every call.

use crate::days::is_day;
use crate::letters::raised;
use crate::reader::{begun, Reader};

/// Factors are told in thousandths. This one leaves an amount as it is, and holds where none is told.
pub const FACTOR_OF_ONE: u16 = 1_000;

const GREATEST_FACTOR: u16 = 10_000;

#[derive(Debug, Clone)]
pub struct Question {
    pub article: Vec<u8>,
    pub sort: u8,
    /// `None` if no currency is asked.
    pub currency: Option<[u8; 3]>,
    pub date: u32,
    pub quantity: u32,
    pub granted: Vec<Sent>,
    pub properties: Vec<Property>,
}

#[derive(Debug, Clone)]
pub struct Property {
    pub width: u8,
    pub state: State,
}

#[derive(Debug, Clone)]
pub enum State {
    Valued(Vec<u8>),
    Hidden,
    Unselected,
}

/// A granted name as sent, its letters not yet raised.
#[derive(Debug, Clone, PartialEq, Eq)]
pub struct Sent {
    pub name: Vec<u8>,
    pub factor: u16,
}

/// A granted name that is not a repeat.
#[derive(Debug, Clone, PartialEq, Eq)]
pub struct Granted {
    /// From 1, counted in the list as sent.
    pub place: u8,
    /// With small letters raised.
    pub name: Vec<u8>,
    /// The one at this place; those of its repeats count for nothing.
    pub factor: u16,
}

pub fn question_ok(bytes: &[u8]) -> bool {
    Question::read(bytes).is_some()
}

impl Question {
    pub fn read(bytes: &[u8]) -> Option<Question> {
        let (mut reader, version) = begun(bytes)?;
        let has_factors = has_factors(version)?;
        let article = reader.name(1, 40)?;
        let sort = reader.one_of(b"SP")?;
        let currency = match reader.array::<3>()? {
            [0, 0, 0] => None,
            letters if letters.iter().all(u8::is_ascii_uppercase) => Some(letters),
            _ => return None,
        };
        let date = reader.u32()?;
        let quantity = reader.u32()?;
        if !is_day(date) || !(1..=100_000).contains(&quantity) {
            return None;
        }
        let granted = read_list(&mut reader, |reader| read_granted(reader, has_factors))?;
        let properties = read_list(&mut reader, read_property)?;
        reader.at_end().then_some(Question { article, sort, currency, date, quantity, granted, properties })
    }

    /// The granted names in order, each at its first place only.
    pub fn granted_once(&self) -> Vec<Granted> {
        let mut once: Vec<Granted> = Vec::new();
        for (index, sent) in self.granted.iter().enumerate() {
            let name = raised(&sent.name);
            if once.iter().all(|earlier| earlier.name != name) {
                let place = index as u8 + 1;
                once.push(Granted { place, name, factor: sent.factor });
            }
        }
        once
    }
}

/// A count of at most 32 and as many entries.
fn read_list<T>(reader: &mut Reader, read_entry: impl Fn(&mut Reader) -> Option<T>) -> Option<Vec<T>> {
    let count = reader.byte()?;
    if count > 32 {
        return None;
    }
    (0..count).map(|_| read_entry(reader)).collect()
}

/// Whether each granted name of a question of this version has a factor behind it; `None` if there is no such version.
fn has_factors(version: u8) -> Option<bool> {
    match version {
        1 => Some(false),
        2 => Some(true),
        _ => None,
    }
}

fn read_granted(reader: &mut Reader, has_factor: bool) -> Option<Sent> {
    let name = reader.name(1, 20)?;
    let factor = if has_factor { reader.u16()? } else { FACTOR_OF_ONE };
    (factor <= GREATEST_FACTOR).then_some(Sent { name, factor })
}

fn read_property(reader: &mut Reader) -> Option<Property> {
    let width = reader.byte()?;
    if !(1..=30).contains(&width) {
        return None;
    }
    let state = match reader.byte()? {
        0 => {
            let value = reader.name(1, usize::from(width))?;
            if value.iter().any(|byte| matches!(byte, b' ' | 160 | b'\\')) {
                return None;
            }
            State::Valued(value)
        }
        1 => {
            reader.name(0, 0)?;
            State::Hidden
        }
        2 => {
            reader.name(0, 0)?;
            State::Unselected
        }
        _ => return None,
    };
    Some(Property { width, state })
}
