//! Names that a relation derives, in plain Rust: written for the benchmark from document 003 (appendices A and H) and the
//! request, to compare with. A text is read by recursive descent into a tree of boxes and vectors, in which names and strings are
//! slices of the text; then the tree is judged, and the question is written with the names in it. Nothing in it is tuned, and nothing
//! is done twice.

mod text;
mod tree;

use crate::reference::{self, holds, Reader};
use std::cmp::Ordering;
use tree::{Assignment, Condition, Operand, Value};

const MOST_PROPERTIES: u8 = 64;
const MOST_NAMES: usize = 32;
const LONGEST_NAME: usize = 20;
const FACTOR_OF_ONE: u16 = 1_000;

/// Why nothing is derived: the number of the refusal, and the place of a byte in the text, from 1, or 0 where there is none.
#[derive(Debug, PartialEq, Eq)]
pub struct Refused {
    pub number: u8,
    pub place: usize,
}

const BAD_QUESTION: Refused = Refused { number: 2, place: 0 };

/// The question with the derived names in it.
pub fn derive(question: &[u8], properties: &[u8], relation: &[u8]) -> Result<Vec<u8>, Refused> {
    let place = reference::place_of_no_names(question).ok_or(BAD_QUESTION)?;
    let properties = Properties::read(properties).ok_or(BAD_QUESTION)?;
    let assignments = tree::read(relation)?;
    let names = names(&assignments, &properties)?;
    Ok(granting(question, place, &names))
}

/// The question with these names at the place where it says that it has none. In version 2 a factor stands behind each.
fn granting(question: &[u8], place: usize, names: &[&[u8]]) -> Vec<u8> {
    let mut bytes = Vec::with_capacity(question.len() + names.len() * (1 + LONGEST_NAME + 2));
    bytes.extend(&question[..place]);
    bytes.push(names.len() as u8);
    for name in names {
        bytes.push(name.len() as u8);
        bytes.extend(*name);
        if question[4] == 2 {
            bytes.extend(FACTOR_OF_ONE.to_be_bytes());
        }
    }
    bytes.extend(&question[place + 1..]);
    let length = bytes.len() as u32;
    bytes[..4].copy_from_slice(&length.to_be_bytes());
    bytes
}

/// Those of the assignments whose condition is plainly true, or the place of the first that cannot be granted.
fn names<'a>(assignments: &[Assignment<'a>], properties: &Properties) -> Result<Vec<&'a [u8]>, Refused> {
    let mut names = Vec::new();
    for Assignment { place, name, condition } in assignments {
        if condition.as_ref().is_some_and(|condition| condition.truth(properties) != Some(true)) {
            continue;
        }
        let good = (1..=LONGEST_NAME).contains(&name.len()) && name.iter().all(|&byte| reference::is_name_byte(byte));
        if names.len() == MOST_NAMES || !good {
            return Err(Refused { number: 16, place: *place });
        }
        names.push(*name);
    }
    Ok(names)
}

impl Condition<'_> {
    /// `None` if it is undefined.
    fn truth(&self, properties: &Properties) -> Option<bool> {
        match self {
            Condition::Any(parts) => decided(true, parts.iter().map(|part| part.truth(properties))),
            Condition::All(parts) => decided(false, parts.iter().map(|part| part.truth(properties))),
            Condition::Not(condition) => condition.truth(properties).map(|truth| !truth),
            Condition::Specified(name) => Some(properties.value(name).is_some()),
            Condition::In(operand, constants) => {
                let value = operand.value(properties)?;
                decided(true, constants.iter().map(|constant| order(value, *constant, false).map(Ordering::is_eq)))
            }
            Condition::Compared(left, comparison, right) => {
                let constants = matches!((left, right), (Operand::Constant(_), Operand::Constant(_)));
                order(left.value(properties)?, right.value(properties)?, constants).map(comparison)
            }
        }
    }
}

/// One part of this truth decides the whole; without it, an undefined part leaves the whole undefined.
fn decided(by: bool, parts: impl Iterator<Item = Option<bool>>) -> Option<bool> {
    let mut truth = Some(!by);
    for part in parts {
        match part {
            Some(part) if part == by => return Some(by),
            Some(_) => {}
            None => truth = None,
        }
    }
    truth
}

/// The case of letters counts between two constants only.
fn order(one: Value, other: Value, case_counts: bool) -> Option<Ordering> {
    match (one, other) {
        (Value::Number(one), Value::Number(other)) => Some(one.cmp(&other)),
        (Value::String(one), Value::String(other)) if case_counts => Some(one.cmp(other)),
        (Value::String(one), Value::String(other)) => Some(raised(one).cmp(raised(other))),
        _ => None,
    }
}

fn raised(string: &[u8]) -> impl Iterator<Item = u8> + '_ {
    string.iter().map(|&byte| match byte {
        b'a'..=b'z' | 224..=246 | 248..=254 => byte - 32,
        _ => byte,
    })
}

impl<'a> Operand<'a> {
    fn value(self, properties: &Properties<'a>) -> Option<Value<'a>> {
        match self {
            Operand::Property(name) => properties.value(name),
            Operand::Constant(value) => Some(value),
        }
    }
}

/// Names and values, in the order of the list.
struct Properties<'a>(Vec<(&'a [u8], Option<Value<'a>>)>);

impl<'a> Properties<'a> {
    fn read(bytes: &'a [u8]) -> Option<Properties<'a>> {
        let mut reader = Reader { rest: bytes };
        let count = reader.byte()?;
        holds(count <= MOST_PROPERTIES)?;
        let properties = (0..count).map(|_| property(&mut reader)).collect::<Option<_>>()?;
        holds(reader.rest.is_empty())?;
        Some(Properties(properties))
    }

    /// The first of a name counts.
    fn value(&self, name: &[u8]) -> Option<Value<'a>> {
        self.0.iter().find(|(listed, _)| listed.eq_ignore_ascii_case(name))?.1
    }
}

fn property<'a>(reader: &mut Reader<'a>) -> Option<(&'a [u8], Option<Value<'a>>)> {
    let name = reader.name(0, 255)?;
    let value = match reader.byte()? {
        0 => None,
        1 => Some(Value::String(reader.name(0, 255)?)),
        2 => Some(Value::Number(i64::from_be_bytes(reader.take(8)?.try_into().ok()?))),
        _ => return None,
    };
    Some((name, value))
}
