//! The tree of a relation, and how it is read: recursive descent. Names and strings are slices of the text.

use super::text::{begins_word, Text};
use super::Refused;
use std::cmp::Ordering;

pub struct Assignment<'a> {
    /// Of its first byte in the text, from 1.
    pub place: usize,
    pub name: &'a [u8],
    pub condition: Option<Condition<'a>>,
}

pub enum Condition<'a> {
    Any(Vec<Condition<'a>>),
    All(Vec<Condition<'a>>),
    Not(Box<Condition<'a>>),
    Specified(&'a [u8]),
    In(Operand<'a>, Vec<Value<'a>>),
    Compared(Operand<'a>, Comparison, Operand<'a>),
}

#[derive(Clone, Copy)]
pub enum Operand<'a> {
    Property(&'a [u8]),
    Constant(Value<'a>),
}

#[derive(Clone, Copy)]
pub enum Value<'a> {
    String(&'a [u8]),
    Number(i64),
}

/// Whether it holds of two values in this order.
pub type Comparison = fn(Ordering) -> bool;

const MOST_DEEP: usize = 16;

const RESERVED: [&str; 15] = [
    "AND",
    "BAN",
    "EQ",
    "GE",
    "GT",
    "IF",
    "IN",
    "LE",
    "LT",
    "NE",
    "NOT",
    "OR",
    "SET_PCKG_FACTOR",
    "SET_PRICING_FACTOR",
    "SPECIFIED",
];

/// What may stand behind the first operand; IN, which is no comparison, only behind a property.
const BEHIND: [(&str, Option<Comparison>); 7] = [
    ("LT", Some(Ordering::is_lt)),
    ("LE", Some(Ordering::is_le)),
    ("EQ", Some(Ordering::is_eq)),
    ("NE", Some(Ordering::is_ne)),
    ("GE", Some(Ordering::is_ge)),
    ("GT", Some(Ordering::is_gt)),
    ("IN", None),
];

/// Joins two single conditions; only OR ends a row of ANDs.
const JOINTS: [(&str, bool); 2] = [("AND", false), ("OR", true)];

/// The assignments of a text.
pub fn read(bytes: &[u8]) -> Result<Vec<Assignment<'_>>, Refused> {
    let mut text = Text::new(bytes);
    let mut assignments = vec![text.assignment()?];
    while text.next().is_some() {
        text.needs(b',')?;
        assignments.push(text.assignment()?);
    }
    Ok(assignments)
}

impl<'a> Text<'a> {
    fn assignment(&mut self) -> Result<Assignment<'a>, Refused> {
        self.next();
        let place = self.place();
        self.needs(b'$')?;
        self.keyword(&[("VARCOND", ())])?;
        self.needs(b'=')?;
        let name = self.string()?;
        let condition = match self.next() {
            None | Some(b',') => None,
            Some(_) => {
                self.keyword(&[("IF", ())])?;
                Some(self.condition(0)?)
            }
        };
        Ok(Assignment { place, name, condition })
    }

    /// AND binds before OR.
    fn condition(&mut self, deep: usize) -> Result<Condition<'a>, Refused> {
        let mut any = Vec::new();
        let mut all = vec![self.single(deep)?];
        while self.next().is_some_and(begins_word) {
            if self.keyword(&JOINTS)? {
                any.push(one_or(Condition::All, std::mem::take(&mut all)));
            }
            all.push(self.single(deep)?);
        }
        let last = one_or(Condition::All, all);
        if any.is_empty() {
            return Ok(last);
        }
        any.push(last);
        Ok(Condition::Any(any))
    }

    /// There may be any number of NOTs in front of it.
    fn single(&mut self, deep: usize) -> Result<Condition<'a>, Refused> {
        let mut turned = false;
        let condition = loop {
            match self.next() {
                Some(b'(') => break self.in_parentheses(deep)?,
                Some(byte) if begins_word(byte) => match self.word() {
                    word if word.eq_ignore_ascii_case(b"NOT") => turned = !turned,
                    word if word.eq_ignore_ascii_case(b"SPECIFIED") => break Condition::Specified(self.property()?),
                    word => break self.compared(Operand::Property(self.unreserved(word)?))?,
                },
                _ => {
                    let constant = self.constant()?;
                    break self.compared(Operand::Constant(constant))?;
                }
            }
        };
        Ok(if turned { Condition::Not(Box::new(condition)) } else { condition })
    }

    fn in_parentheses(&mut self, deep: usize) -> Result<Condition<'a>, Refused> {
        if deep == MOST_DEEP {
            return Err(Refused { number: 15, place: self.place() });
        }
        self.needs(b'(')?;
        let condition = self.condition(deep + 1)?;
        self.needs(b')')?;
        Ok(condition)
    }

    fn compared(&mut self, left: Operand<'a>) -> Result<Condition<'a>, Refused> {
        let comparison = match (self.sign(), left) {
            (Some(comparison), _) => Some(comparison),
            (None, Operand::Property(_)) => self.keyword(&BEHIND)?,
            (None, Operand::Constant(_)) => self.keyword(&BEHIND[..6])?,
        };
        match comparison {
            Some(comparison) => Ok(Condition::Compared(left, comparison, self.operand()?)),
            None => Ok(Condition::In(left, self.constants()?)),
        }
    }

    fn constants(&mut self) -> Result<Vec<Value<'a>>, Refused> {
        self.needs(b'(')?;
        let mut constants = vec![self.constant()?];
        while self.next() != Some(b')') {
            self.needs(b',')?;
            constants.push(self.constant()?);
        }
        self.needs(b')')?;
        Ok(constants)
    }

    fn operand(&mut self) -> Result<Operand<'a>, Refused> {
        if self.next().is_some_and(begins_word) {
            self.property().map(Operand::Property)
        } else {
            self.constant().map(Operand::Constant)
        }
    }

    fn property(&mut self) -> Result<&'a [u8], Refused> {
        if !self.next().is_some_and(begins_word) {
            return Err(self.wrong());
        }
        let word = self.word();
        self.unreserved(word)
    }

    /// A reserved word might have gone on as a name, so the byte behind it is wrong.
    fn unreserved(&self, word: &'a [u8]) -> Result<&'a [u8], Refused> {
        if RESERVED.iter().any(|reserved| reserved.as_bytes().eq_ignore_ascii_case(word)) {
            return Err(self.wrong());
        }
        Ok(word)
    }

    fn constant(&mut self) -> Result<Value<'a>, Refused> {
        match self.next() {
            Some(b'\'') => self.string().map(Value::String),
            _ => self.number().map(Value::Number),
        }
    }
}

/// The only part, or all of them joined.
fn one_or<'a>(joined: fn(Vec<Condition<'a>>) -> Condition<'a>, mut parts: Vec<Condition<'a>>) -> Condition<'a> {
    if parts.len() == 1 {
        parts.remove(0)
    } else {
        joined(parts)
    }
}
