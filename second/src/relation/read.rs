//! From the text of a relation to its tree:
//!
//! ```text
//! relation   = assignment { "," assignment }
//! assignment = "$VARCOND" "=" string [ "IF" any ]
//! any        = all { "OR" all }
//! all        = single { "AND" single }
//! single     = "NOT" single | "SPECIFIED" name | "(" any ")"
//!            | name "IN" "(" constant { "," constant } ")"
//!            | operand comparison operand
//! comparison = "<" | "<=" | "=" | "<>" | "=>" | ">=" | ">" | "LT" | "LE" | "EQ" | "NE" | "GE" | "GT"
//! operand    = name | constant
//! constant   = string | number
//! ```
//!
//! with blanks between any two of them, and words in any case. A word is the longest run of letters, digits and `_`.

use super::text::{begins_word, Text};
use super::tree::{Assignment, Comparison, Condition, Operand, Relation, Value};
use super::Refused;
use crate::refusal::TOO_DEEP;

/// So many parentheses of conditions may stand within one another.
const MOST_DEEP: usize = 16;

/// No property has such a name.
const RESERVED: [&str; 15] = [
    "AND",
    "BAN",
    "EQ",
    "GE",
    "GT",
    "IF",
    "IN",
    "LE",
    "LT",
    "NE",
    "NOT",
    "OR",
    "SET_PCKG_FACTOR",
    "SET_PRICING_FACTOR",
    "SPECIFIED",
];

/// What stands behind the first operand.
#[derive(Clone, Copy)]
enum Behind {
    Compared(Comparison),
    In,
}

/// IN, which comes last here, stands behind a property alone.
const BEHIND: [(&str, Behind); 7] = [
    ("LT", Behind::Compared(Comparison::Less)),
    ("LE", Behind::Compared(Comparison::LessOrEqual)),
    ("EQ", Behind::Compared(Comparison::Equal)),
    ("NE", Behind::Compared(Comparison::Unequal)),
    ("GE", Behind::Compared(Comparison::GreaterOrEqual)),
    ("GT", Behind::Compared(Comparison::Greater)),
    ("IN", Behind::In),
];

/// What joins two single conditions.
#[derive(Clone, Copy)]
enum Joint {
    And,
    Or,
}

const JOINTS: [(&str, Joint); 2] = [("AND", Joint::And), ("OR", Joint::Or)];

impl Relation {
    /// The relation of a whole text, or 14 or 15 with its place, whichever comes first.
    pub fn read(bytes: &[u8]) -> Result<Relation, Refused> {
        let mut text = Text::new(bytes);
        let mut assignments = vec![assignment(&mut text)?];
        while text.next().is_some() {
            text.needs(b',')?;
            assignments.push(assignment(&mut text)?);
        }
        Ok(Relation { assignments })
    }
}

/// An assignment with the blanks around it.
fn assignment(text: &mut Text) -> Result<Assignment, Refused> {
    text.skip_blanks();
    let place = text.place();
    text.needs(b'$')?;
    text.keyword(&[("VARCOND", ())])?;
    text.skip_blanks();
    text.needs(b'=')?;
    text.skip_blanks();
    let name = text.string()?;
    text.skip_blanks();
    let condition = match text.next() {
        None | Some(b',') => None,
        _ => {
            text.keyword(&[("IF", ())])?;
            Some(any(text, 0)?)
        }
    };
    Ok(Assignment { place, name, condition })
}

/// Conditions joined by OR, so deep within parentheses, with the blanks around them.
fn any(text: &mut Text, deep: usize) -> Result<Condition, Refused> {
    let mut parts = Vec::new();
    loop {
        let (part, joint) = all(text, deep)?;
        parts.push(part);
        if joint.is_none() {
            return Ok(Condition::Any(parts));
        }
    }
}

/// Conditions joined by AND, and the OR behind them if there is one.
fn all(text: &mut Text, deep: usize) -> Result<(Condition, Option<Joint>), Refused> {
    let mut parts = Vec::new();
    loop {
        parts.push(single(text, deep)?);
        match joint(text)? {
            Some(Joint::And) => {}
            or_none => return Ok((Condition::All(parts), or_none)),
        }
    }
}

/// Where a condition ends, no other word may stand.
fn joint(text: &mut Text) -> Result<Option<Joint>, Refused> {
    text.skip_blanks();
    match text.next() {
        Some(byte) if begins_word(byte) => text.keyword(&JOINTS).map(Some),
        _ => Ok(None),
    }
}

/// One condition with the NOTs in front of it. These are counted, not called for one another: there may be any number of them.
fn single(text: &mut Text, deep: usize) -> Result<Condition, Refused> {
    let mut turned = false;
    loop {
        text.skip_blanks();
        let condition = match text.next() {
            Some(b'(') => in_parentheses(text, deep)?,
            Some(byte) if begins_word(byte) => match &text.word()[..] {
                b"NOT" => {
                    turned = !turned;
                    continue;
                }
                b"SPECIFIED" => Condition::Specified(property(text)?),
                word => {
                    let name = not_reserved(text, word)?;
                    compared(text, Operand::Property(name))?
                }
            },
            _ => {
                let constant = constant(text)?;
                compared(text, Operand::Constant(constant))?
            }
        };
        return Ok(if turned { Condition::Not(Box::new(condition)) } else { condition });
    }
}

fn in_parentheses(text: &mut Text, deep: usize) -> Result<Condition, Refused> {
    if deep == MOST_DEEP {
        return Err(Refused { number: TOO_DEEP, place: text.place() });
    }
    text.needs(b'(')?;
    let condition = any(text, deep + 1)?;
    text.needs(b')')?;
    Ok(condition)
}

/// What goes on behind a first operand.
fn compared(text: &mut Text, first: Operand) -> Result<Condition, Refused> {
    match behind(text, &first)? {
        Behind::In => Ok(Condition::OneOf(first, listed(text)?)),
        Behind::Compared(comparison) => Ok(Condition::Compared(first, comparison, operand(text)?)),
    }
}

fn behind(text: &mut Text, first: &Operand) -> Result<Behind, Refused> {
    text.skip_blanks();
    if let Some(comparison) = text.sign() {
        return Ok(Behind::Compared(comparison));
    }
    match first {
        Operand::Property(_) => text.keyword(&BEHIND),
        Operand::Constant(_) => text.keyword(&BEHIND[..6]),
    }
}

/// The constants of an IN with their parentheses, which do not count as deep.
fn listed(text: &mut Text) -> Result<Vec<Value>, Refused> {
    text.skip_blanks();
    text.needs(b'(')?;
    let mut constants = Vec::new();
    loop {
        text.skip_blanks();
        constants.push(constant(text)?);
        text.skip_blanks();
        if text.takes(b')') {
            return Ok(constants);
        }
        text.needs(b',')?;
    }
}

fn operand(text: &mut Text) -> Result<Operand, Refused> {
    text.skip_blanks();
    match text.next() {
        Some(byte) if begins_word(byte) => Ok(Operand::Property(property(text)?)),
        _ => Ok(Operand::Constant(constant(text)?)),
    }
}

/// The name of a property, where no word of the language may stand.
fn property(text: &mut Text) -> Result<Vec<u8>, Refused> {
    text.skip_blanks();
    if !text.next().is_some_and(begins_word) {
        return Err(text.wrong());
    }
    let word = text.word();
    not_reserved(text, &word)
}

/// A reserved word might have gone on as a name, so what is wrong is the byte behind it.
fn not_reserved(text: &Text, word: &[u8]) -> Result<Vec<u8>, Refused> {
    if RESERVED.iter().any(|reserved| reserved.as_bytes() == word) {
        return Err(text.wrong());
    }
    Ok(word.to_vec())
}

fn constant(text: &mut Text) -> Result<Value, Refused> {
    match text.next() {
        Some(b'\'') => text.string().map(Value::Text),
        _ => text.number().map(Value::Number),
    }
}
