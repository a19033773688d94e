//! What is true of the properties at hand, and which names are derived.

use std::cmp::Ordering;

use super::tree::{Assignment, Comparison, Condition, Operand, Relation, Value};
use super::{Properties, Refused, Truth};
use crate::letters::raised;
use crate::reader::is_name_byte;
use crate::refusal::BAD_DERIVED_NAME;

/// As many as a question may grant.
const MOST_NAMES: usize = 32;

const LONGEST_NAME: usize = 20;

impl Relation {
    /// The names of all assignments that grant theirs, in order and with repeats, or the first of these assignments whose name
    /// cannot go where granted names go.
    pub fn names(&self, properties: &Properties) -> Result<Vec<Vec<u8>>, Refused> {
        let mut names = Vec::new();
        for assignment in self.assignments.iter().filter(|assignment| assignment.grants(properties)) {
            if names.len() == MOST_NAMES || !is_name(&assignment.name) {
                return Err(Refused { number: BAD_DERIVED_NAME, place: assignment.place });
            }
            names.push(assignment.name.clone());
        }
        Ok(names)
    }
}

fn is_name(name: &[u8]) -> bool {
    (1..=LONGEST_NAME).contains(&name.len()) && name.iter().all(|&byte| is_name_byte(byte))
}

impl Assignment {
    /// What is undefined grants nothing.
    fn grants(&self, properties: &Properties) -> bool {
        match &self.condition {
            Some(condition) => condition.truth(properties) == Truth::True,
            None => true,
        }
    }
}

impl Condition {
    pub fn truth(&self, properties: &Properties) -> Truth {
        match self {
            Condition::Any(parts) => any(parts.iter().map(|part| part.truth(properties))),
            Condition::All(parts) => parts.iter().map(|part| part.truth(properties)).fold(Truth::True, Truth::and),
            Condition::Not(condition) => condition.truth(properties).turned(),
            Condition::Specified(name) => properties.value(name).is_some().into(),
            Condition::OneOf(operand, constants) => {
                let equal_to = |constant: &Value| {
                    let constant = Operand::Constant(constant.clone());
                    compared(operand, Comparison::Equal, &constant, properties)
                };
                any(constants.iter().map(equal_to))
            }
            Condition::Compared(left, comparison, right) => compared(left, *comparison, right, properties),
        }
    }
}

fn any(parts: impl Iterator<Item = Truth>) -> Truth {
    parts.fold(Truth::False, Truth::or)
}

/// Undefined if a side has no value, or if one is a string and the other a number.
fn compared(left: &Operand, comparison: Comparison, right: &Operand, properties: &Properties) -> Truth {
    let (Some(one), Some(other)) = (left.value(properties), right.value(properties)) else {
        return Truth::Undefined;
    };
    let case_counts = !left.is_property() && !right.is_property();
    match order(one, other, case_counts) {
        Some(order) => comparison.holds(order).into(),
        None => Truth::Undefined,
    }
}

/// Numbers by size, strings byte by byte, the shorter of two that begin alike being the lesser. The case of a property's value does
/// not count; two constants are taken as they stand.
fn order(one: &Value, other: &Value, case_counts: bool) -> Option<Ordering> {
    match (one, other) {
        (Value::Number(one), Value::Number(other)) => Some(one.cmp(other)),
        (Value::Text(one), Value::Text(other)) if case_counts => Some(one.cmp(other)),
        (Value::Text(one), Value::Text(other)) => Some(raised(one).cmp(&raised(other))),
        _ => None,
    }
}

impl Operand {
    fn is_property(&self) -> bool {
        matches!(self, Operand::Property(_))
    }

    fn value<'a>(&'a self, properties: &'a Properties) -> Option<&'a Value> {
        match self {
            Operand::Property(name) => properties.value(name),
            Operand::Constant(constant) => Some(constant),
        }
    }
}

impl Comparison {
    fn holds(self, order: Ordering) -> bool {
        match self {
            Comparison::Less => order.is_lt(),
            Comparison::LessOrEqual => order.is_le(),
            Comparison::Equal => order.is_eq(),
            Comparison::Unequal => order.is_ne(),
            Comparison::GreaterOrEqual => order.is_ge(),
            Comparison::Greater => order.is_gt(),
        }
    }
}
