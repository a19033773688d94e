//! Runs one of the two calls that derive names on a case and holds another implementation against this one.

use crate::calls::{RelationCalls, Second};
use crate::compare::{difference, pattern, Answer, Difference, Outcome, GUARD};
use crate::price::LINE_LENGTH;
use crate::relation::with_names;
use crate::relation_cases::{RelationCase, RelationInputs};

#[derive(Debug, Clone, Copy, PartialEq, Eq)]
pub enum RelationCall {
    PriceDerived,
    Derive,
}

pub const RELATION_CALLS: [RelationCall; 2] = [RelationCall::PriceDerived, RelationCall::Derive];

/// More than any listing takes.
const ROOM_FOR_ALL: usize = 2_000;

/// A call that refuses for another reason than room still gets some, to be seen untouched.
const ROOM_OF_THE_REFUSED: usize = 50;

impl RelationCall {
    pub fn name(self) -> &'static str {
        match self {
            RelationCall::PriceDerived => "price_derived",
            RelationCall::Derive => "derive",
        }
    }

    /// The numbers that the call can give.
    pub fn possible(self) -> &'static [u8] {
        match self {
            RelationCall::PriceDerived => &[0, 1, 2, 3, 4, 5, 6, 7, 14, 15, 16],
            RelationCall::Derive => &[0, 2, 7, 14, 15, 16],
        }
    }

    /// How much is lent to the call in this case.
    pub fn size(self, case: &RelationCase, inputs: &RelationInputs) -> usize {
        match self {
            RelationCall::PriceDerived => case.price_room.size(lines_length(inputs)),
            RelationCall::Derive => case.derive_room.size(question_length(inputs)),
        }
    }
}

fn lines_length(inputs: &RelationInputs) -> usize {
    let RelationInputs { book, question, properties, relation } = inputs;
    match Second.price_derived(book, question, properties, relation, &mut [0; ROOM_FOR_ALL]) {
        answer if answer.number == 0 => answer.lines as usize * LINE_LENGTH,
        _ => ROOM_OF_THE_REFUSED,
    }
}

fn question_length(inputs: &RelationInputs) -> usize {
    let RelationInputs { question, properties, relation, .. } = inputs;
    with_names(question, properties, relation).map_or(ROOM_OF_THE_REFUSED, |bytes| bytes.len())
}

/// Runs a call on filled memory.
pub fn run_relation(call: RelationCall, calls: &dyn RelationCalls, inputs: &RelationInputs, size: usize) -> Outcome {
    let RelationInputs { book, question, properties, relation } = inputs;
    let mut bytes = pattern(size + GUARD);
    let out = &mut bytes[..size];
    let answer = match call {
        RelationCall::PriceDerived => Answer::Derived(calls.price_derived(book, question, properties, relation, out)),
        RelationCall::Derive => Answer::Placed(calls.derive(question, properties, relation, out)),
    };
    Outcome { answer, bytes, list: Vec::new() }
}

/// Compares one call of a case; also returns our outcome.
pub fn compare_relation(call: RelationCall, theirs: &dyn RelationCalls, case: &RelationCase) -> (Outcome, Option<Difference>) {
    let inputs = case.inputs();
    compare_inputs(call, theirs, &inputs, call.size(case, &inputs))
}

/// The same of any inputs.
pub fn compare_inputs(
    call: RelationCall,
    theirs: &dyn RelationCalls,
    inputs: &RelationInputs,
    size: usize,
) -> (Outcome, Option<Difference>) {
    let ours = run_relation(call, &Second, inputs, size);
    let before = inputs.clone();
    let other = run_relation(call, theirs, inputs, size);
    let difference = difference(call.name(), &ours, &other, before != *inputs);
    (ours, difference)
}
