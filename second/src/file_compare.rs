//! Runs one of the two calls of the price file on a case and holds another implementation against this one.

use crate::calls::{FileCalls, Second};
use crate::compare::{difference, pattern, Answer, Difference, Outcome, GUARD};
use crate::file_cases::{FileCase, FileInputs};
use crate::price_file::{file_of, records, Refused};

#[derive(Debug, Clone, Copy, PartialEq, Eq)]
pub enum FileCall {
    Read,
    Write,
}

pub const FILE_CALLS: [FileCall; 2] = [FileCall::Read, FileCall::Write];

impl FileCall {
    pub fn name(self) -> &'static str {
        match self {
            FileCall::Read => "read_prices",
            FileCall::Write => "write_prices",
        }
    }

    /// The numbers that the call can give: whatever is no line is 13 for the reader, which has no layout to break.
    pub fn possible(self) -> &'static [u8] {
        match self {
            FileCall::Read => &[0, 7, 13],
            FileCall::Write => &[0, 1, 7, 13],
        }
    }

    /// How much is lent to the call in this case.
    pub fn size(self, case: &FileCase, inputs: &FileInputs) -> usize {
        match self {
            FileCall::Read => case.read_room.size(needed(records(&inputs.file), &inputs.file)),
            FileCall::Write => case.write_room.size(needed(file_of(&inputs.book), &inputs.book)),
        }
    }

    /// What the call gets.
    pub fn input(self, inputs: &FileInputs) -> &[u8] {
        match self {
            FileCall::Read => &inputs.file,
            FileCall::Write => &inputs.book,
        }
    }
}

/// A call that refuses for another reason than room still gets some, to be seen untouched: about as much as it would need if
/// nothing were wrong.
fn needed(written: Result<Vec<u8>, Refused>, input: &[u8]) -> usize {
    written.map_or(input.len(), |bytes| bytes.len())
}

/// Runs a call on filled memory.
pub fn run_file(call: FileCall, calls: &dyn FileCalls, inputs: &FileInputs, size: usize) -> Outcome {
    let mut bytes = pattern(size + GUARD);
    let (input, out) = (call.input(inputs), &mut bytes[..size]);
    let answer = match call {
        FileCall::Read => calls.read_prices(input, out),
        FileCall::Write => calls.write_prices(input, out),
    };
    Outcome { answer: Answer::Placed(answer), bytes, list: Vec::new() }
}

/// Compares one call of a case; also returns our outcome.
pub fn compare_file(call: FileCall, theirs: &dyn FileCalls, case: &FileCase) -> (Outcome, Option<Difference>) {
    let inputs = case.inputs();
    let size = call.size(case, &inputs);
    let ours = run_file(call, &Second, &inputs, size);
    let before = inputs.clone();
    let other = run_file(call, theirs, &inputs, size);
    let difference = difference(call.name(), &ours, &other, before != inputs);
    (ours, difference)
}
