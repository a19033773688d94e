//! How often each number came up in a comparison.

use crate::compare::{Call, ALL_CALLS, PROGRAM_NUMBERS, QUESTION_NUMBERS, STRETCH_NUMBERS};
use crate::file_compare::{FileCall, FILE_CALLS};
use crate::relation_compare::{RelationCall, RELATION_CALLS};

/// Refusal numbers, and 0 for done.
const NUMBERS: usize = 17;

// Places of the rows behind those of the calls.
const FILES: usize = ALL_CALLS.len();
const RELATIONS: usize = FILES + FILE_CALLS.len();
const PROGRAM: usize = RELATIONS + RELATION_CALLS.len();
const STRETCHES: usize = PROGRAM + 1;
const QUESTIONS: usize = STRETCHES + 1;

struct Row {
    name: &'static str,
    possible: &'static [u8],
    counts: [u64; NUMBERS],
}

/// A row for each call, those of the price file and of relations behind the others, for the program, for the stretches and for the
/// questions of baskets, in this order.
pub struct Counts {
    rows: Vec<Row>,
}

impl Default for Counts {
    fn default() -> Self {
        let row = |name, possible| Row { name, possible, counts: [0; NUMBERS] };
        let mut rows = Vec::new();
        for call in ALL_CALLS {
            rows.push(row(call.name(), call.possible()));
        }
        for call in FILE_CALLS {
            rows.push(row(call.name(), call.possible()));
        }
        for call in RELATION_CALLS {
            rows.push(row(call.name(), call.possible()));
        }
        rows.push(row("program", &PROGRAM_NUMBERS));
        rows.push(row("stretches", &STRETCH_NUMBERS));
        rows.push(row("questions", &QUESTION_NUMBERS));
        Counts { rows }
    }
}

impl Counts {
    pub fn call(&mut self, call: Call, number: u8) {
        self.rows[call as usize].counts[usize::from(number)] += 1;
    }

    pub fn file_call(&mut self, call: FileCall, number: u8) {
        self.rows[FILES + call as usize].counts[usize::from(number)] += 1;
    }

    pub fn relation_call(&mut self, call: RelationCall, number: u8) {
        self.rows[RELATIONS + call as usize].counts[usize::from(number)] += 1;
    }

    pub fn program(&mut self, number: u8) {
        self.rows[PROGRAM].counts[usize::from(number)] += 1;
    }

    pub fn stretch(&mut self, number: u8) {
        self.rows[STRETCHES].counts[usize::from(number)] += 1;
    }

    pub fn question(&mut self, number: u8) {
        self.rows[QUESTIONS].counts[usize::from(number)] += 1;
    }

    pub fn add(&mut self, other: &Counts) {
        for (row, more) in self.rows.iter_mut().zip(&other.rows) {
            for (count, more) in row.counts.iter_mut().zip(more.counts) {
                *count += more;
            }
        }
    }

    /// The table as lines, with `-` for a number that cannot come up.
    pub fn table(&self) -> Vec<String> {
        let heads: String = (0..NUMBERS).map(|number| format!("{number:>9}")).collect();
        let mut lines = vec![format!("{:<14}{heads}", "")];
        for row in &self.rows {
            let cells: String = (0u8..)
                .zip(row.counts)
                .map(|(number, count)| match count {
                    0 if !row.possible.contains(&number) => format!("{:>9}", "-"),
                    _ => format!("{count:>9}"),
                })
                .collect();
            lines.push(format!("{:<14}{cells}", row.name));
        }
        lines
    }

    /// Numbers that can come up and did not, and those that cannot and did.
    pub fn complaints(&self) -> Vec<String> {
        let mut complaints = Vec::new();
        for row in &self.rows {
            for (number, count) in (0u8..).zip(row.counts) {
                let name = row.name;
                match (row.possible.contains(&number), count) {
                    (true, 0) => complaints.push(format!("{name}: number {number} has not come up")),
                    (false, 1..) => complaints.push(format!("{name}: number {number} should never come up")),
                    _ => {}
                }
            }
        }
        complaints
    }
}
