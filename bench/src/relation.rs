//! Names that a relation derives: the library beside a byte sum of the text, beside plain Rust and beside the second implementation.

use crate::catalog;
use crate::dice::Dice;
use crate::library;
use crate::plain_relation::{self, Refused};
use crate::reference;
use crate::relation_texts::{self, Manner, Relation};
use crate::timing::{self, Pass, Row, Subject};
use second::relation_cases::{RelationCase, RelationInputs};
use second::relation_compare::RelationCall;
use second::Placed;
use std::cell::RefCell;
use std::hint::black_box;
use std::time::{Duration, Instant};

const BYTES: usize = 200_000;
/// A short text goes so many times in a row: once would be too short to time.
const IN_A_ROW: usize = 1_000;
/// The texts take turns too, so that they can be compared with each other: a lap of so many rounds on each.
const LAPS: usize = 5;
const ROUNDS: usize = 8;
const THROWN: u64 = 5_000;
const SEED: u64 = 20_240_630;

pub fn measure(dice: &mut Dice) -> Vec<Row> {
    agree();
    let mut long = |manner: Manner, bytes: usize| Case::new(relation_texts::long(dice, &manner, bytes), 1);
    let mut cases = [
        Case::new(relation_texts::makers(), IN_A_ROW),
        long(Manner::many_assignments(), BYTES),
        long(Manner::many_assignments(), 10 * BYTES),
        long(Manner::sixteen_deep(), BYTES),
        long(Manner::long_lists(), BYTES),
        long(Manner::many_properties(), BYTES),
    ];
    for _ in 0..LAPS {
        cases.iter_mut().for_each(Case::lap);
    }
    cases.iter().map(|case| case.row(&cases[1])).collect()
}

// Agreement.

/// All three write the same question by thrown relations, or refuse the same.
fn agree() {
    let mut good = 0;
    for index in 0..THROWN {
        let case = RelationCase::generate_small(SEED, index);
        let inputs = case.inputs();
        good += usize::from(same(&inputs, RelationCall::Derive.size(&case, &inputs)).number == 0);
    }
    println!("{THROWN} relations: no difference, {good} give a question");
}

fn same(inputs: &RelationInputs, room: usize) -> Placed {
    let RelationInputs { question, properties, relation, .. } = inputs;
    let (mut by_library, mut by_second) = (vec![0xEE; room], vec![0xEE; room]);
    let answer = library::derive(question, properties, relation, &mut by_library);
    assert_eq!(answer, second::derive(question, properties, relation, &mut by_second), "the answers differ");
    assert!(by_library == by_second, "the bytes differ");
    // Plain Rust has its own room.
    match plain_relation::derive(question, properties, relation) {
        Ok(bytes) if bytes.len() <= room => assert!(by_library.starts_with(&bytes), "plain Rust has other bytes"),
        Ok(_) => assert_eq!(answer.number, 7, "plain Rust writes what the library refuses"),
        Err(Refused { number, place }) => {
            assert_eq!(answer, Placed::refused_at(number, place as u64), "plain Rust refuses something else");
        }
    }
    answer
}

// Times.

/// A relation that is judged for a question. The times are of a byte sum of the text, of plain Rust and of the library.
struct Case {
    relation: Relation,
    in_a_row: usize,
    question: Vec<u8>,
    /// How many are derived.
    names: u8,
    /// Lent again and again, so that nobody waits for fresh memory.
    out: RefCell<Vec<u8>>,
    best: [Duration; 3],
    second: Duration,
}

impl Case {
    /// All three give the same bytes; the second implementation goes once.
    fn new(relation: Relation, in_a_row: usize) -> Case {
        let question = catalog::question("A1", 0).bytes();
        let (properties, text) = (&relation.properties, &relation.text);
        let due = plain_relation::derive(&question, properties, text).expect("what is timed is good");
        let (mut by_library, mut by_second) = (vec![0xEE; due.len()], vec![0xEE; due.len()]);
        library::derive(&question, properties, text, &mut by_library);
        let start = Instant::now();
        repeated(in_a_row, text, |text| second::derive(&question, properties, text, &mut by_second).length);
        let second = start.elapsed();
        assert!(due == by_library && due == by_second, "the bytes differ");
        let names = due[reference::place_of_no_names(&question).expect("a question that is timed is good")];
        Case { relation, in_a_row, question, names, out: RefCell::new(by_library), best: [Duration::MAX; 3], second }
    }

    fn lap(&mut self) {
        let plain =
            |text: &[u8]| plain_relation::derive(&self.question, &self.relation.properties, text).map_or(0, |made| made.len());
        let by_library = |text: &[u8]| {
            let out = &mut self.out.borrow_mut();
            library::derive(&self.question, &self.relation.properties, text, out).length
        };
        let subjects = [
            Subject::new(1, |text| repeated(self.in_a_row, text, timing::byte_sum)),
            Subject::new(1, |text| repeated(self.in_a_row, text, |text| plain(text) as u64)),
            Subject::new(1, |text| repeated(self.in_a_row, text, by_library)),
        ];
        for (best, time) in self.best.iter_mut().zip(timing::best_times(&subjects, &self.relation.text, ROUNDS)) {
            *best = time.min(*best);
        }
    }

    /// The library's nanoseconds for each byte of the text.
    fn a_byte(&self) -> f64 {
        self.best[2].as_secs_f64() * 1e9 / (self.relation.text.len() * self.in_a_row) as f64
    }

    /// `many` is the case of many assignments.
    fn row(&self, many: &Case) -> Row {
        let Relation { what, text, assignments, .. } = &self.relation;
        let (a_byte, bytes) = (self.a_byte(), text.len());
        let by_many = format!("{:.2} of many assignments in {BYTES} bytes", a_byte / many.a_byte());
        let by_second = timing::ratio(self.best[2], self.second);
        let in_a_row = if self.in_a_row == 1 { String::new() } else { format!(", {} times", self.in_a_row) };
        Row {
            call: "derive",
            input: what.to_string(),
            size: format!("assignments {assignments}, names {}, bytes {bytes}{in_a_row}", self.names),
            times: self.best,
            pass: Some(Pass { records: assignments * self.in_a_row, time: self.best[0] }),
            beside: format!(
                "a byte {a_byte:.2} ns, {by_many}; second {:.2} ms, c is {by_second} of it",
                self.second.as_secs_f64() * 1e3
            ),
        }
    }
}

fn repeated(times: usize, text: &[u8], mut run: impl FnMut(&[u8]) -> u64) -> u64 {
    (0..times).map(|_| run(black_box(text))).sum()
}
