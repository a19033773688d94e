//! The price with the names that a relation derives, beside the price with the same names granted.

use crate::books;
use crate::catalog::{self, Manner};
use crate::dice::Dice;
use crate::library;
use crate::relation_texts::{self, Relation};
use crate::timing::{self, Pass, Row, Subject};
use second::price::LINE_LENGTH;
use second::relation_cases::{RelationCase, RelationInputs};
use second::relation_compare::RelationCall;
use second::DerivedAnswer;

const ROWS: usize = 40_000;
/// As many as the maker's relation derives.
const NAMES: usize = 5;
/// The second implementation goes once.
const ROUNDS: usize = 200;
const MOST_LINES: usize = 99 * LINE_LENGTH;
const THROWN: u64 = 5_000;
const SEED: u64 = 20_240_630;

pub fn measure(dice: &mut Dice) -> Vec<Row> {
    agree();
    let catalog = catalog::catalog(dice, ROWS, &Manner::price_lists());
    let [without, granting] = [0, NAMES].map(|names| catalog::question(catalog.near_end(), names).bytes());
    let Relation { text, properties, .. } = relation_texts::makers();
    let inputs = RelationInputs { book: catalog.bytes, question: without, properties, relation: text };
    let lines = same_as_granted(&inputs, &granting);
    let RelationInputs { book, question, properties, relation } = &inputs;
    let subjects = [
        Subject::new(1, timing::byte_sum),
        Subject::new(1, |book| library::book_ok(book).into()),
        Subject::new(1, |book| library::price(book, &granting, &mut [0; MOST_LINES]).lines),
        Subject::new(1, |book| library::price_derived(book, question, properties, relation, &mut [0; MOST_LINES]).lines),
        Subject::new(ROUNDS, |book| second::price_derived(book, question, properties, relation, &mut [0; MOST_LINES]).lines),
    ];
    let times = timing::best_times(&subjects, book, ROUNDS);
    let by_second = timing::ratio(times[3], times[4]);
    vec![Row {
        call: "price_derived",
        input: "names granted, or derived by a maker's ten assignments".to_string(),
        size: format!("price rows {ROWS}, names {NAMES}, lines {lines}"),
        times: [times[1], times[2], times[3]],
        pass: Some(Pass { records: books::count(book), time: times[0] }),
        beside: format!("second {:.2} ms, c is {by_second} of it", times[4].as_secs_f64() * 1e3),
    }]
}

/// Both give the same answer and leave the same bytes, for thrown relations.
fn agree() {
    let mut priced = 0;
    for index in 0..THROWN {
        let case = RelationCase::generate_small(SEED, index);
        let inputs = case.inputs();
        let (answer, _) = same(&inputs, RelationCall::PriceDerived.size(&case, &inputs));
        priced += usize::from(answer.number == 0);
    }
    println!("{THROWN} questions with relations: no difference, {priced} have a price");
}

fn same(inputs: &RelationInputs, room: usize) -> (DerivedAnswer, Vec<u8>) {
    let RelationInputs { book, question, properties, relation } = inputs;
    let (mut by_library, mut by_second) = (vec![0xEE; room], vec![0xEE; room]);
    let answer = library::price_derived(book, question, properties, relation, &mut by_library);
    let due = second::price_derived(book, question, properties, relation, &mut by_second);
    assert_eq!(answer, due, "the answers differ");
    assert!(by_library == by_second, "the lines differ");
    (answer, by_library)
}

/// How many lines there are: the same as with the names granted.
fn same_as_granted(inputs: &RelationInputs, granting: &[u8]) -> u64 {
    let (answer, lines) = same(inputs, MOST_LINES);
    let mut with_granted = [0xEE; MOST_LINES];
    let due = library::price(&inputs.book, granting, &mut with_granted);
    assert_eq!(answer, due.into(), "names that are derived have another answer");
    assert_eq!(lines, with_granted, "names that are derived have other lines");
    assert_eq!(answer.number, 0, "a question that is timed has no price");
    answer.lines
}
