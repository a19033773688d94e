//! Vectors drawn from random cases: of each call so many for every number that it can give.

use second::calls::Second;
use second::cases::{Case, Inputs};
use second::compare::{run, Call, Plan, Sizes};
use second::file_cases::FileCase;
use second::file_compare::{run_file, FileCall, FILE_CALLS};
use second::relation_cases::RelationCase;
use second::relation_compare::{run_relation, RelationCall, RELATION_CALLS};

use crate::vector::{Asked, Vector, CALLS, MOST_ROOM};

/// Any will do, as long as it stays the same.
const SEED: u64 = 2024;

/// How many vectors are wanted, and the most bytes of their inputs: longer ones would fill the file with a few vectors.
#[derive(Clone, Copy)]
struct Wanted {
    count: usize,
    longest: usize,
}

/// Of those that are done, and of each refusal.
type Share = [Wanted; 2];

const SHARE: Share = [Wanted { count: 30, longest: 800 }, Wanted { count: 8, longest: 400 }];

/// Relations have a book and a question beside them too.
const SHARE_OF_RELATIONS: Share = [Wanted { count: 14, longest: 450 }, Wanted { count: 3, longest: 400 }];

pub fn vectors() -> Vec<Vector> {
    let of_calls = CALLS.into_iter().flat_map(|call| drawn(SHARE, call.possible(), |index| of_case(call, index)));
    let of_files = FILE_CALLS.into_iter().flat_map(|call| drawn(SHARE, call.possible(), |index| of_file_case(call, index)));
    of_calls.chain(of_files).collect()
}

pub fn of_relations() -> Vec<Vector> {
    let of_call = |call: RelationCall| drawn(SHARE_OF_RELATIONS, call.possible(), |index| of_relation_case(call, index));
    RELATION_CALLS.into_iter().flat_map(of_call).collect()
}

/// Of the cases one after the other, those that are wanted: `draw` gives the number that comes of a case, and its vector.
fn drawn(share: Share, possible: &[u8], draw: impl Fn(u64) -> (u8, Vector)) -> Vec<Vector> {
    let wanted = |number: u8| share[usize::from(number != 0)];
    let mut missing = [0; 17];
    for number in possible {
        missing[usize::from(*number)] = wanted(*number).count;
    }
    let mut vectors = Vec::new();
    let mut index = 0;
    while missing.iter().any(|count| *count > 0) {
        let (number, vector) = draw(index);
        index += 1;
        let missing = &mut missing[usize::from(number)];
        if *missing > 0 && vector.length() <= wanted(number).longest && vector.room <= MOST_ROOM {
            *missing -= 1;
            vectors.push(vector);
        }
    }
    vectors
}

fn of_case(call: Call, index: u64) -> (u8, Vector) {
    let case = Case::generate_small(SEED, index);
    let inputs = case.inputs();
    let sizes = Plan::of(&case, &inputs).sizes;
    (run(call, &Second, &inputs, sizes).answer.number(), vector(call, inputs, sizes))
}

fn of_file_case(call: FileCall, index: u64) -> (u8, Vector) {
    let case = FileCase::generate_small(SEED, index);
    let inputs = case.inputs();
    let room = call.size(&case, &inputs);
    let first = call.input(&inputs).to_vec();
    let number = run_file(call, &Second, &inputs, room).answer.number();
    (number, Vector { room, ..Vector::new(Asked::File(call), first, Vec::new()) })
}

fn of_relation_case(call: RelationCall, index: u64) -> (u8, Vector) {
    let case = RelationCase::generate_small(SEED, index);
    let inputs = case.inputs();
    let room = call.size(&case, &inputs);
    let number = run_relation(call, &Second, &inputs, room).answer.number();
    let book = if call == RelationCall::PriceDerived { inputs.book } else { Vec::new() };
    let two_parts = Vector::new(Asked::Relation(call), book, inputs.question);
    (number, Vector { room, properties: inputs.properties, relation: inputs.relation, ..two_parts })
}

fn vector(call: Call, inputs: Inputs, sizes: Sizes) -> Vector {
    let (number, room) = match call {
        Call::Price => (0, sizes.price),
        Call::Calendar => (inputs.end, sizes.calendar),
        Call::CalendarList => unreachable!("the program lends no list"),
        Call::FinalNumber => (0, sizes.number),
        Call::Packaging => (0, 0),
        Call::Text => (inputs.text_number, 0),
        Call::Basket => (0, sizes.basket),
    };
    let (first, second) = match call {
        Call::Text => (inputs.asked, inputs.fallback),
        Call::Basket => (inputs.book, inputs.basket),
        _ => (inputs.book, inputs.question),
    };
    Vector { number, room, ..Vector::new(Asked::Call(call), first, second) }
}
