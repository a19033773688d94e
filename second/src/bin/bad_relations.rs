//! Bad relations: number, place and what is written, of another implementation held against this one. Built with the feature
//! `archive` the other one is the linked archive, otherwise this library itself.

use std::process::ExitCode;

use second::bad_relations::{bad_relations, beside};
use second::calls::THEIRS;
use second::relation_compare::{compare_inputs, RELATION_CALLS};

/// Enough for what any of the texts derives.
const ROOM: usize = 400;

const MOST_SHOWN: usize = 50;

/// How many texts got each number.
type Tally = [usize; 17];

fn told(tally: &Tally) -> String {
    let numbers = tally.iter().enumerate().filter(|(_, count)| **count > 0);
    numbers.map(|(number, count)| format!("{number}: {count}")).collect::<Vec<_>>().join(", ")
}

fn main() -> ExitCode {
    let mut inputs = beside();
    let mut tallies = [[0; 17]; RELATION_CALLS.len()];
    let mut differences = 0;
    for relation in bad_relations() {
        inputs.relation = relation;
        for (call, tally) in RELATION_CALLS.into_iter().zip(&mut tallies) {
            let (ours, difference) = compare_inputs(call, &THEIRS, &inputs, ROOM);
            tally[usize::from(ours.answer.number())] += 1;
            let Some(difference) = difference else { continue };
            differences += 1;
            if differences <= MOST_SHOWN {
                println!("DIFFERENT, {}: {}", difference.call, inputs.relation.escape_ascii());
                println!("    ours {}\n    theirs {}", difference.ours, difference.theirs);
            }
        }
    }
    for (call, tally) in RELATION_CALLS.into_iter().zip(&tallies) {
        println!("relations, {}: {}", call.name(), told(tally));
    }
    println!("relations: {differences} differences");
    let seen = [0, 14, 15, 16].iter().all(|number| tallies.iter().all(|tally| tally[*number] > 0));
    if differences == 0 && seen {
        ExitCode::SUCCESS
    } else {
        ExitCode::FAILURE
    }
}
