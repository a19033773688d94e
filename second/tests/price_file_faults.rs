//! Faults of price files and of books whose place is known beforehand are found there, and what only looks like one is taken.

use second::calls::Second;
use second::file_compare::{compare_file, FileCall};
use second::file_faults::{faults, Fault};
use second::price_file::{file_of, records, Refused};

fn outcome(fault: &Fault) -> Result<Vec<u8>, Refused> {
    let inputs = fault.case.inputs();
    match fault.call {
        FileCall::Read => records(&inputs.file),
        FileCall::Write => file_of(&inputs.book),
    }
}

#[test]
fn every_fault_is_where_it_is_due() {
    let (mut good, mut bad, mut unknown) = (0, 0, 0);
    for fault in faults() {
        match &fault.due {
            Some(Ok(_)) => good += 1,
            Some(Err(_)) => bad += 1,
            None => unknown += 1,
        }
        if let Some(due) = &fault.due {
            assert!(outcome(&fault) == *due, "{}", fault.what);
        }
    }
    assert!(good > 400 && bad > 9_000 && unknown > 6_000, "{good} good, {bad} bad, {unknown} unknown");
}

#[test]
fn the_comparison_takes_them() {
    // Some only, for time's sake.
    for fault in faults().step_by(29) {
        assert!(compare_file(fault.call, &Second, &fault.case).1.is_none(), "{}", fault.what);
    }
}
