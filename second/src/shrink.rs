//! Makes a case smaller as long as something stays true of it.

use std::time::{Duration, Instant};

use crate::cases::Case;
use crate::file_cases::FileCase;
use crate::make::Question;
use crate::question::FACTOR_OF_ONE;
use crate::relation_cases::RelationCase;

/// Very big cases take long to try; what is reached after this time is small enough.
const LONGEST: Duration = Duration::from_secs(10);

/// Leaves out records, names, properties, texts, questions of the basket, damages and factors while `still` holds.
pub fn shrunk(case: &Case, still: &dyn Fn(&Case) -> bool) -> Case {
    let started = Instant::now();
    let late = || started.elapsed() >= LONGEST;
    let mut best = case.clone();
    loop {
        let mut smaller = false;
        smaller |= drop_parts(&mut best, |case| &mut case.damages, still, &late);
        smaller |= drop_parts(&mut best, |case| &mut case.book, still, &late);
        smaller |= drop_parts(&mut best, |case| &mut case.question.granted, still, &late);
        smaller |= drop_parts(&mut best, |case| &mut case.question.properties, still, &late);
        smaller |= drop_parts(&mut best, |case| &mut case.asked, still, &late);
        smaller |= drop_parts(&mut best, |case| &mut case.fallback, still, &late);
        smaller |= drop_parts(&mut best, |case| &mut case.basket, still, &late);
        for place in 0..best.basket.len() {
            smaller |= drop_parts(&mut best, |case| &mut case.basket[place].granted, still, &late);
            smaller |= drop_parts(&mut best, |case| &mut case.basket[place].properties, still, &late);
            smaller |= drop_factors(&mut best, |case| &mut case.basket[place], still);
        }
        smaller |= drop_factors(&mut best, |case| &mut case.question, still);
        if best.end != best.question.date {
            smaller |= change(&mut best, |case| case.end = case.question.date, still);
        }
        if !smaller || late() {
            return best;
        }
    }
}

/// Leaves out lines of the file, records of the book and damages of both while `still` holds.
pub fn shrunk_file(case: &FileCase, still: &dyn Fn(&FileCase) -> bool) -> FileCase {
    let started = Instant::now();
    let late = || started.elapsed() >= LONGEST;
    let mut best = case.clone();
    loop {
        let mut smaller = false;
        smaller |= drop_parts(&mut best, |case| &mut case.file_damages, still, &late);
        smaller |= drop_parts(&mut best, |case| &mut case.book_damages, still, &late);
        smaller |= drop_parts(&mut best, |case| &mut case.lines, still, &late);
        smaller |= drop_parts(&mut best, |case| &mut case.book, still, &late);
        if !smaller || late() {
            return best;
        }
    }
}

/// Leaves out bytes of the relation, records of the book, properties of both lists, names and damages while `still` holds.
pub fn shrunk_relation(case: &RelationCase, still: &dyn Fn(&RelationCase) -> bool) -> RelationCase {
    let started = Instant::now();
    let late = || started.elapsed() >= LONGEST;
    let mut best = case.clone();
    loop {
        let mut smaller = false;
        smaller |= drop_parts(&mut best, |case| &mut case.damages, still, &late);
        smaller |= drop_parts(&mut best, |case| &mut case.relation, still, &late);
        smaller |= drop_runs(&mut best, |case| &mut case.relation, still, &late);
        smaller |= drop_parts(&mut best, |case| &mut case.properties, still, &late);
        smaller |= drop_parts(&mut best, |case| &mut case.book, still, &late);
        smaller |= drop_parts(&mut best, |case| &mut case.question.granted, still, &late);
        smaller |= drop_parts(&mut best, |case| &mut case.question.properties, still, &late);
        if !smaller || late() {
            return best;
        }
    }
}

/// Tries to do without the factors of a question: all at once, in version 1, else one by one.
fn drop_factors(best: &mut Case, question: impl Fn(&mut Case) -> &mut Question, still: &dyn Fn(&Case) -> bool) -> bool {
    if question(best).version == 1 {
        return false;
    }
    let plainer = |case: &mut Case| {
        let question = question(case);
        question.version = 1;
        question.granted.iter_mut().for_each(|granted| granted.factor = FACTOR_OF_ONE);
    };
    if change(best, plainer, still) {
        return true;
    }
    let mut smaller = false;
    for place in 0..question(best).granted.len() {
        if question(best).granted[place].factor != FACTOR_OF_ONE {
            smaller |= change(best, |case| question(case).granted[place].factor = FACTOR_OF_ONE, still);
        }
    }
    smaller
}

/// Tries one change, and keeps it if `still` holds.
fn change(best: &mut Case, change: impl Fn(&mut Case), still: &dyn Fn(&Case) -> bool) -> bool {
    let mut candidate = best.clone();
    change(&mut candidate);
    let kept = still(&candidate);
    if kept {
        *best = candidate;
    }
    kept
}

/// Tries to leave out pieces of one list, great pieces first.
fn drop_parts<C: Clone, T>(
    best: &mut C,
    list: impl Fn(&mut C) -> &mut Vec<T>,
    still: &dyn Fn(&C) -> bool,
    late: &dyn Fn() -> bool,
) -> bool {
    let before = list(best).len();
    let mut piece = before;
    while piece > 0 {
        let mut start = 0;
        while start < list(best).len() && !late() {
            let mut candidate = best.clone();
            let parts = list(&mut candidate);
            let end = (start + piece).min(parts.len());
            parts.drain(start..end);
            if still(&candidate) {
                *best = candidate;
            } else {
                start += piece;
            }
        }
        piece /= 2;
    }
    list(best).len() < before
}

/// Tries to leave out runs of a list, long ones first, wherever they start: what is left of a text has to be one again.
fn drop_runs<C: Clone, T>(
    best: &mut C,
    list: impl Fn(&mut C) -> &mut Vec<T>,
    still: &dyn Fn(&C) -> bool,
    late: &dyn Fn() -> bool,
) -> bool {
    const LONGEST_RUN: usize = 24;
    let before = list(best).len();
    for run in (2..=LONGEST_RUN).rev() {
        let mut start = 0;
        while start + run <= list(best).len() && !late() {
            let mut candidate = best.clone();
            list(&mut candidate).drain(start..start + run);
            if still(&candidate) {
                *best = candidate;
            } else {
                start += 1;
            }
        }
    }
    list(best).len() < before
}
