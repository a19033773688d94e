//! Lent memory with a fence on either side, all of it filled, so that a byte written where none may be written shows.

/// So many filled places stand before and behind the lent ones.
const FENCE: usize = 40;

/// A call's answer, and the memory with its fences afterwards.
#[derive(Debug, PartialEq)]
pub struct Outcome<A, T> {
    pub answer: A,
    memory: Vec<T>,
}

/// How memory is filled: so many places, no two neighbours alike.
pub type Fill<T> = fn(usize) -> Vec<T>;

/// Lends `room` places to a call.
pub fn lend<A, T>(fill: Fill<T>, room: usize, call: impl FnOnce(&mut [T]) -> A) -> Outcome<A, T> {
    let mut memory = fill(FENCE + room + FENCE);
    let answer = call(&mut memory[FENCE..FENCE + room]);
    Outcome { answer, memory }
}

/// What is due: the answer, what is written at the front of the lent places, and all else as it was filled.
pub fn due<A, T: Copy>(fill: Fill<T>, room: usize, answer: A, written: &[T]) -> Outcome<A, T> {
    let mut memory = fill(FENCE + room + FENCE);
    memory[FENCE..FENCE + written.len()].copy_from_slice(written);
    Outcome { answer, memory }
}
