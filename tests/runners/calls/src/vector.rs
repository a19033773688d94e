//! A vector: what is handed to a call, and what was worked out by hand that it does.

use crate::lent::{due, lend, Fill, Outcome};
use second::{CalendarAnswer, DerivedAnswer, PackagingAnswer, Placed, PriceAnswer, TextAnswer, Written};
use std::fmt::Debug;

/// What every answer has: its number, and zeros beside a refusal, but for the place that some answers tell.
pub trait Answer: Copy + PartialEq + Debug {
    fn refused(number: u8) -> Self;
    fn number(&self) -> u8;
    fn at(self, place: u64) -> Self {
        assert_eq!(place, 0, "this answer has no place");
        self
    }
}

macro_rules! answers {
    ($($answer:ty $({ $at:item })?),*) => {
        $(impl Answer for $answer {
            fn refused(number: u8) -> Self {
                Self { number, ..Self::default() }
            }

            fn number(&self) -> u8 {
                self.number
            }

            $($at)?
        })*
    };
}

macro_rules! placed_answers {
    ($($answer:ty)*) => {
        $(answers!($answer {
            fn at(self, place: u64) -> Self {
                Self { place, ..self }
            }
        });)*
    };
}

answers!(PriceAnswer, CalendarAnswer, Written, PackagingAnswer, TextAnswer);
placed_answers!(Placed DerivedAnswer);

/// A call as all calls can be called: byte strings to read, a number where the call takes one, lent memory where it writes.
pub type Run<A, T> = fn(&[&[u8]], u32, &mut [T]) -> A;

#[derive(Clone)]
pub struct Vector<A, T> {
    pub shows: String,
    /// What is lent for reading, in the order of the call's arguments; what stands behind these no call looks at.
    pub strings: Vec<Vec<u8>>,
    pub extra: u32,
    pub room: usize,
    pub answer: A,
    pub written: Vec<T>,
}

impl<A: Answer, T: Copy + PartialEq + Debug> Vector<A, T> {
    /// A refusal, with some lent memory that must stay as it was.
    pub fn refused(shows: &str, first: &[u8], second: &[u8], number: u8) -> Self {
        Vector::refused_all(shows, &[first, second], number)
    }

    /// The same of a call that is lent any number of strings.
    pub fn refused_all(shows: &str, strings: &[&[u8]], number: u8) -> Self {
        let strings = strings.iter().map(|lent| lent.to_vec()).collect();
        Vector { shows: shows.to_string(), strings, extra: 0, room: 60, answer: A::refused(number), written: Vec::new() }
    }

    pub fn room(mut self, room: usize) -> Self {
        self.room = room;
        self
    }

    /// With a place beside the refusal.
    pub fn at(mut self, place: u64) -> Self {
        self.answer = self.answer.at(place);
        self
    }

    pub fn extra(mut self, extra: u32) -> Self {
        self.extra = extra;
        self
    }

    /// All that is to be seen afterwards.
    pub fn due(&self, fill: Fill<T>) -> Outcome<A, T> {
        due(fill, self.room, self.answer, &self.written)
    }

    /// All that is to be seen after an implementation ran.
    pub fn run(&self, fill: Fill<T>, call: Run<A, T>) -> Outcome<A, T> {
        let strings: Vec<&[u8]> = self.strings.iter().map(Vec::as_slice).collect();
        lend(fill, self.room, |out| call(&strings, self.extra, out))
    }
}
