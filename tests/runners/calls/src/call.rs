//! A call, and its test: its vectors, its rows and its example in the document.

use crate::document::{Cells, Document};
use crate::lent::Fill;
use crate::shorter::shorter;
use crate::vector::{Answer, Run, Vector};
use std::fmt::Debug;

/// The names under which the document has what is handed to a call; a call that takes no extra or no room has none.
pub struct Names {
    pub strings: &'static [&'static str],
    pub extra: Option<&'static str>,
    pub room: Option<&'static str>,
}

pub struct Call<A: 'static, T: 'static> {
    /// As C has it.
    pub name: &'static str,
    /// The refusals it can give, in the order in which it looks for them.
    pub refusals: &'static [u8],
    pub implementations: &'static [(&'static str, Run<A, T>)],
    /// How lent memory is filled beforehand.
    pub fill: Fill<T>,
    pub names: Names,
    /// The answer and what is written, as the document's example has them.
    pub example: fn(&Cells) -> (A, Vec<T>),
    pub vectors: Vec<Vector<A, T>>,
}

impl<A: Answer, T: Copy + PartialEq + Debug> Call<A, T> {
    /// Tests the call; true if all went well.
    pub fn good(&self, document: &Document) -> bool {
        let rows = document.rows(self.name);
        let listed: Vec<u8> = rows.iter().map(|row| row.number("Number")).collect();
        let mut wrong: usize = self.vectors.iter().map(|vector| self.wrong(vector)).sum();
        wrong += rows.iter().map(|row| self.wrong_row(row)).sum::<usize>();
        let (examples, factors) = (document.examples(self.name), document.factors(self.name));
        wrong += examples.iter().map(|example| self.wrong(&self.example_vector(example))).sum::<usize>();
        wrong += factors.iter().map(|row| self.wrong_refusal(row)).sum::<usize>();
        if listed != self.refusals {
            wrong += 1;
            println!("WRONG, {}: the document lists the refusals {listed:?}, not {:?}", self.name, self.refusals);
        }
        let through: Vec<&str> = self.implementations.iter().map(|(who, _)| *who).collect();
        let (name, vectors, refusals) = (self.name, self.vectors.len(), rows.len() + factors.len());
        let (examples, through) = (examples.len(), through.join(" and "));
        let of_document =
            format!("{refusals} refusals and {examples} example{} of the document", if examples == 1 { "" } else { "s" });
        println!("{name}: {vectors} vectors, {of_document}, through {through}: {wrong} wrong");
        wrong == 0 && vectors > 0 && examples > 0
    }

    /// Runs a vector through every implementation; how many did something else.
    fn wrong(&self, vector: &Vector<A, T>) -> usize {
        let due = vector.due(self.fill);
        let mut wrong = 0;
        for (who, call) in self.implementations {
            let got = vector.run(self.fill, *call);
            if got != due {
                wrong += 1;
                println!("WRONG, {} through {who}: {}\n    due {due:?}\n    got {got:?}", self.name, vector.shows);
            }
        }
        wrong
    }

    /// What a row of the document says of a refusal, with nothing lent.
    fn refusal(&self, row: &Cells) -> Vector<A, T> {
        let (number, extra) = (row.number("Number"), self.names.extra.map_or(0, |name| row.number(name)));
        let shows = format!("refusal {number} of the document");
        Vector { strings: self.strings(row), ..Vector::refused_all(&shows, &[], number) }.at(row.place()).extra(extra).room(0)
    }

    /// A row of the document has its refusal, and as many bytes as it says.
    fn wrong_refusal(&self, row: &Cells) -> usize {
        let vector = self.refusal(row);
        let lengths: Vec<usize> = vector.strings.iter().map(Vec::len).collect();
        let mut wrong = self.wrong(&vector);
        if lengths.iter().sum::<usize>() != row.number("Bytes") {
            wrong += 1;
            println!("WRONG, {}: {lengths:?} bytes are not what the row of {} says", self.name, vector.shows);
        }
        wrong
    }

    /// And of those that have it there is no shorter input.
    fn wrong_row(&self, row: &Cells) -> usize {
        let (vector, number) = (self.refusal(row), row.number("Number"));
        let mut wrong = self.wrong_refusal(row);
        let with = |place: usize, one: Vec<u8>| {
            let mut other = vector.clone();
            other.strings[place] = one;
            other
        };
        let with_shorter = |place: usize| shorter(&vector.strings[place]).into_iter().map(move |one| (place, one));
        let as_short = |vector: &Vector<A, T>| {
            self.implementations.iter().any(|(_, call)| vector.run(self.fill, *call).answer.number() == number)
        };
        let mut others = (0..vector.strings.len()).flat_map(with_shorter).map(|(place, one)| with(place, one));
        if let Some(found) = others.find(as_short) {
            wrong += 1;
            println!("WRONG, {}: refusal {number} has a shorter input: {:02x?}", self.name, found.strings);
        }
        wrong
    }

    fn strings(&self, cells: &Cells) -> Vec<Vec<u8>> {
        self.names.strings.iter().map(|name| cells.bytes(name)).collect()
    }

    fn example_vector(&self, cells: &Cells) -> Vector<A, T> {
        let (answer, written) = (self.example)(cells);
        Vector {
            shows: "the example of the document".to_string(),
            strings: self.strings(cells),
            extra: self.names.extra.map_or(0, |name| cells.number(name)),
            room: self.names.room.map_or(0, |name| cells.number(name)),
            answer,
            written,
        }
    }
}
