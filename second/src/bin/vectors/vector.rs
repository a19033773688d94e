//! One vector: its bytes, and the line that it has to give.

use second::compare::{hex, Call};
use second::file_compare::{FileCall, FILE_CALLS};
use second::relation_compare::RelationCall;
use second::{basket, calendar, derive, final_number, packaging, price, price_derived, read_prices, text, write_prices, Placed};

/// What is lent is filled with this byte, and so are some bytes behind it.
const FILL: u8 = 165;
const BYTES_BEHIND: usize = 8;

/// The program lends no more bytes.
pub const MOST_ROOM: usize = 2_000;

/// The calls that the program makes of those on books, questions and texts; a vector names one by its place here, from 1. It lends
/// no list of records: `tests/held` and the tests in C do.
pub const CALLS: [Call; 6] = [Call::Price, Call::Calendar, Call::FinalNumber, Call::Packaging, Call::Text, Call::Basket];

/// A call of any sort; the bytes of the price file's calls and then those of the calls for relations go on behind those above.
#[derive(Clone, Copy)]
pub enum Asked {
    Call(Call),
    File(FileCall),
    Relation(RelationCall),
}

pub struct Vector {
    pub call: Asked,
    /// The end of a calendar, or a text's number.
    pub number: u32,
    pub room: usize,
    pub first: Vec<u8>,
    pub second: Vec<u8>,
    /// Beside the question, for a call that derives names.
    pub properties: Vec<u8>,
    pub relation: Vec<u8>,
}

impl Asked {
    /// The byte that stands for a call.
    fn byte(self) -> u8 {
        let place = match self {
            Asked::Call(call) => CALLS.iter().position(|one| *one == call).expect("a call that the program makes"),
            Asked::File(call) => CALLS.len() + call as usize,
            Asked::Relation(call) => CALLS.len() + FILE_CALLS.len() + call as usize,
        };
        place as u8 + 1
    }
}

impl Vector {
    /// A vector that lends nothing and has two parts at most.
    pub fn new(call: Asked, first: Vec<u8>, second: Vec<u8>) -> Vector {
        Vector { call, number: 0, room: 0, first, second, properties: Vec::new(), relation: Vec::new() }
    }

    /// How long its parts are together.
    pub fn length(&self) -> usize {
        [&self.first, &self.second, &self.properties, &self.relation].iter().map(|part| part.len()).sum()
    }

    pub fn bytes(&self) -> Vec<u8> {
        let numbers = [self.number, self.room as u32, self.first.len() as u32, self.second.len() as u32];
        let mut bytes = vec![self.call.byte()];
        bytes.extend(numbers.iter().flat_map(|number| number.to_be_bytes()));
        bytes.extend(&self.first);
        bytes.extend(&self.second);
        if let Asked::Relation(_) = self.call {
            for part in [&self.properties, &self.relation] {
                bytes.extend((part.len() as u32).to_be_bytes());
                bytes.extend(part);
            }
        }
        bytes
    }

    pub fn line(&self) -> String {
        match self.call {
            Asked::Call(Call::Packaging) => format!("packaging {}", packed(&self.first, &self.second)),
            Asked::Call(Call::Text) => format!("text {}", found(&self.first, &self.second, self.number)),
            Asked::Call(call) => self.line_with_room(call.name(), |lent| self.answer(call, lent)),
            Asked::File(call) => self.line_with_room(call.name(), |lent| placed(self.placed(call, lent))),
            Asked::Relation(call) => self.line_with_room(call.name(), |lent| self.derived(call, lent)),
        }
    }

    /// The line of a call that writes.
    fn line_with_room(&self, name: &str, answer: impl Fn(&mut [u8]) -> String) -> String {
        let mut out = vec![FILL; self.room + BYTES_BEHIND];
        let answer = answer(&mut out[..self.room]);
        format!("{name} {answer} {}", hex(&out))
    }

    fn answer(&self, call: Call, lent: &mut [u8]) -> String {
        let (first, second) = (&self.first, &self.second);
        match call {
            Call::Price => priced(first, second, lent),
            Call::Calendar => {
                let answer = calendar(first, second, self.number, lent);
                written(answer.number, answer.length)
            }
            Call::FinalNumber => {
                let answer = final_number(first, second, lent);
                written(answer.number, answer.length)
            }
            Call::Basket => {
                let answer = basket(first, second, lent);
                written(answer.number, answer.length)
            }
            Call::CalendarList => unreachable!("the program lends no list"),
            Call::Packaging | Call::Text => unreachable!("they write nothing"),
        }
    }

    fn placed(&self, call: FileCall, lent: &mut [u8]) -> Placed {
        match call {
            FileCall::Read => read_prices(&self.first, lent),
            FileCall::Write => write_prices(&self.first, lent),
        }
    }

    fn derived(&self, call: RelationCall, lent: &mut [u8]) -> String {
        let Vector { first, second, properties, relation, .. } = self;
        match call {
            RelationCall::PriceDerived => {
                let answer = price_derived(first, second, properties, relation, lent);
                format!(
                    "{} {} {} {} {} {} {} {}",
                    answer.number,
                    answer.unit,
                    answer.total,
                    answer.lines,
                    answer.place,
                    answer.unused,
                    answer.unused_count,
                    hex(&answer.currency)
                )
            }
            RelationCall::Derive => placed(derive(second, properties, relation, lent)),
        }
    }
}

fn priced(book: &[u8], question: &[u8], lent: &mut [u8]) -> String {
    let answer = price(book, question, lent);
    format!(
        "{} {} {} {} {} {} {}",
        answer.number,
        answer.unit,
        answer.total,
        answer.lines,
        answer.unused,
        answer.unused_count,
        hex(&answer.currency)
    )
}

fn written(number: u8, length: u64) -> String {
    format!("{number} {length}")
}

fn placed(answer: Placed) -> String {
    format!("{} {}", written(answer.number, answer.length), answer.place)
}

fn packed(book: &[u8], question: &[u8]) -> String {
    let answer = packaging(book, question);
    let values: String = answer.values.iter().map(|value| format!(" {value}")).collect();
    let units: String = answer.units.chunks(3).map(|unit| format!(" {}", hex(unit))).collect();
    format!("{} {} {}{values}{units}", answer.number, answer.gross, answer.present)
}

fn found(asked: &[u8], fallback: &[u8], number: u32) -> String {
    let answer = text(asked, fallback, number);
    format!("{} {} {} {}", answer.number, answer.book, answer.place, answer.length)
}
