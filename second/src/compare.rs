//! Runs one call of a case and keeps everything that can be seen of it.

use crate::answers::{CalendarAnswer, DerivedAnswer, PackagingAnswer, Placed, PriceAnswer, Stretch, TextAnswer, Written};
use crate::basket::{parts, Part, ANSWER_LENGTH};
use crate::calendar::{stretches, STRETCH_LENGTH};
use crate::calls::{Calls, Second};
use crate::cases::{Case, Inputs};
use crate::price::LINE_LENGTH;
use crate::refusal::{BAD_DERIVED_NAME, BAD_RELATION, BAD_ROW, TOO_DEEP};

#[derive(Debug, Clone, Copy, PartialEq, Eq)]
pub enum Call {
    Price,
    Calendar,
    CalendarList,
    FinalNumber,
    Packaging,
    Text,
    Basket,
}

pub const ALL_CALLS: [Call; 7] =
    [Call::Price, Call::Calendar, Call::CalendarList, Call::FinalNumber, Call::Packaging, Call::Text, Call::Basket];

impl Call {
    pub fn name(self) -> &'static str {
        match self {
            Call::Price => "price",
            Call::Calendar => "calendar",
            Call::CalendarList => "calendar_list",
            Call::FinalNumber => "final_number",
            Call::Packaging => "packaging",
            Call::Text => "text",
            Call::Basket => "basket",
        }
    }

    /// The numbers that the call can give. Each call has a list of refusals of its own, in which no
    /// other number stands.
    pub fn possible(self) -> &'static [u8] {
        match self {
            Call::Price => &[0, 1, 2, 3, 4, 5, 6, 7],
            Call::Calendar | Call::CalendarList => &[0, 1, 2, 3, 7, 9],
            Call::FinalNumber => &[0, 1, 2, 3, 7],
            Call::Packaging => &[0, 1, 2, 3, 8, 11],
            Call::Text => &[0, 1, 12],
            Call::Basket => &[0, 1, 2, 7],
        }
    }
}

/// Numbers that the program can print, 0 for a calendar: those of the calendar call without 7, as
/// the program's own room is enough for every calendar.
pub const PROGRAM_NUMBERS: [u8; 5] = [0, 1, 2, 3, 9];

/// Numbers that a stretch can carry: those of the price call that depend on the day. Broken input
/// and a missing article refuse the whole calendar, and a day's price is written nowhere, so there
/// is no 7.
pub const STRETCH_NUMBERS: [u8; 4] = [0, 4, 5, 6];

/// Numbers that a question of a basket can have: those of the price call that leave the other
/// questions alone. Broken input and too little room refuse the whole basket.
pub const QUESTION_NUMBERS: [u8; 5] = [0, 3, 4, 5, 6];

#[derive(Debug, Clone, Copy, PartialEq, Eq)]
pub enum Answer {
    Price(PriceAnswer),
    Derived(DerivedAnswer),
    Calendar(CalendarAnswer),
    Written(Written),
    Placed(Placed),
    Packaging(PackagingAnswer),
    Text(TextAnswer),
}

impl Answer {
    pub fn number(&self) -> u8 {
        match self {
            Answer::Price(answer) => answer.number,
            Answer::Derived(answer) => answer.number,
            Answer::Calendar(answer) => answer.number,
            Answer::Written(answer) => answer.number,
            Answer::Placed(answer) => answer.number,
            Answer::Packaging(answer) => answer.number,
            Answer::Text(answer) => answer.number,
        }
    }
}

/// An answer and the memory that was lent for it, with the guard behind.
#[derive(Debug, Clone, PartialEq, Eq)]
pub struct Outcome {
    pub answer: Answer,
    pub bytes: Vec<u8>,
    pub list: Vec<Stretch>,
}

impl Outcome {
    /// The answer, and what stands in the lent memory, bytes as hexadecimal.
    pub fn told(&self) -> String {
        let mut told = format!("{:?}", self.answer);
        if !self.bytes.is_empty() {
            told += &format!("\n        lent bytes {}", hex(&self.bytes));
        }
        for record in &self.list {
            told += &format!("\n        {record:?}");
        }
        told
    }
}

/// Two digits a byte.
pub fn hex(bytes: &[u8]) -> String {
    bytes.iter().map(|byte| format!("{byte:02x}")).collect()
}

/// How much room each writing call gets, in bytes or records.
#[derive(Debug, Clone, Copy)]
pub struct Sizes {
    pub price: usize,
    pub calendar: usize,
    pub list: usize,
    pub number: usize,
    pub basket: usize,
}

/// A call that refuses for another reason than room still gets some, to be seen untouched.
const ROOM_OF_THE_REFUSED: usize = 3;

/// More than any listing or any final number takes.
const ROOM_FOR_ALL: usize = 2_000;

/// What this library says beforehand: the sizes the case's rooms come to, the stretches, and the
/// numbers of the basket's questions.
pub struct Plan {
    pub sizes: Sizes,
    pub stretches: Vec<Stretch>,
    pub questions: Vec<u8>,
}

impl Plan {
    pub fn of(case: &Case, inputs: &Inputs) -> Plan {
        let mut out = [0; ROOM_FOR_ALL];
        let priced = Second.price(&inputs.book, &inputs.question, &mut out);
        let lines = match priced.number {
            0 => priced.lines as usize * LINE_LENGTH,
            _ => ROOM_OF_THE_REFUSED * LINE_LENGTH,
        };
        let written = Second.final_number(&inputs.book, &inputs.question, &mut out);
        let number = match written.number {
            0 => written.length as usize,
            _ => ROOM_OF_THE_REFUSED,
        };
        let stretches = stretches(&inputs.book, &inputs.question, inputs.end).unwrap_or_default();
        let records = match stretches.len() {
            0 => ROOM_OF_THE_REFUSED,
            count => count,
        };
        let parts = parts(&inputs.book, &inputs.basket);
        let basket = match &parts {
            Ok(parts) => parts.iter().map(Part::length).sum(),
            Err(_) => ROOM_OF_THE_REFUSED * ANSWER_LENGTH,
        };
        let questions = parts.unwrap_or_default().iter().map(|part| part.answer.number).collect();
        let sizes = Sizes {
            price: case.rooms.price.size(lines),
            calendar: case.rooms.calendar.size(records * STRETCH_LENGTH),
            list: case.rooms.list.size(records),
            number: case.rooms.number.size(number),
            basket: case.rooms.basket.size(basket),
        };
        Plan { sizes, stretches, questions }
    }
}

/// So many bytes or records stand behind the lent memory; nobody may write there.
pub(crate) const GUARD: usize = 40;

/// Bytes in which a shifted or repeated piece would be seen.
pub fn pattern(length: usize) -> Vec<u8> {
    (0..length).map(|place| (place * 37 + 11) as u8).collect()
}

/// The same for records.
pub fn list_pattern(length: usize) -> Vec<Stretch> {
    (0..length)
        .map(|place| {
            let byte = (place * 37 + 11) as u8;
            Stretch {
                first: place as u32 * 1_000_003 + 7,
                last: place as u32 * 500_009 + 5,
                unit: -(place as i64) * 1_000_000_007 - 1,
                refusal: byte,
                currency: [byte, byte ^ 85, byte ^ 170],
            }
        })
        .collect()
}

/// Runs a call on filled memory.
pub fn run(call: Call, calls: &dyn Calls, inputs: &Inputs, sizes: Sizes) -> Outcome {
    let (book, question, end) = (&inputs.book, &inputs.question, inputs.end);
    let mut bytes = Vec::new();
    let mut list = Vec::new();
    let answer = match call {
        Call::Price => {
            bytes = pattern(sizes.price + GUARD);
            Answer::Price(calls.price(book, question, &mut bytes[..sizes.price]))
        }
        Call::Calendar => {
            bytes = pattern(sizes.calendar + GUARD);
            Answer::Calendar(calls.calendar(book, question, end, &mut bytes[..sizes.calendar]))
        }
        Call::CalendarList => {
            list = list_pattern(sizes.list + GUARD);
            Answer::Calendar(calls.calendar_list(book, question, end, &mut list[..sizes.list]))
        }
        Call::FinalNumber => {
            bytes = pattern(sizes.number + GUARD);
            Answer::Written(calls.final_number(book, question, &mut bytes[..sizes.number]))
        }
        Call::Packaging => Answer::Packaging(calls.packaging(book, question)),
        Call::Text => {
            let (asked, fallback) = (&inputs.asked, &inputs.fallback);
            Answer::Text(calls.text(asked, fallback, inputs.text_number))
        }
        Call::Basket => {
            bytes = pattern(sizes.basket + GUARD);
            Answer::Written(calls.basket(book, &inputs.basket, &mut bytes[..sizes.basket]))
        }
    };
    Outcome { answer, bytes, list }
}

/// What every outcome owes, whatever the rules of the call say: beside a refusal there are only
/// zeros, and memory that was not written is as it was. Gives what is broken.
pub fn broken_promise(outcome: &Outcome) -> Option<&'static str> {
    let number = outcome.answer.number();
    let (empty, bytes_written, records_written) = match outcome.answer {
        Answer::Price(answer) => (answer == PriceAnswer::refused(number), answer.lines as usize * LINE_LENGTH, 0),
        Answer::Derived(answer) => {
            let refused = DerivedAnswer::refused_at(number, place_beside(number, answer.place));
            (answer == refused, answer.lines as usize * LINE_LENGTH, 0)
        }
        Answer::Calendar(answer) => (answer == CalendarAnswer::refused(number), answer.length as usize, answer.length as usize),
        Answer::Written(answer) => (answer == Written::refused(number), answer.length as usize, 0),
        Answer::Placed(answer) => {
            let refused = Placed::refused_at(number, place_beside(number, answer.place));
            (answer == refused, answer.length as usize, 0)
        }
        Answer::Packaging(answer) => (answer == PackagingAnswer::refused(number), 0, 0),
        Answer::Text(answer) => (answer == TextAnswer::refused(number), 0, 0),
    };
    if number != 0 && !empty {
        return Some("something stands beside a refusal");
    }
    let bytes = outcome.bytes.get(bytes_written.min(outcome.bytes.len())..);
    let filled = pattern(outcome.bytes.len());
    let list = outcome.list.get(records_written.min(outcome.list.len())..);
    let filled_list = list_pattern(outcome.list.len());
    if bytes.is_some_and(|left| !filled.ends_with(left)) || list.is_some_and(|left| !filled_list.ends_with(left)) {
        return Some("memory was written that should have stayed");
    }
    None
}

/// The place beside a refusal: some numbers must have one, the others have none.
fn place_beside(number: u8, place: u64) -> u64 {
    match number {
        BAD_ROW | BAD_RELATION | TOO_DEEP | BAD_DERIVED_NAME => place.max(1),
        _ => 0,
    }
}

/// Where two implementations part.
#[derive(Debug, Clone)]
pub struct Difference {
    pub call: String,
    pub ours: String,
    pub theirs: String,
}

/// Compares one call of a case; also returns our number.
pub fn compare(call: Call, theirs: &dyn Calls, inputs: &Inputs, sizes: Sizes) -> (Outcome, Option<Difference>) {
    let ours = run(call, &Second, inputs, sizes);
    let before = inputs.clone();
    let other = run(call, theirs, inputs, sizes);
    let difference = difference(call.name(), &ours, &other, before != *inputs);
    (ours, difference)
}

/// Where two outcomes of a call part, or what one of them breaks.
pub fn difference(call: &str, ours: &Outcome, theirs: &Outcome, input_changed: bool) -> Option<Difference> {
    let complaint = broken_promise(ours)
        .map(|complaint| ("ours: ", complaint))
        .or_else(|| broken_promise(theirs).map(|complaint| ("theirs: ", complaint)))
        .or_else(|| input_changed.then_some(("theirs: ", "an input was changed")));
    if ours == theirs && complaint.is_none() {
        return None;
    }
    let note = complaint.map_or(String::new(), |(who, what)| format!(" ({who}{what})"));
    Some(Difference { call: format!("{call}{note}"), ours: ours.told(), theirs: theirs.told() })
}
