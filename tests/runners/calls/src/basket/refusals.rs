//! Refusals of the whole call: of several faults the first of 1, 2 and 7 is told; one broken question among good ones; the room.

use super::{answered, priced, without, Vector};
use crate::book;
use crate::parts::{ask, base, k, off, DAY};
use second::make::Question;

pub fn vectors() -> Vec<Vector> {
    [ladder(), broken(), lengths(), room()].concat()
}

fn ladder() -> Vec<Vector> {
    let (book, good, bad) = (k(), ask(DAY).bytes(), ask(20230229).bytes());
    let broken_book = &book[..book.len() - 1];
    let missing = Question::new("A2", DAY).bytes();
    vec![
        Vector::refused("broken book and question, no room", broken_book, &bad, 1).room(0),
        Vector::refused("broken book, no question", broken_book, &[], 1).room(0),
        Vector::refused("no book", &[], &good, 1),
        Vector::refused("broken question, no room", &book, &bad, 2).room(0),
        Vector::refused("a question without a price, then a broken one", &book, &[missing.clone(), bad].concat(), 2).room(0),
        Vector::refused("no room", &book, &good, 7).room(0),
        Vector::refused("no room for a question without a price", &book, &missing, 7).room(32),
        answered("room for it", &book, &[(Question::new("A2", DAY), without(3))]).room(33),
    ]
}

/// Good questions around one that is not: the whole is refused, with room for all.
fn broken() -> Vec<Vector> {
    let (book, good) = (k(), ask(DAY).bytes());
    let bent = |place: usize, byte: u8| {
        let mut bytes = good.clone();
        bytes[place] = byte;
        bytes
    };
    let faults = [
        ("a date that is no day", ask(20230229).bytes()),
        ("a quantity of 0", ask(DAY).quantity(0).bytes()),
        ("a quantity of 100,001", ask(DAY).quantity(100_001).bytes()),
        ("version 0", bent(4, 0)),
        ("an empty article", Question::new("", DAY).bytes()),
        ("a sort that is none", bent(8, b'X')),
        ("an empty granted name", ask(DAY).granted(&[""]).bytes()),
        ("a factor of 10,001", ask(DAY).factored(&[("oak", 10_001)]).bytes()),
        ("a value wider than its width", ask(DAY).valued(1, "AB").bytes()),
    ];
    let at_each_place = |(fault, bad): &(&str, Vec<u8>)| {
        let refused =
            |place: &str, basket: &[&[u8]]| Vector::refused(&format!("{fault}, {place}"), &book, &basket.concat(), 2).room(400);
        [
            refused("alone", &[bad]),
            refused("first", &[bad, &good]),
            refused("between", &[&good, bad, &good]),
            refused("last", &[&good, bad]),
        ]
    };
    faults.iter().flat_map(at_each_place).collect()
}

/// Lengths that do not lead from one question to the next.
fn lengths() -> Vec<Vector> {
    let (book, good) = (k(), ask(DAY).bytes());
    let says = |length: u32| [&length.to_be_bytes()[..], &good[4..]].concat();
    let size = good.len() as u32;
    let refused = |shows: &str, questions: &[&[u8]]| Vector::refused(shows, &book, &questions.concat(), 2).room(400);
    let mut vectors = vec![
        refused("a length of 0", &[&says(0)]),
        refused("a length of 0 behind a question", &[&good, &[0; 4]]),
        refused("a length of 4", &[&[0, 0, 0, 4]]),
        refused("a length of 4 behind a question", &[&good, &[0, 0, 0, 4]]),
        refused("a byte less, and the next question behind it", &[&says(size - 1), &good]),
        refused("a byte more, at the end", &[&good, &says(size + 1)]),
        refused("a byte more, into the next question", &[&says(size + 1), &good]),
        refused("the length of two questions", &[&says(2 * size), &good]),
        refused("the greatest length", &[&good, &says(u32::MAX)]),
        refused("a byte between two questions", &[&good, &[0], &good]),
        refused("a byte in front", &[&[0], &good]),
    ];
    vectors.extend((1..good.len()).map(|cut| refused(&format!("{cut} bytes of a second question"), &[&good, &good[..cut]])));
    vectors
}

/// Three answers and three lines are 99 bytes and three lines' bytes: the room is for all of them together.
fn room() -> Vec<Vector> {
    let book = book![base(1, 1_000), off(2, -1).dates(20240701, 20241231)];
    let early = (ask(20240630), priced(&[(1, 'B', 0, 1_000)], 1_000));
    let late = (ask(20240701), priced(&[(1, 'B', 0, 1_000), (2, 'D', 0, -1)], 999));
    let all = answered("", &book, &[early, (Question::new("A2", DAY), without(3)), late]);
    let due = all.written.len();
    let of = |shows: &str, room| Vector { shows: shows.to_string(), ..all.clone().room(room) };
    let refused = |shows: &str, room| Vector::refused(shows, &all.strings[0], &all.strings[1], 7).room(room);
    vec![
        of("room for everything, just enough", due),
        of("a byte more than enough", due + 1),
        of("much more than enough", 5_000),
        refused("a byte short", due - 1),
        refused("room for the answers alone", 99),
        refused("room for the first question alone", 33 + (due - 99) / 3),
        refused("a single byte", 1),
        refused("no room at all", 0),
    ]
}
