//! The question that is written: names in order, in its own version, and all else of it as it was; which question is none for
//! this; the room.

use super::{derives, nothing, Vector};
use crate::parts::{ask, hex, DAY};
use second::make::Question;
use second::Placed;

pub fn vectors() -> Vec<Vector> {
    [names(), whole(), byte_by_byte(), no_question(), room()].concat()
}

const TWO: &str = "$VARCOND='oak',$VARCOND='Ash 2'";

fn names() -> Vec<Vector> {
    let of = |shows, relation, names: &[&str]| derives(shows, &ask(DAY), &nothing(), relation, names);
    vec![
        of("one name", "$VARCOND='A'", &["A"]),
        of("two names in their order, as they are written", TWO, &["oak", "Ash 2"]),
        of("a name twice, in other letters", "$VARCOND='a',$VARCOND='A',$VARCOND='b'", &["a", "A", "b"]),
        of("no name", "$VARCOND='A' IF 1=2", &[]),
        of("some of several", "$VARCOND='A' IF 1=2,$VARCOND='B' IF 1=1,$VARCOND='C'", &["B", "C"]),
        of("letters of Latin-1", "$VARCOND='gr\u{fc}n\u{a0}\u{ff}'", &["gr\u{fc}n\u{a0}\u{ff}"]),
        of("the longest name", "$VARCOND='ABCDEFGHIJKLMNOPQRST'", &["ABCDEFGHIJKLMNOPQRST"]),
    ]
}

/// Every other field, with values of their own.
fn whole() -> Vec<Vector> {
    let asked = ask(20241231).sort(b'P').currency(b"USD").quantity(100_000).valued(4, "OAK").hidden(2).unselected(3);
    let longest = Question { article: vec![b'A'; 40], ..ask(DAY) };
    vec![
        derives("sort, currency, day, quantity and properties stay", &asked, &nothing(), TWO, &["oak", "Ash 2"]),
        derives("and so they do without a name", &asked, &nothing(), "$VARCOND='A' IF 1=2", &[]),
        derives("a question of version 2", &asked.clone().version(2), &nothing(), TWO, &["oak", "Ash 2"]),
        derives("the longest article", &longest, &nothing(), TWO, &["oak", "Ash 2"]),
    ]
}

/// In hex: a question for one `A` of version 1, and the same of version 2, before and after.
fn byte_by_byte() -> Vec<Vector> {
    let in_hex = |shows: &str, before: &str, after: &str| {
        let [before, written] = [before, after].map(|digits| hex(digits).expect("hex digits"));
        let answer = Placed { length: written.len() as u64, place: 0, number: 0 };
        Vector { room: 50, answer, written, ..Vector::refused_all(shows, &[&before, &[0], b"$VARCOND='AB',$VARCOND='C'"], 0) }
    };
    vec![
        in_hex(
            "version 1 in hex",
            "00000015 01 0141 53 000000 0134d6e5 00000001 00 00",
            "0000001a 01 0141 53 000000 0134d6e5 00000001 02 024142 0143 00",
        ),
        in_hex(
            "version 2 in hex",
            "00000015 02 0141 53 000000 0134d6e5 00000001 00 00",
            "0000001e 02 0141 53 000000 0134d6e5 00000001 02 024142 03e8 0143 03e8 00",
        ),
    ]
}

/// What is refused with 2 for the question, whatever the relation is.
fn no_question() -> Vec<Vector> {
    let refused = |shows: &str, question: &[u8]| {
        let with = |relation: &[u8]| Vector::refused_all(shows, &[question, &[0], relation], 2);
        [with(b"$VARCOND='A'"), with(b"wrong").room(0)]
    };
    let plain = ask(DAY).bytes();
    [
        refused("no question", &[]),
        refused("a question with a byte more", &[&plain[..], &[0]].concat()),
        refused("a question on no day", &ask(20230229).bytes()),
        refused("a question that grants a name", &ask(DAY).granted(&["oak"]).bytes()),
        refused("a question of version 2 that grants a name", &ask(DAY).factored(&[("oak", 1_000)]).bytes()),
    ]
    .concat()
}

fn room() -> Vec<Vector> {
    let all = derives("just enough room", &ask(DAY), &nothing(), TWO, &["oak", "Ash 2"]);
    let none = derives("room for the question, which has no name", &ask(DAY), &nothing(), "$VARCOND='A' IF 1=2", &[]);
    let length = all.written.len();
    let lent: Vec<&[u8]> = all.strings.iter().map(Vec::as_slice).collect();
    vec![
        all.clone().room(length),
        Vector::refused_all("a byte short", &lent, 7).room(length - 1),
        Vector::refused_all("room for the question alone", &lent, 7).room(all.strings[0].len()),
        Vector::refused_all("no room", &lent, 7).room(0),
        none.clone().room(none.written.len()),
    ]
}
