//! The price with derived names: that of the same question with these names granted, and the refusals in their order.

use super::{Priced, DEEP, UNFIT, WRONG};
use crate::book;
use crate::parts::{ask, base, extra, k, share, DAY};
use crate::price::{line_bytes, Line, LINE_BYTES};
use second::make::{self, latin1, Listed, Question, Record};
use second::DerivedAnswer;

pub fn vectors() -> Vec<Priced> {
    [sums(), places(), ladder(), broken(), room()].concat()
}

/// An oak top that is 900 wide.
fn chosen() -> Vec<u8> {
    make::properties(&[Listed::text("top", "Oak"), Listed::number("WIDTH", 900)])
}

const OAK: &str = "$VARCOND='oak' IF TOP='OAK'";
const BASE: Line = (1, 'B', 0, 1_000);

/// One piece in euros with nothing unused, unless more is said.
fn priced(shows: &str, book: &[u8], question: &Question, relation: &str, lines: &[Line], unit: i64) -> Priced {
    let written: Vec<u8> = lines.iter().flat_map(line_bytes).collect();
    let total = unit * i64::from(question.quantity);
    let answer = DerivedAnswer { unit, total, lines: lines.len() as u64, currency: *b"EUR", ..DerivedAnswer::default() };
    let lent = [book, &question.bytes(), &chosen(), &latin1(relation)];
    Priced { room: written.len() + 5, answer, written, ..Priced::refused_all(shows, &lent, 0) }
}

fn unused(mut vector: Priced, set: u32, count: u8) -> Priced {
    (vector.answer.unused, vector.answer.unused_count) = (set, count);
    vector
}

/// Book K: P1 with oak, P3 without it.
fn sums() -> Vec<Priced> {
    let june = ask(20240630);
    let with_oak = [(0x0102_0304, 'B', 0, 10_000), (7, 'X', 1, 1_250), (0x8000_0000, 'D', 0, -375)];
    let without = [(0x0102_0304, 'B', 0, 10_000), (0x8000_0000, 'D', 0, -333)];
    vec![
        priced("oak is derived", &k(), &june, OAK, &with_oak, 10_875),
        priced("in version 2 it counts once", &k(), &june.clone().version(2), OAK, &with_oak, 10_875),
        priced("for three pieces", &k(), &june.clone().quantity(3), OAK, &with_oak, 10_875),
        priced("oak is not derived", &k(), &june, "$VARCOND='oak' IF TOP='ash'", &without, 9_667),
        unused(priced("ash is derived, and has no line", &k(), &june, "$VARCOND='ash'", &without, 9_667), 1, 1),
    ]
}

/// Places are those of the names as they are derived; a repeat counts once, at its first place.
fn places() -> Vec<Priced> {
    let two = book![base(1, 1_000), extra(2, 10).condition("A"), extra(3, 20).condition("B")];
    let of = |shows, relation, lines: &[Line], unit| priced(shows, &two, &ask(DAY), relation, lines, unit);
    let all = |name: &str| vec![format!("$VARCOND='{name}'"); 32].join(",");
    vec![
        of("in the order of the relation", "$VARCOND='b',$VARCOND='a'", &[BASE, (3, 'X', 1, 20), (2, 'X', 2, 10)], 1_030),
        of("what is not granted has no place", "$VARCOND='c' IF 1=2,$VARCOND='b'", &[BASE, (3, 'X', 1, 20)], 1_020),
        of("a repeat", "$VARCOND='a',$VARCOND='A',$VARCOND='b'", &[BASE, (2, 'X', 1, 10), (3, 'X', 3, 20)], 1_030),
        unused(
            of(
                "the second of three has no row",
                "$VARCOND='b',$VARCOND='c',$VARCOND='a'",
                &[BASE, (3, 'X', 1, 20), (2, 'X', 3, 10)],
                1_030,
            ),
            2,
            1,
        ),
        of("32 times one name", &all("a"), &[BASE, (2, 'X', 1, 10)], 1_010),
        unused(of("32 times a name without a row", &all("c"), &[BASE], 1_000), 1, 1),
    ]
}

/// Every fault at once, and then each rung with the upper ones mended.
fn ladder() -> Vec<Priced> {
    let surcharges: Vec<Record> = vec![share(2, b'X', 1, 100_000).into(), extra(3, 1).condition("OAK").currency(b"USD").into()];
    let article: Record = make::Article::new("A1", "").into();
    let high = [vec![base(1, 100_000_000).into()], surcharges.clone()].concat();
    let [rows_alone, no_base, all] =
        [high.clone(), [vec![article.clone()], surcharges].concat(), [vec![article], high].concat()].map(|rows| make::book(&rows));
    let [plain, granting] = [ask(DAY).bytes(), ask(DAY).granted(&["oak"]).bytes()];
    let deep = format!("$VARCOND='' IF {}", "(".repeat(17));
    let rung = |shows: &str, book: &[u8], question: &[u8], relation: &str, number| {
        Priced::refused_all(shows, &[book, question, &chosen(), &latin1(relation)], number).room(0)
    };
    vec![
        rung("a broken book", &rows_alone[1..], &granting, "?", 1),
        rung("a question that grants a name", &rows_alone, &granting, "?", 2),
        rung("a wrong relation", &rows_alone, &plain, "$VARCOND='' ?", WRONG).at(13),
        rung("a deep relation", &rows_alone, &plain, &deep, DEEP).at(15 + 17),
        rung("an unfit name", &rows_alone, &plain, "$VARCOND='A',$VARCOND=''", UNFIT).at(14),
        rung("no article record", &rows_alone, &plain, OAK, 3),
        rung("no base line", &no_base, &plain, OAK, 4),
        rung("a foreign line behind a total out of range", &all, &plain, OAK, 5),
        rung("a total out of range", &all, &plain, "$VARCOND='ash'", 6),
        rung("no room", &book![base(1, 10)], &plain, "$VARCOND='ash'", 7),
    ]
}

/// Property lists that are none.
fn broken() -> Vec<Priced> {
    let refused = |shows: &str, list: &[u8]| Priced::refused_all(shows, &[&k(), &ask(DAY).bytes(), list, b"?"], 2);
    let long = [chosen(), vec![0]].concat();
    vec![refused("no list", &[]), refused("a list with a byte more", &long), refused("a cut list", &long[..long.len() - 2])]
}

fn room() -> Vec<Priced> {
    let lines = [(0x0102_0304, 'B', 0, 10_000), (7, 'X', 1, 1_250), (0x8000_0000, 'D', 0, -375)];
    let all = priced("just enough room", &k(), &ask(20240630), OAK, &lines, 10_875);
    let lent: Vec<&[u8]> = all.strings.iter().map(Vec::as_slice).collect();
    vec![all.clone().room(3 * LINE_BYTES), Priced::refused_all("a byte short", &lent, 7).room(3 * LINE_BYTES - 1)]
}
