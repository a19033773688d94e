//! Granted names: raised, each once at its first place; where a name has no line, its place is in the set of unused ones.

use super::{Line, Vector, LINE_BYTES};
use crate::book;
use crate::parts::{ask, base, extra, off, share, DAY};
use second::make::{self, Article, Price, Question, Record};

pub fn vectors() -> Vec<Vector> {
    [raised(), repeats(), unused(), not_brought(), highest_place(), all_lines()].concat()
}

const BASE: Line = (1, 'B', 0, 1_000);

fn raised() -> Vec<Vector> {
    let book = book![base(1, 1_000), extra(2, 10).condition("OAK")];
    let umlaut = book![base(1, 1_000), extra(3, 20).condition("GR\u{fc}N"), extra(2, 10).condition("GR\u{dc}N")];
    let beyond = book![base(1, 1_000), extra(2, 10).condition("\u{c0}\u{d6}\u{d8}\u{de}")];
    let staying = book![base(1, 1_000), extra(2, 10).condition("\u{df}\u{f7}\u{ff}"), extra(3, 20).condition("\u{bf}\u{d7}\u{df}")];
    let edges = book![base(1, 1_000), extra(2, 10).condition("AZ@[`{")];
    let small = book![base(1, 1_000), extra(2, 10).condition("oak")];
    let with_oak = [BASE, (2, 'X', 1, 10)];
    let granting = |name| ask(DAY).granted(&[name]);
    vec![
        Vector::priced("a small name is raised", &book, &granting("oak"), &with_oak, 1_010),
        Vector::priced("a mixed name is raised", &book, &granting("oAk"), &with_oak, 1_010),
        Vector::priced("a name in capitals stays", &book, &granting("OAK"), &with_oak, 1_010),
        Vector::priced("a row name in small letters is never granted", &small, &granting("oak"), &[BASE], 1_000).unused(1, 1),
        Vector::priced("an umlaut is raised", &umlaut, &granting("gr\u{fc}n"), &with_oak, 1_010),
        Vector::priced("an umlaut in a row stands as it is", &umlaut, &granting("GR\u{fc}N"), &with_oak, 1_010),
        Vector::priced("an umlaut in capitals stays", &umlaut, &granting("GR\u{dc}N"), &with_oak, 1_010),
        Vector::priced(
            "the first and the last letters beyond ASCII",
            &beyond,
            &granting("\u{e0}\u{f6}\u{f8}\u{fe}"),
            &with_oak,
            1_010,
        ),
        Vector::priced("what has no capital stays", &staying, &granting("\u{df}\u{f7}\u{ff}"), &with_oak, 1_010),
        Vector::priced("the bytes around the letters stay", &edges, &granting("az@[`{"), &with_oak, 1_010),
        Vector::priced("a longer row name is another", &book, &granting("oa"), &[BASE], 1_000).unused(1, 1),
        Vector::priced("a shorter row name is another", &book, &granting("oaks"), &[BASE], 1_000).unused(1, 1),
        Vector::priced("a name not granted brings no line", &book, &ask(DAY), &[BASE], 1_000),
    ]
}

/// The 32 ways to write `birch` in small and capital letters, all small first.
fn birches() -> Vec<String> {
    let letters = |bits: u32| (0..5).map(move |at| if bits >> at & 1 == 0 { "birch" } else { "BIRCH" }.as_bytes()[at] as char);
    (0..32).map(|bits| letters(bits).collect()).collect()
}

fn granting_all(names: &[String]) -> Question {
    ask(DAY).granted(&names.iter().map(String::as_str).collect::<Vec<_>>())
}

fn repeats() -> Vec<Vector> {
    let birch = book![base(1, 1_000), extra(2, 10).condition("BIRCH")];
    let two = book![base(1, 1_000), extra(2, 10).condition("A"), extra(3, 20).condition("B")];
    let a_a_b = ask(DAY).granted(&["a", "A", "b"]);
    let b_a_b = ask(DAY).granted(&["b", "a", "B", "A"]);
    let umlauts = ask(DAY).granted(&["\u{fc}", "\u{dc}", "a"]);
    let all = granting_all(&birches());
    vec![
        Vector::priced("32 spellings of one name bring one line, at place 1", &birch, &all, &[BASE, (2, 'X', 1, 10)], 1_010),
        Vector::priced("32 spellings of a name without a row: place 1 alone", &book![base(1, 1_000)], &all, &[BASE], 1_000)
            .unused(1, 1),
        Vector::priced("places are those of the list as sent", &two, &a_a_b, &[BASE, (2, 'X', 1, 10), (3, 'X', 3, 20)], 1_030),
        Vector::priced("umlauts repeat one another", &two, &umlauts, &[BASE, (2, 'X', 3, 10)], 1_010).unused(1, 1),
        Vector::priced("names go in the order granted", &two, &b_a_b, &[BASE, (3, 'X', 1, 20), (2, 'X', 2, 10)], 1_030),
    ]
}

fn unused() -> Vec<Vector> {
    let bare = book![base(1, 1_000)];
    let b = book![base(1, 1_000), extra(2, 10).condition("B")];
    let nothing = book![base(1, 1_000), extra(2, 0).condition("B")];
    let levels = book![base(1, 1_000), base(2, 1).condition("A"), extra(3, 2).condition("B"), off(4, -3).condition("C")];
    let each_level = [BASE, (2, 'B', 1, 1), (3, 'X', 2, 2), (4, 'D', 3, -3)];
    let three = ask(DAY).granted(&["A", "B", "C"]);
    vec![
        Vector::priced("the second of three brings a line", &b, &three, &[BASE, (2, 'X', 2, 10)], 1_010).unused(0b101, 2),
        Vector::priced("none of three brings a line", &bare, &three, &[BASE], 1_000).unused(0b111, 3),
        Vector::priced("repeats are never in the set", &bare, &ask(DAY).granted(&["a", "A", "b"]), &[BASE], 1_000).unused(0b101, 2),
        Vector::priced("a line of nothing is a line", &nothing, &three, &[BASE, (2, 'X', 2, 0)], 1_000).unused(0b101, 2),
        Vector::priced("a line on one level is enough", &levels, &three, &each_level, 1_000),
    ]
}

/// Rows under the granted name that are of no use: another sort, article, day, quantity, or a percentage on the base level.
fn not_brought() -> Vec<Vector> {
    let oak = |row: Price| row.condition("OAK");
    let book = book![
        base(1, 1_000),
        oak(extra(2, 10)).sort(b'P'),
        Price { article: b"A2".to_vec(), ..oak(extra(3, 10)) },
        oak(extra(4, 10)).dates(20240101, 20240614),
        oak(extra(5, 10)).up_to(6),
        oak(share(6, b'B', 1, 1_000)),
    ];
    let question = ask(DAY).granted(&["oak"]).quantity(7);
    vec![Vector::priced("a name whose rows all fall out", &book, &question, &[BASE], 1_000).total(7_000).unused(1, 1)]
}

/// `N01` to `N32`.
fn numbered() -> Vec<String> {
    (1..=32).map(|place| format!("N{place:02}")).collect()
}

fn highest_place() -> Vec<Vector> {
    let names = numbered();
    let last = book![base(1, 1_000), extra(2, 10).condition("N32")];
    let mut all_but_last: Vec<Record> = vec![Article::new("A1", "").into(), base(1, 1_000).into()];
    all_but_last.extend(names[..31].iter().map(|name| extra(2, 10).condition(name).into()));
    let lines: Vec<Line> = std::iter::once(BASE).chain((1..=31).map(|place| (2, 'X', place, 10))).collect();
    let all = granting_all(&names);
    vec![
        Vector::priced("32 names without a row", &book![base(1, 1_000)], &all, &[BASE], 1_000).unused(0xFFFF_FFFF, 32),
        Vector::priced("place 32 alone has a line", &last, &all, &[BASE, (2, 'X', 32, 10)], 1_010).unused(0x7FFF_FFFF, 31),
        Vector::priced("place 32 alone has none", &make::book(&all_but_last), &all, &lines, 1_310).unused(0x8000_0000, 1),
    ]
}

/// Three levels with a line for no name and one for each of 32: base 1000 and 1 to 32, surcharges 2000 and 101 to 132, discounts
/// -500 and -1 to -32. The names sum to 528, so 1528 + 5728 - 1028. The rows stand in the book last line first.
fn all_lines() -> Vec<Vector> {
    let names = numbered();
    let mut lines: Vec<Line> = Vec::new();
    for (level, alone, named, sign) in [('B', 1_000, 0, 1), ('X', 2_000, 100, 1), ('D', -500, 0, -1)] {
        let text = lines.len() as u32;
        lines.push((text, level, 0, alone));
        lines.extend((1..=32).map(|place| (text + u32::from(place), level, place, sign * (named + i64::from(place)))));
    }
    let row = |line: &Line| {
        let price = Price::fixed("A1", line.1 as u8, line.3 as i32).text(line.0);
        Record::Price(if line.2 == 0 { price } else { price.condition(&names[usize::from(line.2) - 1]) })
    };
    let records: Vec<Record> = lines.iter().rev().map(row).chain([Article::new("A1", "").into()]).collect();
    let question = granting_all(&names).quantity(2);
    let vector = Vector::priced("99 lines, the most there can be", &make::book(&records), &question, &lines, 6_228).total(12_456);
    let full = vector.clone().room(lines.len() * LINE_BYTES);
    vec![vector, full]
}
