//! Factors on granted names: what a row comes to is multiplied before anything is added or rounded, on every level; a line ends in the
//! factor. Amounts that are exactly half a step below zero are left out, since the ways differ about these and not about factors.

use super::{Line, Vector};
use crate::book;
use crate::parts::{ask, base, extra, hex, k, off, share, DAY};
use second::make::{Question, Rounding};

pub fn vectors() -> Vec<Vector> {
    [
        byte_by_byte(),
        fixed(),
        base_rows(),
        percentages(),
        below_zero(),
        roundings(),
        repeats(),
        unused(),
        versions(),
        out_of_range(),
        totals(),
        foreign(),
    ]
    .concat()
}

/// What is refused beyond 10,000.
const TOO_MUCH: u16 = 10_001;

const BASE: Line = (1, 'B', 0, 1_000);

fn oak(factor: u16) -> Question {
    ask(DAY).factored(&[("oak", factor)])
}

/// A price whose lines have the factors given.
fn times(shows: &str, book: &[u8], question: &Question, lines: &[(Line, u16)], unit: i64) -> Vector {
    let lines: Vec<Vec<u8>> = lines.iter().map(|(line, factor)| super::line_with(line, *factor)).collect();
    Vector::answered(shows, book, question, &lines, unit)
}

/// Question and lines in hex: P1 with 2.5 times oak. 12.5 % of 10000 is 1250, and 3125 by the factor; 3.33 % of 13125 is 437.0625.
fn byte_by_byte() -> Vec<Vector> {
    let question = "0000001c 02 02 4131 53 455552 0134d8f6 00000001 01 03 6f616b 09c4 00";
    let lines =
        ["01020304 42 00 0000000000002710 03e8", "00000007 58 01 0000000000000c35 09c4", "80000000 44 00 fffffffffffffe4b 03e8"];
    let asked = ask(20240630).factored(&[("oak", 2_500)]);
    let priced = Vector::in_hex("P1 with 2.5 times oak", &k(), &asked, &lines, 12_688);
    let in_hex = vec![k(), hex(question).expect("hex digits")];
    vec![Vector { strings: in_hex, ..priced.clone() }, priced.room(3 * super::LINE_BYTES)]
}

/// A surcharge of 695 a metre: metres in thousandths, and what they cost.
const METRES: [(u16, i64); 9] = [
    (0, 0),
    (1, 1),         // 0.695
    (500, 348),     // 347.5, a half
    (999, 694),     // 694.305
    (1_000, 695),   // as in version 1
    (1_001, 696),   // 695.695
    (2_500, 1_738), // 1737.5, a half
    (9_999, 6_949), // 6949.305
    (10_000, 6_950),
];

fn fixed() -> Vec<Vector> {
    let book = book![base(1, 1_000), extra(2, 695).condition("OAK")];
    let metres = |(factor, amount): (u16, i64)| {
        let lines = [(BASE, 1_000), ((2, 'X', 1, amount), factor)];
        times(&format!("695 a metre, {factor} thousandths"), &book, &oak(factor), &lines, 1_000 + amount)
    };
    let levels = book![base(1, 1_000), base(2, 10).condition("OAK"), extra(3, 20).condition("OAK"), off(4, -30).condition("OAK")];
    let each = [(BASE, 1_000), ((2, 'B', 1, 25), 2_500), ((3, 'X', 1, 50), 2_500), ((4, 'D', 1, -75), 2_500)];
    let two = book![base(1, 1_000), extra(2, 10).condition("OAK"), extra(3, 10).condition("ASH"), extra(4, 10)];
    let own = [(BASE, 1_000), ((4, 'X', 0, 10), 1_000), ((3, 'X', 1, 30), 3_000), ((2, 'X', 2, 5), 500)];
    let both = ask(DAY).factored(&[("ash", 3_000), ("oak", 500)]);
    let mut vectors: Vec<Vector> = METRES.into_iter().map(metres).collect();
    vectors.extend([
        times("one name on three levels", &levels, &oak(2_500), &each, 1_000),
        times("each name has its own, and a line of no name none", &two, &both, &own, 1_045),
        times("pieces are multiplied last", &book, &oak(500).quantity(100), &[(BASE, 1_000), ((2, 'X', 1, 348), 500)], 1_348)
            .total(134_800),
    ]);
    vectors
}

/// Base rows under a name: what is listed of them is what a percentage of the base lines is of.
fn base_rows() -> Vec<Vector> {
    let book = book![base(1, 1_000), base(2, 333).condition("OAK"), share(3, b'X', 1, 1_000)];
    let with = |factor, amount, tenth| [(BASE, 1_000), ((2, 'B', 1, amount), factor), ((3, 'X', 0, tenth), 1_000)];
    let alone = book![base(2, 333).condition("OAK")];
    vec![
        // 499.5, a half; a tenth of 1500
        times("a base row by 1.5", &book, &oak(1_500), &with(1_500, 500, 150), 1_650),
        times("a base row by 10", &book, &oak(10_000), &with(10_000, 3_330, 433), 4_763),
        times("a base row by 0", &book, &oak(0), &with(0, 0, 100), 1_100),
        times("the only base line, by 0, is a price of nothing", &alone, &oak(0), &[((2, 'B', 1, 0), 0)], 0),
        Vector::refused("the same under a name that is not granted", &alone, &ask(DAY).factored(&[("ash", 0)]).bytes(), 4),
    ]
}

/// The share is multiplied, and not what it is of; and it is the exact share.
fn percentages() -> Vec<Vector> {
    let eighth = book![base(1, 10_500), share(2, b'X', 1, 1_250).condition("OAK")];
    let of = |factor, amount| [((1, 'B', 0, 10_500), 1_000), ((2, 'X', 1, amount), factor)];
    let rules = book![
        base(1, 1_000),
        extra(2, 500),
        share(3, b'X', 1, 1_000).condition("OAK"),
        share(4, b'X', 2, 1_000).condition("ASH"),
        share(5, b'D', 2, -1_000),
    ];
    // A tenth of 1000, 2.5 times; a tenth of 1750, 0.4 times; a tenth of 1820 off.
    let each =
        [(BASE, 1_000), ((2, 'X', 0, 500), 1_000), ((3, 'X', 1, 250), 2_500), ((4, 'X', 2, 70), 400), ((5, 'D', 0, -182), 1_000)];
    let both = ask(DAY).factored(&[("oak", 2_500), ("ash", 400)]);
    vec![
        times("1312.5 by 1", &eighth, &oak(1_000), &of(1_000, 1_313), 11_813),
        times("1312.5 by 2, which is not twice 1313", &eighth, &oak(2_000), &of(2_000, 2_625), 13_125),
        times("1312.5 by a half, 656.25", &eighth, &oak(500), &of(500, 656), 11_156),
        times("1312.5 by 10", &eighth, &oak(10_000), &of(10_000, 13_125), 23_625),
        times("of the base lines and of the total so far", &rules, &both, &each, 1_638),
    ]
}

/// A discount of 74, and one of 3.33 % of 10000, by each rule: thousandths and amounts.
fn below_zero() -> Vec<Vector> {
    let mut vectors = Vec::new();
    for (factor, amount) in [(0, 0), (1, 0), (500, -37), (999, -74), (2_500, -185), (10_000, -740)] {
        let book = book![base(1, 1_000), off(2, -74).condition("OAK")];
        let lines = [(BASE, 1_000), ((2, 'D', 1, amount), factor)];
        vectors.push(times(&format!("-74 by {factor} thousandths"), &book, &oak(factor), &lines, 1_000 + amount));
    }
    for rule in [1, 2] {
        for (factor, amount) in [(0, 0), (1, 0), (250, -83), (1_100, -366), (10_000, -3_330)] {
            let book = book![base(1, 10_000), share(2, b'D', rule, -333).condition("OAK")];
            let lines = [((1, 'B', 0, 10_000), 1_000), ((2, 'D', 1, amount), factor)];
            let shows = format!("-3.33 % of 10000 by rule {rule} and {factor} thousandths");
            vectors.push(times(&shows, &book, &oak(factor), &lines, 10_000 + amount));
        }
    }
    vectors
}

/// Value, factor, way, step, added before and after, and the line's amount.
const ROUNDED: [(i32, u16, u8, u32, i32, i32, i64); 8] = [
    (100, 2_000, 0, 100, 50, 0, 200),    // 200 and 50, down; not twice 150
    (695, 4_800, 2, 10, 0, 0, 3_340),    // 3336 by tens
    (695, 4_800, 1, 100, 0, -1, 3_399),  // 3336 up, less 1
    (695, 4_800, 0, 100, 64, 9, 3_409),  // 3400 as it is, and 9
    (695, 0, 1, 100, 1, 0, 100),         // nothing and 1, up
    (695, 0, 2, 100, 0, 7, 7),           // nothing, and 7
    (-695, 4_800, 0, 100, 0, 0, -3_400), // -3336 down
    (-695, 4_800, 1, 100, 0, 0, -3_300), // -3336 up
];

fn roundings() -> Vec<Vector> {
    let rounded = |(value, factor, way, step, before, after, amount)| {
        let rounding = Rounding::new(1, way, step).adds(before, after);
        let book = book![base(1, 1_000), extra(2, value).condition("OAK").rounding(1), rounding];
        let lines = [(BASE, 1_000), ((2, 'X', 1, amount), factor)];
        let shows = format!("{value} by {factor} thousandths, way {way}, step {step}, {before} before and {after} after");
        times(&shows, &book, &oak(factor), &lines, 1_000 + amount)
    };
    ROUNDED.into_iter().map(rounded).collect()
}

fn repeats() -> Vec<Vector> {
    let book = book![base(1, 1_000), extra(2, 100).condition("OAK"), extra(3, 100).condition("ASH")];
    let granting = |names: &[(&str, u16)]| ask(DAY).factored(names);
    let first = [(BASE, 1_000), ((2, 'X', 1, 50), 500)];
    let between = [(BASE, 1_000), ((3, 'X', 1, 300), 3_000), ((2, 'X', 2, 200), 2_000)];
    let last = [(BASE, 1_000), ((3, 'X', 1, 0), 0), ((2, 'X', 4, 1_000), 10_000)];
    vec![
        times("a repeat keeps the first factor", &book, &granting(&[("oak", 500), ("OAK", 2_000)]), &first, 1_050),
        times("repeats of two names", &book, &granting(&[("ash", 3_000), ("Oak", 2_000), ("oak", 1), ("ASH", 0)]), &between, 1_500),
        times(
            "repeats of a name with nothing stay nothing",
            &book,
            &granting(&[("ash", 0), ("ASH", 10_000), ("Ash", 1_000), ("oak", 10_000)]),
            &last,
            2_000,
        ),
        Vector::refused(
            "a repeat's own factor counts for the layout",
            &book,
            &granting(&[("oak", 500), ("OAK", TOO_MUCH)]).bytes(),
            2,
        ),
    ]
}

/// A name with the factor 0 has its line, and one without a row has none, whatever its factor.
fn unused() -> Vec<Vector> {
    let book = book![base(1, 1_000), extra(2, 10).condition("B")];
    let three = ask(DAY).factored(&[("a", 0), ("b", 0), ("c", 10_000)]);
    let repeated = ask(DAY).factored(&[("a", 1), ("A", 2), ("b", 3_000)]);
    vec![
        times("a line of nothing uses its name", &book, &three, &[(BASE, 1_000), ((2, 'X', 2, 0), 0)], 1_000).unused(0b101, 2),
        times("a repeat is never unused", &book, &repeated, &[(BASE, 1_000), ((2, 'X', 3, 30), 3_000)], 1_030).unused(0b001, 1),
    ]
}

/// Version 2 with 1,000 everywhere is version 1; version 1 has no room for factors, and version 2 needs one behind each name.
fn versions() -> Vec<Vector> {
    let book = book![base(1, 1_000), extra(2, 10).condition("OAK")];
    let lines = [BASE, (2, 'X', 1, 10)];
    let granting = |version| ask(DAY).granted(&["oak"]).version(version);
    let as_version = |question: &Question, version: u8| {
        let mut bytes = question.bytes();
        bytes[4] = version;
        bytes
    };
    vec![
        Vector::priced("version 1", &book, &granting(1), &lines, 1_010),
        Vector::priced("version 2, by 1", &book, &granting(2), &lines, 1_010),
        Vector::priced("version 2 without names", &book, &ask(DAY).version(2), &[BASE], 1_000),
        Vector::priced("version 2 without names, with properties", &book, &ask(DAY).version(2).valued(3, "OAK"), &[BASE], 1_000),
        Vector::refused("names without factors, called version 2", &book, &as_version(&granting(1), 2), 2),
        Vector::refused("names with factors, called version 1", &book, &as_version(&granting(2), 1), 2),
        Vector::refused("version 3", &book, &as_version(&granting(2), 3), 2),
        Vector::refused("version 0", &book, &as_version(&granting(2), 0), 2),
        Vector::refused("a factor of one byte", &book, &without_a_byte(&granting(2)), 2),
    ]
}

/// A question of version 2 without the last byte of its last factor, and with the length that it has then.
fn without_a_byte(question: &Question) -> Vec<u8> {
    let mut bytes = question.bytes();
    bytes.remove(bytes.len() - 2);
    bytes[3] -= 1;
    bytes
}

fn out_of_range() -> Vec<Vector> {
    let book = book![base(1, 1_000), extra(2, 10).condition("OAK")];
    let refused = |shows, names: &[(&str, u16)]| Vector::refused(shows, &book, &ask(DAY).factored(names).bytes(), 2);
    vec![
        refused("10,001", &[("oak", TOO_MUCH)]),
        refused("65,535", &[("oak", u16::MAX)]),
        refused("32,768", &[("oak", 0x8000)]),
        refused("10,001 of a name without a row", &[("oak", 1_000), ("ash", TOO_MUCH)]),
        refused("10,001 of the first of two", &[("ash", TOO_MUCH), ("oak", 1_000)]),
        Vector::refused("a broken book goes first", &book[1..], &oak(TOO_MUCH).bytes(), 1),
        Vector::refused(
            "an article that is not there goes behind",
            &book,
            &Question::new("A2", DAY).factored(&[("oak", TOO_MUCH)]).bytes(),
            2,
        ),
    ]
}

/// Ten times the greatest value is the end of the range.
fn totals() -> Vec<Vector> {
    let most = |cents: i32| base(1, cents).condition("OAK");
    let top = [((1, 'B', 1, 1_000_000_000), 10_000)];
    let bottom = [((1, 'B', 1, -1_000_000_000), 10_000)];
    let far = book![base(1, 100_000_000), share(2, b'X', 1, 100_000).condition("OAK")];
    vec![
        times("1,000,000,000 stands", &book![most(100_000_000)], &oak(10_000), &top, 1_000_000_000),
        times("-1,000,000,000 stands", &book![most(-100_000_000)], &oak(10_000), &bottom, -1_000_000_000),
        Vector::refused("a cent more", &book![most(100_000_000), off(2, 1)], &oak(10_000).bytes(), 6),
        Vector::refused("a cent less", &book![most(-100_000_000), off(2, -1)], &oak(10_000).bytes(), 6),
        Vector::refused("a thousand percent, ten times", &far, &oak(10_000).bytes(), 6),
        Vector::refused("left and come back", &book![most(100_000_000), base(2, 1).condition("ASH"), off(3, -5)], &both_ten(), 6),
    ]
}

fn both_ten() -> Vec<u8> {
    ask(DAY).factored(&[("oak", 10_000), ("ash", 10_000)]).bytes()
}

/// A line of nothing is a line of its currency.
fn foreign() -> Vec<Vector> {
    let book = book![base(1, 1_000), extra(2, 10).condition("OAK").currency(b"USD")];
    vec![Vector::refused("nothing in another currency", &book, &oak(0).bytes(), 5)]
}
