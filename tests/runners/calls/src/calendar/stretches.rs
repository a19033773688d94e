//! What makes a stretch: the calendar of K, equal days that merge, refused days that part, rows that matter and rows that do not.

use super::{at, without, Vector};
use crate::book;
use crate::parts::{ask, base, extra, hex, k as parts_k, off, share};
use second::make::{self, Article, Price};
use second::Stretch;

pub fn vectors() -> Vec<Vector> {
    [k(), factors(), merged(), parted(), refused_days(), other_rows(), rows_never_chosen(), overlaps(), dearest()].concat()
}

fn k() -> Vec<Vector> {
    let book = book![
        base(1, 10_000).dates(20240101, 20240630),
        base(2, 10_500).dates(20240701, 20241231),
        share(3, b'X', 1, 1_250).condition("OAK"),
        share(4, b'D', 2, -333),
    ];
    let with_oak = ask(20240629).granted(&["oak"]);
    let stretches = [at(20240629, 20240630, 10_875), at(20240701, 20241231, 11_420), without(20250101, 20250102, 4)];
    let mut whole = Vector::new("the calendar of K, in bytes worked out one by one", &book, &with_oak, 20250102, &stretches);
    whole.bytes.written = hex(concat!(
        "0134d8f5 0134d8f6 00 455552 0000000000002a7b",
        "0134d93d 0134db4f 00 455552 0000000000002c9c",
        "0134fdf5 0134fdf6 04 000000 0000000000000000"
    ))
    .expect("hex digits");
    // Without oak: 3.33 % of 10000 is 333, of 10500 349.65.
    let plain = [at(20240629, 20240630, 9_667), at(20240701, 20241231, 10_150), without(20250101, 20250102, 4)];
    vec![
        whole,
        Vector::new("K without oak", &book, &ask(20240629), 20250102, &plain),
        Vector::new("a quantity changes no unit total", &book, &with_oak.clone().quantity(3), 20250102, &stretches),
        Vector::new(
            "K from the year before",
            &book,
            &ask(20231231),
            20240101,
            &[without(20231231, 20231231, 4), at(20240101, 20240101, 9_667)],
        ),
    ]
}

/// Twice oak in K: 2500, and 3.33 % of 12500 is 416.25; then 2625, and 3.33 % of 13125 is 437.0625. By 0 a change of row changes nothing.
fn factors() -> Vec<Vector> {
    let twice = [at(20240629, 20240630, 12_084), at(20240701, 20241231, 12_688), without(20250101, 20250102, 4)];
    let rising = book![
        base(1, 100),
        extra(2, 10).condition("OAK").dates(20240101, 20240630),
        extra(3, 20).condition("OAK").dates(20240701, 20241231)
    ];
    let oak = |factor| ask(20240629).factored(&[("oak", factor)]);
    vec![
        Vector::new("K with twice oak", &parts_k(), &oak(2_000), 20250102, &twice),
        Vector::new(
            "a surcharge that rises, by 10",
            &rising,
            &oak(10_000),
            20240702,
            &[at(20240629, 20240630, 200), at(20240701, 20240702, 300)],
        ),
        Vector::new("the same by 0: one stretch", &rising, &oak(0), 20240702, &[at(20240629, 20240702, 100)]),
        Vector::refused("a factor of 10,001", &rising, &oak(10_001).bytes(), 20240702, 2),
        Vector::refused("a factor of 10,001 goes before an end that is no day", &rising, &oak(10_001).bytes(), 0, 2),
    ]
}

/// A stretch shows a total, not where it comes from.
fn merged() -> Vec<Vector> {
    let rows = book![base(1, 100).dates(20240101, 20240110), base(2, 100).dates(20240111, 20240120)];
    let lines = book![
        base(1, 100).dates(20240101, 20240110),
        base(2, 90).dates(20240111, 20240120),
        extra(3, 10).dates(20240111, 20240120),
    ];
    let balanced = book![base(1, 100), extra(2, 5).dates(20240105, 20240107), off(3, -5).dates(20240105, 20240107)];
    let one = [at(20240101, 20240120, 100)];
    vec![
        Vector::new("two rows with one price follow each other", &rows, &ask(20240101), 20240120, &one),
        Vector::new("other lines with the same total", &lines, &ask(20240101), 20240120, &one),
        Vector::new("a surcharge and a discount that cancel out", &balanced, &ask(20240101), 20240120, &one),
    ]
}

/// The fourth trap, and what else parts days with one price.
fn parted() -> Vec<Vector> {
    let gap = book![base(1, 100).dates(20240101, 20240110), base(2, 100).dates(20240112, 20240120)];
    let around = [at(20240101, 20240110, 100), without(20240111, 20240111, 4), at(20240112, 20240120, 100)];
    let in_francs = book![base(1, 100).dates(20240101, 20240110), base(2, 100).dates(20240111, 20240120).currency(b"CHF")];
    let francs = Stretch { currency: *b"CHF", ..at(20240111, 20240120, 100) };
    let there_and_back = book![base(1, 100), base(2, 200).dates(20240105, 20240105), base(3, 200).dates(20240107, 20240108)];
    let five = [
        at(20240101, 20240104, 100),
        at(20240105, 20240105, 200),
        at(20240106, 20240106, 100),
        at(20240107, 20240108, 200),
        at(20240109, 20240109, 100),
    ];
    vec![
        Vector::new("a refused day between days with one price", &gap, &ask(20240101), 20240120, &around),
        Vector::new(
            "the same amount in another currency",
            &in_francs,
            &ask(20240101),
            20240120,
            &[at(20240101, 20240110, 100), francs],
        ),
        Vector::new("a price that comes back", &there_and_back, &ask(20240101), 20240109, &five),
    ]
}

/// No base row; a foreign surcharge; a total of eleven million euros; and a price of nothing, which is no refusal.
fn refused_days() -> Vec<Vector> {
    let book = book![
        base(1, 100_000_000).dates(20240103, 20240108),
        extra(2, 1).currency(b"USD").dates(20240103, 20240104),
        share(3, b'X', 1, 100_000).dates(20240105, 20240106),
        base(4, 0).dates(20240107, 20240108),
    ];
    let stretches = [
        without(20240101, 20240102, 4),
        without(20240103, 20240104, 5),
        without(20240105, 20240106, 6),
        at(20240107, 20240108, 0),
        without(20240109, 20240109, 4),
    ];
    vec![
        Vector::new("refused days part by their number", &book, &ask(20240101), 20240109, &stretches),
        Vector::new("a period of refused days alone", &book, &ask(20240110), 20240112, &[without(20240110, 20240112, 4)]),
    ]
}

/// Rows of another sort, article or name begin and end without a trace, and so do rows for fewer pieces.
fn other_rows() -> Vec<Vector> {
    let inside = |row: Price| row.dates(20240105, 20240106);
    let book = make::book(&[
        Article::new("A1", "").into(),
        base(1, 100).into(),
        inside(base(2, 1).sort(b'P')).into(),
        inside(Price::fixed("A2", b'B', 1)).into(),
        inside(extra(3, 1).condition("OAK")).into(),
        inside(extra(4, 1).condition("ash")).into(),
        inside(base(5, 1).up_to(1)).into(),
        inside(share(6, b'B', 1, 100)).into(),
        inside(share(7, b'D', 1, 0)).into(),
    ]);
    let two = ask(20240101).quantity(2).granted(&["ash"]);
    let bought = [without(20240101, 20240104, 4), at(20240105, 20240106, 1), without(20240107, 20240110, 4)];
    vec![
        Vector::new("rows that are not of the question", &book, &two, 20240110, &[at(20240101, 20240110, 100)]),
        Vector::new("the purchase row of the same book", &book, &ask(20240101).sort(b'P'), 20240110, &bought),
    ]
}

fn rows_never_chosen() -> Vec<Vector> {
    let book = book![
        base(1, 100),
        base(2, 1).dates(20240110, 20240105),
        base(3, 1).dates(20240105, 20240132),
        base(4, 1).dates(20240100, 20240110),
        base(5, 1).dates(20230229, 20241231),
        base(6, 1).dates(0, 20241231),
        base(7, 1).dates(20240105, 0xFFFF_FFFF),
        base(8, 1).dates(20240105, 20240631),
    ];
    vec![Vector::new(
        "rows that end before they start, and rows with a date that is no day",
        &book,
        &ask(20240101),
        20241231,
        &[at(20240101, 20241231, 100)],
    )]
}

/// A later from date covers an earlier row, and uncovers it when it ends.
fn overlaps() -> Vec<Vector> {
    let book = book![
        base(1, 100).dates(20230601, 20241231),
        base(2, 200).dates(20240110, 20240120),
        base(3, 300).dates(20240115, 20240125),
        base(4, 400).dates(20240115, 20240117).up_to(9),
    ];
    let stretches = [
        at(20240101, 20240109, 100),
        at(20240110, 20240114, 200),
        at(20240115, 20240117, 400),
        at(20240118, 20240125, 300),
        at(20240126, 20240131, 100),
    ];
    let many = [at(20240101, 20240109, 100), at(20240110, 20240114, 200), at(20240115, 20240125, 300), at(20240126, 20240131, 100)];
    vec![
        Vector::new("rows that cover one another", &book, &ask(20240101).quantity(9), 20240131, &stretches),
        Vector::new("the same for ten pieces", &book, &ask(20240101).quantity(10), 20240131, &many),
    ]
}

fn dearest() -> Vec<Vector> {
    let top = book![base(1, 100_000_000), share(2, b'X', 1, 90_000), off(3, -1).dates(20240102, 20240102)];
    let bottom = book![base(1, -100_000_000), share(2, b'X', 1, 90_000), off(3, -1).dates(20240102, 20240102)];
    let up = [at(20240101, 20240101, 1_000_000_000), at(20240102, 20240102, 999_999_999), at(20240103, 20240103, 1_000_000_000)];
    let down = [at(20240101, 20240101, -1_000_000_000), without(20240102, 20240102, 6), at(20240103, 20240103, -1_000_000_000)];
    vec![
        Vector::new("the greatest unit total", &top, &ask(20240101), 20240103, &up),
        Vector::new("the least unit total, and a cent less", &bottom, &ask(20240101), 20240103, &down),
    ]
}
