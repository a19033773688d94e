//! Which row of a component is chosen: by its days, its up-to quantity, its from date, its place in the book; and which rows are no
//! part of the component at all.

use super::Vector;
use crate::book;
use crate::parts::{ask, base, extra, share, DAY};
use second::make::{self, Article, Price};

pub fn vectors() -> Vec<Vector> {
    [days(), no_days(), far_days(), quantities(), greatest_quantities(), from_dates(), other_components(), percentage_base()]
        .concat()
}

/// The first trap: a row ends with its to date, not the day before.
fn days() -> Vec<Vector> {
    let spring = book![base(1, 500).dates(20240301, 20240531)];
    let one_day = book![base(1, 500).dates(20240229, 20240229)];
    let lines = [(1, 'B', 0, 500)];
    vec![
        Vector::refused("the day before the from date", &spring, &ask(20240229).bytes(), 4),
        Vector::priced("the from date", &spring, &ask(20240301), &lines, 500),
        Vector::priced("the to date", &spring, &ask(20240531), &lines, 500),
        Vector::refused("the day after the to date", &spring, &ask(20240601).bytes(), 4),
        Vector::priced("a row of one day, a leap day", &one_day, &ask(20240229), &lines, 500),
        Vector::refused("the day before a row of one day", &one_day, &ask(20240228).bytes(), 4),
        Vector::refused("the day after a row of one day", &one_day, &ask(20240301).bytes(), 4),
    ]
}

/// Each row of the first book has a date that is no day, or ends before it starts.
fn no_days() -> Vec<Vector> {
    let mut vectors = Vec::new();
    for (from, to) in [
        (20230229, 20241231),
        (20240101, 20240931),
        (20240001, 20241231),
        (20240100, 20241231),
        (20240101, 20241301),
        (0, 99991231),
        (10100, 99991231),
        (101, 99991231),
        (10101, 100000101),
        (10101, 99991232),
        (10101, 0xFFFF_FFFF),
        (20240701, 20240601),
    ] {
        let alone = book![base(1, 500).dates(from, to)];
        let shows = format!("a row from {from} to {to} is in the book and is never chosen");
        vectors.push(Vector::refused(&shows, &alone, &ask(DAY).bytes(), 4));
        let beside = book![base(1, 500).dates(from, to).up_to(1), base(2, 600).up_to(2)];
        let shows = format!("a row from {from} to {to} leaves the choice to the next");
        vectors.push(Vector::priced(&shows, &beside, &ask(DAY), &[(2, 'B', 0, 600)], 600));
    }
    vectors
}

fn far_days() -> Vec<Vector> {
    let always = book![base(1, 500).dates(10101, 99991231)];
    let lines = [(1, 'B', 0, 500)];
    vec![
        Vector::priced("the first day there is", &always, &ask(10101), &lines, 500),
        Vector::priced("the last day there is", &always, &ask(99991231), &lines, 500),
    ]
}

/// Rows up to 10, up to 100 and without a bound, the last first in the book.
fn quantities() -> Vec<Vector> {
    let book = book![base(3, 300), base(2, 400).up_to(100), base(1, 500).up_to(10)];
    let bounded = book![base(2, 400).up_to(100)];
    let (ten, hundred, more) = ([(1, 'B', 0, 500)], [(2, 'B', 0, 400)], [(3, 'B', 0, 300)]);
    let of = |quantity| ask(DAY).quantity(quantity);
    vec![
        Vector::priced("one piece takes the least bound", &book, &of(1), &ten, 500),
        Vector::priced("one below the bound 10", &book, &of(9), &ten, 500).total(4_500),
        Vector::priced("at the bound 10", &book, &of(10), &ten, 500).total(5_000),
        Vector::priced("one above the bound 10", &book, &of(11), &hundred, 400).total(4_400),
        Vector::priced("one below the bound 100", &book, &of(99), &hundred, 400).total(39_600),
        Vector::priced("at the bound 100", &book, &of(100), &hundred, 400).total(40_000),
        Vector::priced("one above the bound 100: the row without a bound", &book, &of(101), &more, 300).total(30_300),
        Vector::priced("the greatest quantity", &book, &of(100_000), &more, 300).total(30_000_000),
        Vector::priced("at the only bound", &bounded, &of(100), &hundred, 400).total(40_000),
        Vector::refused("one above the only bound", &bounded, &of(101).bytes(), 4),
    ]
}

fn greatest_quantities() -> Vec<Vector> {
    let most = book![base(1, 300), base(2, 400).up_to(0xFFFF_FFFF)];
    let hundred_thousand = book![base(1, 300), base(2, 400).up_to(100_000)];
    let single = book![base(1, 300), base(2, 400).up_to(1)];
    let (free, bound) = ([(1, 'B', 0, 300)], [(2, 'B', 0, 400)]);
    let all = ask(DAY).quantity(100_000);
    vec![
        Vector::priced("no bound is above the greatest bound", &most, &all, &bound, 400).total(40_000_000),
        Vector::priced("the greatest quantity at its bound", &hundred_thousand, &all, &bound, 400).total(40_000_000),
        Vector::priced("one piece at the bound 1", &single, &ask(DAY), &bound, 400),
        Vector::priced("two pieces above the bound 1", &single, &ask(DAY).quantity(2), &free, 300).total(600),
    ]
}

fn from_dates() -> Vec<Vector> {
    let (january, may) = (base(1, 100).dates(20240101, 20241231), base(2, 200).dates(20240501, 20240630));
    let equal = base(3, 300).dates(20240501, 20241231);
    let bounded = base(4, 400).dates(20240101, 20241231).up_to(5);
    let not_yet = base(5, 500).dates(20240616, 20241231);
    let (second_row, third_row) = ([(2, 'B', 0, 200)], [(3, 'B', 0, 300)]);
    let (few, unbegun) = ([(4, 'B', 0, 400)], [(1, 'B', 0, 100)]);
    let by_date = |first: &Price, second: &Price| book![first.clone(), second.clone()];
    vec![
        Vector::priced(
            "the later from date, though first in the book is another",
            &by_date(&january, &may),
            &ask(DAY),
            &second_row,
            200,
        ),
        Vector::priced("the later from date, first in the book too", &by_date(&may, &january), &ask(DAY), &second_row, 200),
        Vector::priced("of equal from dates the first in the book", &by_date(&may, &equal), &ask(DAY), &second_row, 200),
        Vector::priced("the same two the other way round", &by_date(&equal, &may), &ask(DAY), &third_row, 300),
        Vector::priced("the least bound goes before the later from date", &by_date(&may, &bounded), &ask(DAY), &few, 400),
        Vector::priced("a from date of tomorrow does not count", &by_date(&not_yet, &january), &ask(DAY), &unbegun, 100),
    ]
}

/// Rows of another article, sort or level do not fill a component, and there is no joker.
fn other_components() -> Vec<Vector> {
    let purchase = book![base(1, 500).sort(b'P'), base(2, 600)];
    let strangers = make::book(&[
        Article::new("A1", "").into(),
        Article::new("A10", "").into(),
        Price::fixed("A10", b'B', 100).text(1).into(),
        Price::fixed("a1", b'B', 200).text(2).into(),
        Price::fixed("*", b'B', 300).text(3).into(),
        Price::fixed("A", b'B', 400).text(4).into(),
    ]);
    let joker = make::book(&[Article::new("*", "").into(), Price::fixed("*", b'B', 300).text(3).into()]);
    let levels = book![extra(1, 500), base(2, 600)];
    let (bought, sold) = ([(1, 'B', 0, 500)], [(2, 'B', 0, 600)]);
    vec![
        Vector::priced("a purchase takes the purchase row", &purchase, &ask(DAY).sort(b'P'), &bought, 500),
        Vector::priced("a sale takes the sale row", &purchase, &ask(DAY), &sold, 600),
        Vector::refused("rows of articles with other numbers, the star among them", &strangers, &ask(DAY).bytes(), 4),
        Vector::priced("an article named by a star", &joker, &make::Question::new("*", DAY), &[(3, 'B', 0, 300)], 300),
        Vector::priced(
            "the base line is listed before the surcharge",
            &levels,
            &ask(DAY),
            &[(2, 'B', 0, 600), (1, 'X', 0, 500)],
            1_100,
        ),
        Vector::refused("a surcharge alone is no price", &book![extra(1, 500)], &ask(DAY).bytes(), 4),
    ]
}

fn percentage_base() -> Vec<Vector> {
    let alone = book![share(1, b'B', 1, 1_000)];
    let beside = book![base(2, 700), share(1, b'B', 2, 1_000).up_to(1)];
    vec![
        Vector::refused("a percentage as the only base row", &alone, &ask(DAY).bytes(), 4),
        Vector::priced("a percentage base row with a lesser bound", &beside, &ask(DAY), &[(2, 'B', 0, 700)], 700),
    ]
}
