//! The currency: asked, not asked, absent; decided in each component by itself, among the rows of the day, before quantity.

use super::Vector;
use crate::book;
use crate::parts::{ask, base, extra, off, share, DAY};

pub fn vectors() -> Vec<Vector> {
    [asked(), before_quantity(), percentage_base(), of_a_component(), foreign()].concat()
}

fn asked() -> Vec<Vector> {
    let both = book![base(1, 1_000), base(2, 1_100).currency(b"USD").dates(20240201, 20241231)];
    let (euros, dollars) = ([(1, 'B', 0, 1_000)], [(2, 'B', 0, 1_100)]);
    let asking = |currency| ask(DAY).currency(currency);
    vec![
        Vector::priced("euros asked, though the dollars are from later", &both, &asking(b"EUR"), &euros, 1_000),
        Vector::priced("dollars asked", &both, &asking(b"USD"), &dollars, 1_100).currency(b"USD"),
        Vector::priced("none asked: all stay, and the later from date decides", &both, &asking(&[0; 3]), &dollars, 1_100)
            .currency(b"USD"),
        Vector::priced("yen asked, which no row has: all stay", &both, &asking(b"JPY"), &dollars, 1_100).currency(b"USD"),
        Vector::priced(
            "dollars asked before their row begins: the euros stay",
            &both,
            &ask(20240131).currency(b"USD"),
            &euros,
            1_000,
        ),
    ]
}

/// The second trap: with quantity tested first, the foreign row would slip in.
fn before_quantity() -> Vec<Vector> {
    let base_rows = book![base(1, 1_000).up_to(5), base(2, 5_000).currency(b"CHF")];
    let extras = book![base(1, 1_000), extra(2, 10).condition("OAK").up_to(5), extra(3, 90).condition("OAK").currency(b"CHF")];
    let oak = ask(DAY).granted(&["OAK"]);
    vec![
        Vector::priced("five pieces: the euro row", &base_rows, &ask(DAY).quantity(5), &[(1, 'B', 0, 1_000)], 1_000).total(5_000),
        Vector::refused("six pieces: the euro row goes, and the francs went before", &base_rows, &ask(DAY).quantity(6).bytes(), 4),
        Vector::priced(
            "six pieces, none asked: the francs",
            &base_rows,
            &ask(DAY).quantity(6).currency(&[0; 3]),
            &[(2, 'B', 0, 5_000)],
            5_000,
        )
        .total(30_000)
        .currency(b"CHF"),
        Vector::priced(
            "five pieces: the surcharge in euros",
            &extras,
            &oak.clone().quantity(5),
            &[(1, 'B', 0, 1_000), (2, 'X', 1, 10)],
            1_010,
        )
        .total(5_050),
        Vector::priced(
            "six pieces: the component is empty, the name unused",
            &extras,
            &oak.quantity(6),
            &[(1, 'B', 0, 1_000)],
            1_000,
        )
        .total(6_000)
        .unused(1, 1),
    ]
}

/// The third trap: a percentage base row is gone before it could show that its currency is there.
fn percentage_base() -> Vec<Vector> {
    let book = book![share(1, b'B', 1, 1_000), base(2, 2_000).currency(b"USD")];
    let lines = [(2, 'B', 0, 2_000)];
    vec![
        Vector::priced("euros only on a percentage base row: the dollars stay", &book, &ask(DAY), &lines, 2_000).currency(b"USD"),
        Vector::priced("dollars asked", &book, &ask(DAY).currency(b"USD"), &lines, 2_000).currency(b"USD"),
    ]
}

fn of_a_component() -> Vec<Vector> {
    // 5 % of 1000 and 7 % of 2000.
    let shares =
        book![base(1, 1_000), base(2, 2_000).currency(b"USD"), share(3, b'X', 1, 500), share(4, b'D', 1, -700).currency(b"CHF"),];
    let in_euros = [(1, 'B', 0, 1_000), (3, 'X', 0, 50), (4, 'D', 0, -70)];
    let in_dollars = [(2, 'B', 0, 2_000), (3, 'X', 0, 100), (4, 'D', 0, -140)];
    // The percentage row in euros sends the later row in francs away.
    let mixed = book![base(1, 1_000), share(2, b'X', 1, 500), extra(3, 90).currency(b"CHF").dates(20240201, 20241231)];
    let yesterday = book![base(1, 1_000).dates(20240101, 20240614), base(2, 2_000).currency(b"USD")];
    vec![
        Vector::priced("percentages of other currencies are no foreign lines", &shares, &ask(DAY), &in_euros, 980),
        Vector::priced("dollars asked, which the surcharge lacks", &shares, &ask(DAY).currency(b"USD"), &in_dollars, 1_960)
            .currency(b"USD"),
        Vector::priced(
            "a percentage shows its currency is there",
            &mixed,
            &ask(DAY),
            &[(1, 'B', 0, 1_000), (2, 'X', 0, 50)],
            1_050,
        ),
        Vector::refused("none asked: the later franc row, which is foreign", &mixed, &ask(DAY).currency(&[0; 3]).bytes(), 5),
        Vector::priced("euros only in a row that ended yesterday", &yesterday, &ask(DAY), &[(2, 'B', 0, 2_000)], 2_000)
            .currency(b"USD"),
    ]
}

/// A fixed row's currency must be that of the first base line, which may be a conditioned one.
fn foreign() -> Vec<Vector> {
    let oak = ask(DAY).granted(&["OAK"]);
    let conditioned = |row: second::make::Price| book![row.condition("OAK"), extra(2, 20).currency(b"USD")];
    let swiss = base(1, 10).currency(b"CHF");
    let first = book![base(1, 10).condition("OAK").currency(b"USD"), extra(2, 20).currency(b"USD")];
    let both = book![base(1, 10), base(2, 20).condition("OAK").currency(b"USD")];
    vec![
        Vector::refused("a foreign surcharge", &book![base(1, 10), extra(2, 20).currency(b"USD")], &ask(DAY).bytes(), 5),
        Vector::refused("a foreign discount", &book![base(1, 10), off(2, -5).currency(b"USD")], &ask(DAY).bytes(), 5),
        Vector::refused("a foreign line of nothing", &book![base(1, 10), extra(2, 0).currency(b"USD")], &ask(DAY).bytes(), 5),
        Vector::refused("a conditioned base line against the one before", &both, &oak.bytes(), 5),
        Vector::refused("a surcharge against a conditioned base line", &conditioned(swiss), &oak.bytes(), 5),
        Vector::priced("a conditioned base line gives the currency", &first, &oak, &[(1, 'B', 1, 10), (2, 'X', 0, 20)], 30)
            .currency(b"USD"),
        Vector::priced("a foreign row that nobody granted", &both, &ask(DAY), &[(1, 'B', 0, 10)], 10),
    ]
}
