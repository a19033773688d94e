//! The running total at the ends of its range and past them, on both sides of zero, and the total of many pieces.

use super::Vector;
use crate::book;
use crate::parts::{ask, base, extra, off, share, DAY};
use second::make::Rounding;

pub fn vectors() -> Vec<Vector> {
    [at_the_ends(), past_the_ends(), left_and_come_back(), of_many_pieces()].concat()
}

const MILLION_EUROS: i32 = 100_000_000;

/// Nine hundred percent on top of a million euros make ten million euros, the end of the range.
fn at_the_ends() -> Vec<Vector> {
    let top = book![base(1, MILLION_EUROS), share(2, b'X', 1, 90_000)];
    let bottom = book![base(1, -MILLION_EUROS), share(2, b'X', 1, 90_000)];
    let touched = book![base(1, MILLION_EUROS), share(2, b'X', 1, 90_000), off(3, -1)];
    let up = [(1, 'B', 0, 100_000_000), (2, 'X', 0, 900_000_000)];
    let down = [(1, 'B', 0, -100_000_000), (2, 'X', 0, -900_000_000)];
    let touching = [up[0], up[1], (3, 'D', 0, -1)];
    vec![
        Vector::priced("1,000,000,000 stands", &top, &ask(DAY), &up, 1_000_000_000),
        Vector::priced("-1,000,000,000 stands", &bottom, &ask(DAY), &down, -1_000_000_000),
        Vector::priced("1,000,000,000 on the way stands", &touched, &ask(DAY), &touching, 999_999_999),
    ]
}

fn past_the_ends() -> Vec<Vector> {
    let ends = |cents| [base(1, cents), share(2, b'X', 1, 90_000)];
    let [top, more] = ends(MILLION_EUROS);
    let [bottom, less] = ends(-MILLION_EUROS);
    let cent_more = book![top.clone(), more.clone(), off(3, 1)];
    let cent_less = book![bottom.clone(), less.clone(), off(3, -1)];
    let in_one_line = book![top, more.rounding(1), Rounding::new(1, 2, 1).adds(0, 1)];
    let in_one_line_down = book![bottom, less.rounding(1), Rounding::new(1, 2, 1).adds(0, -1)];
    vec![
        Vector::refused("1,000,000,001 by a last line of a cent", &cent_more, &ask(DAY).bytes(), 6),
        Vector::refused("-1,000,000,001 by a last line of a cent", &cent_less, &ask(DAY).bytes(), 6),
        Vector::refused("1,000,000,001 by what is added after", &in_one_line, &ask(DAY).bytes(), 6),
        Vector::refused("-1,000,000,001 by what is added after", &in_one_line_down, &ask(DAY).bytes(), 6),
    ]
}

fn left_and_come_back() -> Vec<Vector> {
    let up = book![base(1, MILLION_EUROS), share(2, b'X', 1, 90_000), extra(3, 1).condition("OAK"), off(4, -2)];
    let down = book![base(1, -MILLION_EUROS), share(2, b'X', 1, 90_000), extra(3, -1).condition("OAK"), off(4, 2)];
    let back = [(1, 'B', 0, 100_000_000), (2, 'X', 0, 900_000_000), (4, 'D', 0, -2)];
    let risen = [(1, 'B', 0, -100_000_000), (2, 'X', 0, -900_000_000), (4, 'D', 0, 2)];
    let oak = ask(DAY).granted(&["OAK"]).bytes();
    vec![
        Vector::refused("one cent above on the way, and back again", &up, &oak, 6),
        Vector::refused("one cent below on the way, and back again", &down, &oak, 6),
        Vector::priced("the same without the line that leaves", &up, &ask(DAY), &back, 999_999_998),
        Vector::priced("the same below zero", &down, &ask(DAY), &risen, -999_999_998),
        Vector::refused("eleven times over on each of 32 lines", &growing(), &all_granted(), 6),
    ]
}

/// A million euros, and 32 surcharges of a thousand percent of all before: far past what eight bytes hold.
fn growing() -> Vec<u8> {
    let mut records = vec![second::make::Article::new("A1", "").into(), base(1, MILLION_EUROS).into()];
    records.extend((0..32).map(|place| share(2, b'X', 2, 100_000).condition(&format!("N{place}")).into()));
    second::make::book(&records)
}

fn all_granted() -> Vec<u8> {
    let names: Vec<String> = (0..32).map(|place| format!("N{place}")).collect();
    ask(DAY).granted(&names.iter().map(String::as_str).collect::<Vec<_>>()).bytes()
}

fn of_many_pieces() -> Vec<Vector> {
    let top = book![base(1, MILLION_EUROS), share(2, b'X', 1, 90_000)];
    let bottom = book![base(1, -MILLION_EUROS), share(2, b'X', 1, 90_000)];
    let all = ask(DAY).quantity(100_000);
    let up = [(1, 'B', 0, 100_000_000), (2, 'X', 0, 900_000_000)];
    let down = [(1, 'B', 0, -100_000_000), (2, 'X', 0, -900_000_000)];
    vec![
        Vector::priced("the greatest total", &top, &all, &up, 1_000_000_000).total(100_000_000_000_000),
        Vector::priced("the least total", &bottom, &all, &down, -1_000_000_000).total(-100_000_000_000_000),
        Vector::priced("a unit total of nothing", &book![base(1, 0)], &all, &[(1, 'B', 0, 0)], 0),
    ]
}
