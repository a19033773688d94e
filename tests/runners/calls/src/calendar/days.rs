//! Days: leap days, the ends of months and years, the ends of time, and how many days a period may have.

use super::{at, without, Vector};
use crate::book;
use crate::parts::{ask, base};
use second::make::{self, Article, Record};
use second::Stretch;

pub fn vectors() -> Vec<Vector> {
    [leap_days(), ends(), first_and_last(), one_day(), longest(), every_day()].concat()
}

/// A period from the day on which a row ends to the next one, which must be the next day and no other.
fn next_to(shows: &str, last: u32, next: u32) -> Vector {
    let book = book![base(1, 100).dates(10101, last)];
    Vector::new(shows, &book, &ask(last), next, &[at(last, last, 100), without(next, next, 4)])
}

fn leap_days() -> Vec<Vector> {
    let leap_row = book![base(1, 100), base(2, 200).dates(20240229, 20240229)];
    let around = [at(20240228, 20240228, 100), at(20240229, 20240229, 200), at(20240301, 20240301, 100)];
    vec![
        next_to("28 February before a leap day", 20240228, 20240229),
        next_to("a leap day", 20240229, 20240301),
        next_to("28 February of a plain year", 20230228, 20230301),
        next_to("28 February 1900, which is no leap year", 19000228, 19000301),
        next_to("29 February 2000, which is one", 20000229, 20000301),
        next_to("28 February 2100", 21000228, 21000301),
        next_to("29 February of the year 4", 40229, 40301),
        Vector::new("a row of a leap day alone", &leap_row, &ask(20240228), 20240301, &around),
    ]
}

fn ends() -> Vec<Vector> {
    let mut vectors = Vec::new();
    for (last, next) in [
        (20230131, 20230201),
        (20230331, 20230401),
        (20230430, 20230501),
        (20230531, 20230601),
        (20230630, 20230701),
        (20230731, 20230801),
        (20230831, 20230901),
        (20230930, 20231001),
        (20231031, 20231101),
        (20231130, 20231201),
        (20231231, 20240101),
        (19991231, 20000101),
        (9991231, 10000101),
    ] {
        vectors.push(next_to("the end of a month or year", last, next));
    }
    let year_rows = book![base(1, 100).dates(20230101, 20231231), base(2, 200).dates(20240101, 20241231)];
    let two_years = [at(20230601, 20231231, 100), at(20240101, 20240630, 200)];
    vectors.push(Vector::new("a price list of a year, and the next", &year_rows, &ask(20230601), 20240630, &two_years));
    vectors
}

fn first_and_last() -> Vec<Vector> {
    let late = book![base(1, 100).dates(20240101, 99991231)];
    let nearly = book![base(1, 100).dates(20240101, 99991230)];
    let early = book![base(1, 100).dates(10102, 99991231)];
    let earliest = book![base(1, 100).dates(10101, 10101)];
    vec![
        Vector::new("31 December 9999 as the end", &late, &ask(99991230), 99991231, &[at(99991230, 99991231, 100)]),
        Vector::new("31 December 9999 alone", &late, &ask(99991231), 99991231, &[at(99991231, 99991231, 100)]),
        next_to("a row that ends a day before the last", 99991230, 99991231),
        Vector::new("the last day of all is refused", &nearly, &ask(99991231), 99991231, &[without(99991231, 99991231, 4)]),
        Vector::new(
            "1 January of year 1 as the start",
            &early,
            &ask(10101),
            10103,
            &[without(10101, 10101, 4), at(10102, 10103, 100)],
        ),
        Vector::new(
            "a row of the first day alone",
            &earliest,
            &ask(10101),
            10102,
            &[at(10101, 10101, 100), without(10102, 10102, 4)],
        ),
        next_to("the year 1 ends", 11231, 20101),
    ]
}

fn one_day() -> Vec<Vector> {
    let book = book![base(1, 100)];
    vec![
        Vector::new("a period of one day", &book, &ask(20240615), 20240615, &[at(20240615, 20240615, 100)]),
        Vector::new("a period of one refused day", &book, &ask(20250615), 20250615, &[without(20250615, 20250615, 4)]),
    ]
}

/// 366 + 365 + 365 days are 1,096, however the leap day lies; three plain years are 1,095.
fn longest() -> Vec<Vector> {
    let book = book![base(1, 100).dates(10101, 99991231)];
    let whole = |shows: &str, first, last| Vector::new(shows, &book, &ask(first), last, &[at(first, last, 100)]);
    let too_long = |shows: &str, first, last| Vector::refused(shows, &book, &ask(first).bytes(), last, 9);
    vec![
        whole("1,096 days, the leap year first", 20240101, 20261231),
        too_long("1,097 days, the leap year first", 20240101, 20270101),
        whole("1,096 days, the leap year last", 20220101, 20241231),
        too_long("1,097 days, the leap year last", 20211231, 20241231),
        whole("1,096 days of plain years", 20250101, 20280101),
        too_long("1,097 days of plain years", 20250101, 20280102),
        whole("1,096 days up to the last of all", 99961231, 99991231),
        too_long("1,097 days up to the last of all", 99961230, 99991231),
        whole("1,096 days from the first of all", 10101, 40101),
        too_long("1,097 days from the first of all", 10101, 40102),
        too_long("the longest period there could be", 10101, 99991231),
    ]
}

/// The days of 2024, 2025 and 2026.
fn three_years() -> Vec<u32> {
    let mut days = Vec::new();
    for (year, february) in [(2024, 29), (2025, 28), (2026, 28)] {
        for (month, length) in (1..).zip([31, february, 31, 30, 31, 30, 31, 31, 30, 31, 30, 31]) {
            days.extend((1..=length).map(|day| year * 10_000 + month * 100 + day));
        }
    }
    days
}

/// A hundred on every day, two hundred on every second: 1,096 stretches of a day, the most there can be.
fn every_day() -> Vec<Vector> {
    let days = three_years();
    let odd: Vec<Record> = days.iter().skip(1).step_by(2).map(|day| base(2, 200).dates(*day, *day).into()).collect();
    let always: [Record; 2] = [Article::new("A1", "").into(), base(1, 100).dates(20240101, 20261231).into()];
    let book = make::book(&[&always[..], &odd].concat());
    let stretches: Vec<Stretch> =
        days.iter().enumerate().map(|(place, day)| at(*day, *day, 100 + place as i64 % 2 * 100)).collect();
    let written = |shows| Vector::new(shows, &book, &ask(20240101), 20261231, &stretches);
    vec![
        written("1,096 stretches of a day each"),
        written("1,096 stretches in room that is just enough").room(21_920, 1_096),
        Vector::refused("1,096 stretches in room that is short by one", &book, &ask(20240101).bytes(), 20261231, 7)
            .room(21_919, 1_095),
    ]
}
