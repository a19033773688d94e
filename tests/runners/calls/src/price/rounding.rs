//! From a row's value to a line's amount: a percentage's rule, the rounding number, way and step, what is added before and after.

use super::Vector;
use crate::book;
use crate::parts::{ask, base, extra, off, share, DAY};
use second::make::Rounding;

pub fn vectors() -> Vec<Vector> {
    [numbers(), ways(), adds(), greatest(), fractions(), rules(), as_listed()].concat()
}

/// A base row of 1250 under a rounding number.
fn numbers() -> Vec<Vector> {
    let row = |number| base(1, 1_250).rounding(number);
    let down = |number| Rounding::new(number, 0, 100);
    let up = |number| Rounding::new(number, 1, 100);
    let unit = |shows, book: Vec<u8>, cents| Vector::priced(shows, &book, &ask(DAY), &[(1, 'B', 0, cents)], cents);
    vec![
        unit("a fixed row is rounded too", book![row(7), down(7)], 1_200),
        unit("the rounding stands before the row", book![down(7), row(7)], 1_200),
        unit("of two with one number the first counts", book![row(7), down(7), up(7)], 1_200),
        unit("the same two the other way round", book![row(7), up(7), down(7)], 1_300),
        unit("a number that the book lacks: to the cent", book![row(7), down(8), up(0x0107)], 1_250),
        unit("number 0 is none", book![row(0), down(7)], 1_250),
        unit("the greatest number", book![row(0xFFFF), down(0xFF), up(0xFFFF)], 1_300),
        unit("a number of two bytes", book![row(0x0107), down(7), up(0x0107)], 1_300),
    ]
}

/// Cents, then what they come to by steps of 100: down, up, commercial.
const BY_STEPS: [(i32, [i64; 3]); 12] = [
    (300, [300, 300, 300]),
    (301, [300, 400, 300]),
    (349, [300, 400, 300]),
    (350, [300, 400, 400]),
    (399, [300, 400, 400]),
    (0, [0, 0, 0]),
    (-1, [-100, 0, 0]),
    (-49, [-100, 0, 0]),
    (-50, [-100, 0, -100]),
    (-51, [-100, 0, -100]),
    (-150, [-200, -100, -200]),
    (-300, [-300, -300, -300]),
];

fn ways() -> Vec<Vector> {
    let mut vectors = Vec::new();
    for (cents, amounts) in BY_STEPS {
        for (way, amount) in (0..).zip(amounts) {
            let book = book![base(1, cents).rounding(1), Rounding::new(1, way, 100)];
            let shows = format!("{cents} by steps of 100, way {way}");
            vectors.push(Vector::priced(&shows, &book, &ask(DAY), &[(1, 'B', 0, amount)], amount));
        }
    }
    vectors
}

/// Way, added before, added after, and what 1234 comes to by steps of 100.
const WITH_ADDS: [(u8, i32, i32, i64); 12] = [
    (0, 70, 0, 1_300),    // 1304 down
    (1, 70, 0, 1_400),    // 1304 up
    (2, 70, 0, 1_300),    // 1304 to the nearest
    (0, 0, 9, 1_209),     // 1200 and 9
    (1, 0, 9, 1_309),     // 1300 and 9
    (2, 0, -1, 1_199),    // 1200 less 1
    (2, 16, 0, 1_300),    // 1250, a half
    (2, 15, 0, 1_200),    // 1249
    (0, 66, -100, 1_200), // 1300 less 100
    (0, -35, 0, 1_100),   // 1199 down
    (2, -1_284, 0, -100), // -50, a half
    (0, -1_284, 7, -93),  // -50 down to -100, and 7
];

fn adds() -> Vec<Vector> {
    let mut vectors = Vec::new();
    for (way, before, after, amount) in WITH_ADDS {
        let book = book![base(1, 1_234).rounding(1), Rounding::new(1, way, 100).adds(before, after)];
        let shows = format!("1234 by steps of 100, way {way}, {before} before and {after} after");
        vectors.push(Vector::priced(&shows, &book, &ask(DAY), &[(1, 'B', 0, amount)], amount));
    }
    vectors
}

/// The greatest step and the greatest adds: way, before, after, and what 1 cent comes to.
const AT_THE_BOUNDS: [(u8, i32, i32, i64); 6] = [
    (1, 0, 1_000_000, 2_000_000),            // up to 1000000, and as much again
    (0, 0, -1_000_000, -1_000_000),          // down to 0
    (1, 1_000_000, 0, 2_000_000),            // 1000001 up
    (1, -1_000_000, 0, 0),                   // -999999 up
    (0, -1_000_000, -1_000_000, -2_000_000), // -999999 down to -1000000
    (2, 499_999, 0, 1_000_000),              // 500000, a half
];

fn greatest() -> Vec<Vector> {
    let mut vectors = Vec::new();
    for (way, before, after, amount) in AT_THE_BOUNDS {
        let book = book![base(1, 1).rounding(1), Rounding::new(1, way, 1_000_000).adds(before, after)];
        let shows = format!("1 cent by steps of a million, way {way}, {before} before and {after} after");
        vectors.push(Vector::priced(&shows, &book, &ask(DAY), &[(1, 'B', 0, amount)], amount));
    }
    vectors
}

/// A percentage of a base of 100: hundredths of a percent, way, step, amount.
const OF_A_HUNDRED: [(i32, u8, u32, i64); 12] = [
    (3_333, 0, 1, 33),      // 33.33
    (3_333, 1, 1, 34),      // 33.33
    (3_333, 2, 1, 33),      // 33.33
    (-3_333, 0, 1, -34),    // -33.33
    (-3_333, 1, 1, -33),    // -33.33
    (-3_333, 2, 1, -33),    // -33.33
    (50, 2, 1, 1),          // 0.5, a half
    (-50, 2, 1, -1),        // -0.5, a half
    (1, 1, 1, 1),           // 0.01 up
    (-1, 0, 1, -1),         // -0.01 down
    (100_000, 2, 1, 1_000), // a thousand percent
    (250, 2, 5, 5),         // 2.5 by fives, a half
];

fn fractions() -> Vec<Vector> {
    let mut vectors = Vec::new();
    for (hundredths, way, step, amount) in OF_A_HUNDRED {
        let book = book![base(1, 100), share(2, b'X', 1, hundredths).rounding(1), Rounding::new(1, way, step)];
        let shows = format!("{hundredths} hundredths of a percent of 100, way {way}, step {step}");
        vectors.push(Vector::priced(&shows, &book, &ask(DAY), &[(1, 'B', 0, 100), (2, 'X', 0, amount)], 100 + amount));
    }
    vectors
}

/// The fifth trap: rule 1 is of the base lines, not of all lines so far. Ten percent each time, of 10000 or of 15000 or more.
fn rules() -> Vec<Vector> {
    let oak = ask(DAY).granted(&["OAK"]);
    let book = |level, rule| book![base(1, 10_000), extra(2, 5_000), share(3, level, rule, 1_000).condition("OAK")];
    let first = [(1, 'B', 0, 10_000), (2, 'X', 0, 5_000)];
    let lines = |level, amount| [first[0], first[1], (3, level, 1, amount)];
    let two_bases = book![base(1, 10_000), base(2, 500).condition("OAK"), share(3, b'X', 1, 1_000)];
    let both = [(1, 'B', 0, 10_000), (2, 'B', 1, 500), (3, 'X', 0, 1_050)];
    let discounts = book![base(1, 10_000), off(2, -5_000), share(3, b'D', 2, -1_000).condition("OAK")];
    let falling = [(1, 'B', 0, 10_000), (2, 'D', 0, -5_000), (3, 'D', 1, -500)];
    vec![
        Vector::priced("rule 1 on a surcharge", &book(b'X', 1), &oak, &lines('X', 1_000), 16_000),
        Vector::priced("rule 2 on a surcharge", &book(b'X', 2), &oak, &lines('X', 1_500), 16_500),
        Vector::priced("rule 1 on a discount", &book(b'D', 1), &oak, &lines('D', 1_000), 16_000),
        Vector::priced("rule 2 on a discount", &book(b'D', 2), &oak, &lines('D', 1_500), 16_500),
        Vector::priced("rule 1 is of every base line", &two_bases, &oak, &both, 11_550),
        Vector::priced("rule 2 after a discount", &discounts, &oak, &falling, 4_500),
        Vector::priced(
            "a percentage of nothing",
            &book![base(1, 0), share(2, b'X', 1, 1_000)],
            &ask(DAY),
            &[(1, 'B', 0, 0), (2, 'X', 0, 0)],
            0,
        ),
    ]
}

/// What a percentage is of are amounts as they are listed: rounded, with what is added after.
fn as_listed() -> Vec<Vector> {
    let hundreds = Rounding::new(1, 2, 100).adds(0, 50);
    // 1010 comes to 1000 and 50; ten percent of that is 105.
    let bases = book![base(1, 1_010).rounding(1), share(2, b'X', 1, 1_000), hundreds.clone()];
    // 3 percent of 1000 is 30, which comes to 0 and 50; ten percent of 1050 is 105.
    let running = book![base(1, 1_000), share(2, b'X', 1, 300).rounding(1), share(3, b'D', 2, -1_000), hundreds];
    let after_bases = [(1, 'B', 0, 1_050), (2, 'X', 0, 105)];
    let after_running = [(1, 'B', 0, 1_000), (2, 'X', 0, 50), (3, 'D', 0, -105)];
    vec![
        Vector::priced("rule 1 is of base lines as listed", &bases, &ask(DAY), &after_bases, 1_155),
        Vector::priced("rule 2 is of the total of lines as listed", &running, &ask(DAY), &after_running, 945),
    ]
}
