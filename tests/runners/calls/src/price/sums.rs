//! The sums P1 to P7, byte by byte.

use super::Vector;
use crate::book;
use crate::parts::{ask, base, k, share, DAY};
use second::make::Rounding;

pub fn vectors() -> Vec<Vector> {
    [p1_to_p4(), p5_and_p6(), p7()].concat()
}

fn p1_to_p4() -> Vec<Vector> {
    let (k, oak) = (k(), ["oak"]);
    // 12.5 % of 10000 is 1250; 3.33 % of 11250 is 374.625.
    let p1 =
        ["01020304 42 00 0000000000002710 03e8", "00000007 58 01 00000000000004e2 03e8", "80000000 44 00 fffffffffffffe89 03e8"];
    // 12.5 % of 10500 is 1312.5, a half; 3.33 % of 11813 is 393.3729.
    let p2 =
        ["ffffffff 42 00 0000000000002904 03e8", "00000007 58 01 0000000000000521 03e8", "80000000 44 00 fffffffffffffe77 03e8"];
    let p3 = ["01020304 42 00 0000000000002710 03e8", "80000000 44 00 fffffffffffffeb3 03e8"];
    vec![
        Vector::in_hex("P1: the last day of the first half of 2024, with oak", &k, &ask(20240630).granted(&oak), &p1, 10_875),
        Vector::in_hex("P1 three times over", &k, &ask(20240630).granted(&oak).quantity(3), &p1, 10_875).total(32_625),
        Vector::in_hex("P2: the day after, with oak", &k, &ask(20240701).granted(&oak), &p2, 11_420),
        Vector::in_hex("P3: the last day of the first half, without oak", &k, &ask(20240630), &p3, 9_667),
        Vector::refused("P4: no base row holds in 2025", &k, &ask(20250101).bytes(), 4),
        Vector::refused("P4 with oak", &k, &ask(20250101).granted(&oak).bytes(), 4),
        Vector::in_hex("K on its first day", &k, &ask(20240101), &p3, 9_667),
        Vector::refused("K on the day before its first", &k, &ask(20231231).bytes(), 4),
    ]
}

fn p5_and_p6() -> Vec<Vector> {
    // One percent of 50 is half a cent; -0.5 goes to -1, which is farther from zero than 0.
    let cheap = book![base(1, 50), share(2, b'D', 2, -100)];
    let p5 = ["00000001 42 00 0000000000000032 03e8", "00000002 44 00 ffffffffffffffff 03e8"];
    let mut vectors = vec![Vector::in_hex("P5: half a cent of discount is a cent", &cheap, &ask(DAY), &p5, 49)];
    // 12.5 % of 10500 is 1312.5 in each.
    for (way, step, surcharge, unit) in [
        (2, 5, "00000002 58 00 0000000000000523 03e8", 11_815),
        (1, 100, "00000002 58 00 0000000000000578 03e8", 11_900),
        (0, 100, "00000002 58 00 0000000000000514 03e8", 11_800),
    ] {
        let book = book![base(1, 10_500), share(2, b'X', 1, 1_250).rounding(1), Rounding::new(1, way, step)];
        let shows = format!("P6: 1312.5 by way {way} and step {step}");
        let lines = ["00000001 42 00 0000000000002904 03e8", surcharge];
        vectors.push(Vector::in_hex(&shows, &book, &ask(DAY), &lines, unit));
    }
    vectors
}

fn p7() -> Vec<Vector> {
    let book = book![base(1, 700).up_to(9), base(2, 600)];
    let (few, many) = (["00000001 42 00 00000000000002bc 03e8"], ["00000002 42 00 0000000000000258 03e8"]);
    vec![
        Vector::in_hex("P7: nine take the row up to nine", &book, &ask(DAY).quantity(9), &few, 700).total(6_300),
        Vector::in_hex("P7: ten take the row without a bound", &book, &ask(DAY).quantity(10), &many, 600).total(6_000),
    ]
}
