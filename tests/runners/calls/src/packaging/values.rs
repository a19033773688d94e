//! Presence bits, values, units and the gross weight.

use super::{any, ask, book, own, Vector, ITEMS, NET, NONE, PACKS, TARE, VOLUME, WIDTH};
use second::make::Packaging;

pub fn vectors() -> Vec<Vector> {
    [p9(), alone(), together(), gross(), each_unit(), units_alone(), greatest()].concat()
}

/// Weights in kilograms: tare, net, and how many items.
fn weighed(tare: i32, net: i32, items: i32) -> Packaging {
    own("").value(TARE, tare).value(NET, net).value(ITEMS, items).units(NONE, NONE, b"KGM")
}

const KILOGRAMS: &[u8; 9] = b"\0\0\0\0\0\0KGM";

fn p9() -> Vec<Vector> {
    let star = any("OAK").value(NET, 3_000).units(NONE, NONE, b"KGM");
    let book = book(&[weighed(2_000, 15_000, 2), star]);
    let plain = [0, 0, 0, 0, 2_000, 15_000, 2, 0];
    let oaken = [0, 0, 0, 0, 2_000, 18_000, 2, 0];
    vec![
        Vector::packed("P9: 2000 and twice 15000", &book, &ask(&[]), 0b0111_0000, plain, 32_000).units(KILOGRAMS),
        Vector::packed("P9: the star adds 3000 to each", &book, &ask(&["oak"]), 0b0111_0000, oaken, 38_000).units(KILOGRAMS),
    ]
}

/// Each value by itself: its bit, its place, and only the unit that it needs.
fn alone() -> Vec<Vector> {
    let mut vectors = Vec::new();
    for place in 0..8 {
        let record = own("").value(place, 7 + place as i32);
        let (record, units) = match place {
            0..=2 => (record.units(b"MMT", NONE, NONE), b"MMT\0\0\0\0\0\0"),
            3 => (record.units(NONE, b"LTR", NONE), b"\0\0\0LTR\0\0\0"),
            4 | 5 => (record.units(NONE, NONE, b"KGM"), KILOGRAMS),
            _ => (record, &[0; 9]),
        };
        let mut values = [0; 8];
        values[place] = 7 + place as i64;
        let shows = format!("value {place} alone");
        vectors.push(Vector::packed(&shows, &book(&[record]), &ask(&[]), 1 << place, values, 0).units(units));
    }
    vectors
}

fn together() -> Vec<Vector> {
    let all = (0..8).fold(Packaging::new("A1", ""), |record, place| record.value(place, 11 + place as i32));
    let zeros = (0..8).fold(Packaging::new("A1", ""), |record, place| record.value(place, 0));
    let half =
        |places: [usize; 4]| places.iter().fold(own(""), |record, place| record.value(*place, 1)).units(b"CMT", b"MTQ", b"LBR");
    vec![
        // 15 and 17 times 16.
        Vector::packed("all eight", &book(&[all]), &ask(&[]), 0xFF, [11, 12, 13, 14, 15, 16, 17, 18], 287).units(b"MMTLTRKGM"),
        Vector::packed("all eight present, and nothing", &book(&[zeros]), &ask(&[]), 0xFF, [0; 8], 0).units(b"MMTLTRKGM"),
        Vector::packed("every second", &book(&[half([0, 2, 4, 6])]), &ask(&[]), 0x55, [1, 0, 1, 0, 1, 0, 1, 0], 0)
            .units(b"CMTMTQLBR"),
        Vector::packed("the others", &book(&[half([1, 3, 5, 7])]), &ask(&[]), 0xAA, [0, 1, 0, 1, 0, 1, 0, 1], 0)
            .units(b"CMTMTQLBR"),
        Vector::packed("a record without values", &book(&[own("")]), &ask(&[]), 0, [0; 8], 0),
    ]
}

/// Gross needs tare, net and items, from whichever record.
fn gross() -> Vec<Vector> {
    let kilograms = |record: Packaging| record.units(NONE, NONE, b"KGM");
    let no_tare = kilograms(own("").value(NET, 5).value(ITEMS, 2));
    let no_net = kilograms(own("").value(TARE, 5).value(ITEMS, 2));
    let no_items = kilograms(own("").value(TARE, 5).value(NET, 2));
    let spread = [kilograms(own("").value(TARE, 5)), kilograms(own("A").value(NET, 7)), own("B").value(ITEMS, 3)];
    let made_of = |records: &[Packaging]| book(records);
    vec![
        Vector::packed("without tare", &made_of(&[no_tare]), &ask(&[]), 0x60, [0, 0, 0, 0, 0, 5, 2, 0], 0).units(KILOGRAMS),
        Vector::packed("without net", &made_of(&[no_net]), &ask(&[]), 0x50, [0, 0, 0, 0, 5, 0, 2, 0], 0).units(KILOGRAMS),
        Vector::packed("without items", &made_of(&[no_items]), &ask(&[]), 0x30, [0, 0, 0, 0, 5, 2, 0, 0], 0).units(KILOGRAMS),
        Vector::packed("no items, but present", &made_of(&[weighed(5, 2, 0)]), &ask(&[]), 0x70, [0, 0, 0, 0, 5, 2, 0, 0], 5)
            .units(KILOGRAMS),
        Vector::packed("nothing weighs nothing", &made_of(&[weighed(0, 0, 9)]), &ask(&[]), 0x70, [0, 0, 0, 0, 0, 0, 9, 0], 0)
            .units(KILOGRAMS),
        Vector::packed("from three records", &made_of(&spread), &ask(&["A", "B"]), 0x70, [0, 0, 0, 0, 5, 7, 3, 0], 26)
            .units(KILOGRAMS),
        Vector::packed("from two of the three", &made_of(&spread), &ask(&["A"]), 0x30, [0, 0, 0, 0, 5, 7, 0, 0], 0)
            .units(KILOGRAMS),
    ]
}

fn each_unit() -> Vec<Vector> {
    let mut vectors = Vec::new();
    let units: [(usize, &[&[u8; 3]]); 3] =
        [(WIDTH, &[b"CMT", b"FOT", b"INH", b"MMT", b"MTR"]), (VOLUME, &[b"INQ", b"LTR", b"MTQ"]), (NET, &[b"KGM", b"LBR", b"MGM"])];
    for (group, (place, names)) in units.into_iter().enumerate() {
        for unit in names {
            let mut given = [NONE; 3];
            given[group] = unit;
            let record = own("").value(place, 1).units(given[0], given[1], given[2]);
            let mut values = [0; 8];
            values[place] = 1;
            let shows = format!("the unit {}", String::from_utf8_lossy(*unit));
            let answered: [u8; 9] = given.map(|unit| *unit).concat().try_into().expect("three units of three bytes");
            vectors.push(Vector::packed(&shows, &book(&[record]), &ask(&[]), 1 << place, values, 0).units(&answered));
        }
    }
    vectors
}

/// A unit counts when it is given, though no value needs it.
fn units_alone() -> Vec<Vector> {
    let all = own("").units(b"FOT", b"INQ", b"MGM");
    let later = [own("").value(PACKS, 4), own("A").units(NONE, b"MTQ", NONE), any("B").units(b"INH", NONE, NONE)];
    let same = [all.clone(), own("A").units(b"FOT", b"INQ", b"MGM")];
    vec![
        Vector::packed("three units and no value", &book(&[all]), &ask(&[]), 0, [0; 8], 0).units(b"FOTINQMGM"),
        Vector::packed("units from later records", &book(&later), &ask(&["A", "B"]), 0x80, [0, 0, 0, 0, 0, 0, 0, 4], 0)
            .units(b"INHMTQ\0\0\0"),
        Vector::packed("the same units twice", &book(&same), &ask(&["A"]), 0, [0; 8], 0).units(b"FOTINQMGM"),
    ]
}

/// 33 records at the bounds: 330,000,000 and 330,000 of each; gross 330,000,000 and 330,000 times that.
fn greatest() -> Vec<Vector> {
    let fill = |record: Packaging| {
        let sizes = (0..6).fold(record, |record, place| record.value(place, 10_000_000));
        sizes.value(ITEMS, 10_000).value(PACKS, 10_000).units(b"MTR", b"MTQ", b"KGM")
    };
    let names: Vec<String> = (1..=32).map(|place| format!("N{place}")).collect();
    let mut records = vec![fill(own(""))];
    records.extend(names.iter().map(|name| fill(own(name))));
    let values = [330_000_000, 330_000_000, 330_000_000, 330_000_000, 330_000_000, 330_000_000, 330_000, 330_000];
    let question = ask(&names.iter().map(String::as_str).collect::<Vec<_>>());
    vec![Vector::packed("33 records at the bounds", &book(&records), &question, 0xFF, values, 108_900_330_000_000)
        .units(b"MTRMTQKGM")]
}
