//! Which records are used: the unconditioned one, and for each granted name the article's own or else that of the star.

use super::{any, ask, book, own, Vector, ITEMS, PACKS, WIDTH};
use second::make::{self, Article, Packaging, Question, Record};

pub fn vectors() -> Vec<Vector> {
    [own_or_any(), first_counts(), granted(), factors(), below_zero_and_back()].concat()
}

/// Whole packs alone; bit 7 of the presence bits.
fn packs(record: Packaging, count: i32) -> Packaging {
    record.value(PACKS, count)
}

fn counted(shows: &str, records: &[Packaging], granted: &[&str], count: i64) -> Vector {
    Vector::packed(shows, &book(records), &ask(granted), 0x80, [0, 0, 0, 0, 0, 0, 0, count], 0)
}

fn own_or_any() -> Vec<Vector> {
    let (plain, mine, star) = (packs(own(""), 1), packs(own("OAK"), 10), packs(any("OAK"), 100));
    let bare = own("OAK");
    vec![
        counted("the star where the article has none", &[plain.clone(), star.clone()], &["OAK"], 101),
        counted("the article's own", &[plain.clone(), mine.clone()], &["OAK"], 11),
        counted("the own one before the star", &[plain.clone(), mine.clone(), star.clone()], &["OAK"], 11),
        counted("the own one behind the star", &[plain.clone(), star.clone(), mine.clone()], &["OAK"], 11),
        counted("all before the unconditioned one", &[star.clone(), mine, plain.clone()], &["OAK"], 11),
        counted("an own one without values hides the star", &[plain.clone(), star.clone(), bare], &["OAK"], 1),
        counted("neither: nothing is added", std::slice::from_ref(&plain), &["OAK"], 1),
        counted("a star that nobody granted", &[plain, star], &["ASH"], 1),
    ]
}

fn first_counts() -> Vec<Vector> {
    let plain = [packs(own(""), 1), packs(own(""), 2)];
    let mine = [packs(own(""), 1), packs(own("OAK"), 10), packs(own("OAK"), 20)];
    let stars = [packs(own(""), 1), packs(any("OAK"), 100), packs(any("OAK"), 200)];
    vec![
        counted("of two unconditioned records the first", &plain, &[], 1),
        counted("of two own records the first", &mine, &["OAK"], 11),
        counted("of two star records the first", &stars, &["OAK"], 101),
    ]
}

/// Cartons weigh what they weigh: a factor multiplies none of them, and 0 takes none away.
fn factors() -> Vec<Vector> {
    let book = book(&[packs(own(""), 1), packs(own("OAK"), 10), packs(any("ASH"), 100)]);
    let with = |names: &[(&str, u16)]| ask(&[]).factored(names);
    let all = [0, 0, 0, 0, 0, 0, 0, 111];
    vec![
        Vector::packed("factors of 0 and 10", &book, &with(&[("oak", 0), ("ash", 10_000), ("OAK", 1)]), 0x80, all, 0),
        Vector::packed("version 2 without names", &book, &with(&[]), 0x80, [0, 0, 0, 0, 0, 0, 0, 1], 0),
        Vector::refused("a factor of 10,001", &book, &with(&[("oak", 10_001)]).bytes(), 2),
    ]
}

fn granted() -> Vec<Vector> {
    let records = [
        packs(own(""), 1),
        packs(own("A"), 10),
        packs(any("B"), 100),
        packs(own("c"), 1_000),
        packs(own("\u{dc}"), 10_000),
        packs(Packaging::new("A2", "A"), 5_000),
    ];
    let other_article = make::book(&[
        Article::new("A1", "").into(),
        Record::from(packs(own(""), 1)),
        Record::from(packs(Packaging::new("A2", ""), 7)),
        Record::from(packs(Packaging::new("A2", "OAK"), 7)),
    ]);
    let one = [0, 0, 0, 0, 0, 0, 0, 1];
    vec![
        counted("two names", &records, &["A", "B"], 111),
        counted("a name is raised", &records, &["a", "b"], 111),
        counted("a repeat counts once", &records, &["a", "A", "b", "B", "a"], 111),
        counted("a condition in small letters is never granted", &records, &["c"], 1),
        counted("an umlaut is raised, and repeats its capital", &records, &["\u{fc}", "\u{dc}"], 10_001),
        counted("nothing granted", &records, &[], 1),
        Vector::packed("records of another article", &other_article, &ask(&["OAK"]), 0x80, one, 0),
        Vector::packed("sort, currency and quantity do not matter", &other_article, &purchase(), 0x80, one, 0),
    ]
}

fn purchase() -> Question {
    ask(&[]).sort(b'P').currency(&[0; 3]).quantity(100_000)
}

/// Signs are tested at the end alone.
fn below_zero_and_back() -> Vec<Vector> {
    let metres = |condition, width| own(condition).value(WIDTH, width).units(b"MTR", &[0; 3], &[0; 3]);
    let records = [metres("", 100), metres("A", -300), metres("B", 250)];
    let started = [packs(own(""), -5), packs(own("A"), 5), packs(own("B"), 1)];
    let items = [own("").value(ITEMS, -1), own("A").value(ITEMS, 2)];
    let width = [50, 0, 0, 0, 0, 0, 0, 0];
    vec![
        Vector::packed("below zero on the way", &book(&records), &ask(&["A", "B"]), 1, width, 0).units(b"MTR\0\0\0\0\0\0"),
        Vector::packed("the other way round", &book(&records), &ask(&["B", "A"]), 1, width, 0).units(b"MTR\0\0\0\0\0\0"),
        Vector::refused("without the one that brings it back", &book(&records), &ask(&["A"]).bytes(), 11),
        counted("from below zero to zero", &started, &["A"], 0),
        counted("from below zero to one", &started, &["A", "B"], 1),
        Vector::refused("below zero with nothing granted", &book(&started), &ask(&[]).bytes(), 11),
        Vector::packed("items below zero at first", &book(&items), &ask(&["A"]), 0x40, [0, 0, 0, 0, 0, 0, 1, 0], 0),
    ]
}
