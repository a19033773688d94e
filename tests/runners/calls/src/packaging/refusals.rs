//! Refusals: of several faults the first in the order 1, 2, 3, 8, 11 is told; units that clash; values below zero.

use super::{any, ask, book, own, Vector, NET, NONE, PACKS, TARE};
use second::make::{self, Article, Packaging, Question, Record};

pub fn vectors() -> Vec<Vector> {
    [ladder(), no_record(), clashes(), below_zero(), broken_records()].concat()
}

/// Each rung has the faults of all rungs below it.
fn ladder() -> Vec<Vector> {
    let article: Record = Article::new("A1", "").into();
    let conditioned: Record = own("OAK").value(PACKS, -1).into();
    let plain: Record = own("").value(PACKS, 1).into();
    let no_article = make::book(std::slice::from_ref(&conditioned));
    let no_packaging = make::book(&[article.clone(), conditioned.clone()]);
    let negative = make::book(&[article, conditioned, own("").value(PACKS, 0).into()]);
    let fair = book(&[own("").value(PACKS, 1)]);
    let question = ask(&["OAK"]).bytes();
    let (broken_book, broken_question) = (&no_article[1..], &question[1..]);
    vec![
        Vector::refused("everything wrong", broken_book, broken_question, 1),
        Vector::refused("the question, the article, the packaging", &no_article, broken_question, 2),
        Vector::refused("the article, the packaging", &no_article, &question, 3),
        Vector::refused("an unconditioned packaging but no article", &make::book(&[plain]), &question, 3),
        Vector::refused("the packaging, and a value below zero", &no_packaging, &question, 8),
        Vector::refused("a value below zero", &negative, &question, 11),
        Vector::packed("nothing wrong", &fair, &ask(&["OAK"]), 0x80, [0, 0, 0, 0, 0, 0, 0, 1], 0),
    ]
}

fn no_record() -> Vec<Vector> {
    let star_alone = book(&[any("OAK").value(PACKS, 1)]);
    let other = book(&[Packaging::new("A2", "").value(PACKS, 1)]);
    let star = make::book(&[Article::new("*", "").into(), any("OAK").value(PACKS, 1).into()]);
    vec![
        Vector::refused("an article without packaging", &book(&[]), &ask(&[]).bytes(), 8),
        Vector::refused("the star alone", &star_alone, &ask(&["OAK"]).bytes(), 8),
        Vector::refused("packaging of another article", &other, &ask(&[]).bytes(), 8),
        Vector::refused("an article named by a star", &star, &Question::new("*", 20240615).granted(&["OAK"]).bytes(), 8),
    ]
}

fn clashes() -> Vec<Vector> {
    let kilograms = |condition| own(condition).value(NET, 1).units(NONE, NONE, b"KGM");
    let pounds = |condition| own(condition).value(NET, 1).units(NONE, NONE, b"LBR");
    let mut vectors = Vec::new();
    for (shows, records, granted) in [
        ("length", vec![own("").units(b"MMT", NONE, NONE), own("A").units(b"MTR", NONE, NONE)], vec!["A"]),
        ("volume", vec![own("").units(NONE, b"LTR", NONE), own("A").units(NONE, b"MTQ", NONE)], vec!["A"]),
        ("weight", vec![own("").units(NONE, NONE, b"KGM"), own("A").units(NONE, NONE, b"MGM")], vec!["A"]),
        ("weight, with values", vec![kilograms(""), pounds("A")], vec!["A"]),
        ("a unit that no value needs", vec![kilograms(""), own("A").units(NONE, NONE, b"LBR")], vec!["A"]),
        ("the first unit is not needed", vec![own("").units(NONE, NONE, b"LBR"), kilograms("A")], vec!["A"]),
        ("between two granted records", vec![own(""), kilograms("A"), pounds("B")], vec!["A", "B"]),
        ("with the star's record", vec![kilograms(""), any("A").value(TARE, 1).units(NONE, NONE, b"MGM")], vec!["A"]),
        ("the third agrees with the first", vec![kilograms(""), pounds("A"), kilograms("B")], vec!["A", "B"]),
    ] {
        vectors.push(Vector::refused(&format!("units clash: {shows}"), &book(&records), &ask(&granted).bytes(), 11));
    }
    let unasked = Vector::packed(
        "a clash that nobody granted",
        &book(&[kilograms(""), pounds("A")]),
        &ask(&[]),
        0x20,
        [0, 0, 0, 0, 0, 1, 0, 0],
        0,
    );
    vectors.push(unasked.units(b"\0\0\0\0\0\0KGM"));
    vectors
}

/// Each of the eight values at -1, in one record and by the sum of two.
fn below_zero() -> Vec<Vector> {
    let mut vectors = Vec::new();
    let with_units = |record: Packaging| record.units(b"MMT", b"LTR", b"KGM");
    for place in 0..8 {
        let alone = with_units(own("").value(place, -1));
        vectors.push(Vector::refused(&format!("value {place} at -1"), &book(&[alone]), &ask(&[]).bytes(), 11));
        let summed = [with_units(own("").value(place, 9)), with_units(own("A").value(place, -10))];
        vectors.push(Vector::refused(&format!("value {place} at 9 less 10"), &book(&summed), &ask(&["A"]).bytes(), 11));
    }
    vectors
}

fn broken_records() -> Vec<Vector> {
    let mut clear_bit = own("").value(PACKS, 1);
    clear_bit.present = 0;
    let mut vectors = Vec::new();
    for (shows, record) in [
        ("a value whose bit is clear", clear_bit),
        ("a value whose unit is not given", own("").value(NET, 1)),
        ("a unit of another group", own("").units(b"KGM", NONE, NONE)),
        ("a unit in small letters", own("").units(NONE, NONE, b"kgm")),
        ("a net weight of 10,000,001", own("").value(NET, 10_000_001).units(NONE, NONE, b"KGM")),
        ("10,001 packs", own("").value(PACKS, 10_001)),
        ("-10,001 packs", own("").value(PACKS, -10_001)),
        ("a star without a condition", any("")),
    ] {
        vectors.push(Vector::refused(shows, &book(&[own(""), record]), &ask(&[]).bytes(), 1));
    }
    vectors
}
