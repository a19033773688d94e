//! The call that derives conditions by a relation.

mod samples;

use rafttwine::{derive, derived_of, derived_room, names_of, price_of, PropertyList, Question, Refusal, RefusedRelation, Spot};
use samples::{day, sample};

const DEEP: &[u8] = b"$VARCOND = 'A' IF\n((((((((((((((((A = 1 OR (";

fn at(refusal: Refusal, byte: u64, line: u64, column: u64) -> RefusedRelation {
    RefusedRelation { refusal, spot: Some(Spot { byte, line, column }) }
}

fn nowhere(refusal: Refusal) -> RefusedRelation {
    RefusedRelation { refusal, spot: None }
}

/// Why a relation derives nothing from an empty list.
fn wrong(relation: &[u8]) -> RefusedRelation {
    names_of(&[0], relation).expect_err("this relation is wrong")
}

#[test]
fn the_question_with_the_names() {
    let [question, chosen, relation] = ["june.question", "chosen.properties", "sample.relation"].map(sample);
    let due = Question::new("A1", day(20240630)).granted(["oak", "ash"]).bytes().unwrap();
    assert_eq!(derived_of(&question, &chosen, &relation).as_deref(), Ok(&due[..]));
    let mut room = vec![0; derived_room(question.len())];
    assert_eq!(derive(&question, &chosen, &relation, &mut room), Ok(&due[..]));
    assert_eq!(names_of(&chosen, &relation).unwrap(), ["oak", "ash"]);
    assert_eq!(price_of(&sample("sample.book"), &due).unwrap().unit, 10_875);
}

/// In version 2 each name has the factor 1, which is 1,000 thousandths.
#[test]
fn the_question_in_its_own_version() {
    let [question, chosen, relation] = ["june_version_2.question", "chosen.properties", "sample.relation"].map(sample);
    let derived = derived_of(&question, &chosen, &relation).unwrap();
    let names = b"\x02\x03oak\x03\xe8\x03ash\x03\xe8\0";
    let count = question.len() - 2;
    assert_eq!(derived, [&[0, 0, 0, 34][..], &question[4..count], names].concat());
    assert_eq!(price_of(&sample("sample.book"), &derived).unwrap().unit, 10_875);
}

#[test]
fn the_most_names_have_room() {
    let names: Vec<String> = (0..32).map(|place| format!("{place:020}")).collect();
    let relation: Vec<String> = names.iter().map(|name| format!("$VARCOND='{name}'")).collect();
    assert_eq!(names_of(&[0], relation.join(",").as_bytes()).unwrap(), names);
    for name in ["june.question", "june_version_2.question"] {
        let question = sample(name);
        let room = question.len() + 32 * if question[4] == 1 { 21 } else { 23 };
        let derived = derive(&question, &[0], relation.join(",").as_bytes(), &mut vec![0; room]).map(<[u8]>::len);
        assert_eq!(derived, Ok(room));
        assert!(room <= derived_room(question.len()));
        let short = derive(&question, &[0], relation.join(",").as_bytes(), &mut vec![0; room - 1]).unwrap_err();
        assert_eq!(short, nowhere(Refusal::ShortOutput));
    }
}

#[test]
fn what_is_chosen_decides() {
    let relation = b"$VARCOND = 'A' IF TOP = 'oak', $VARCOND = 'B' IF WIDTH IN (900, '900'), $VARCOND = 'C' IF NOT SPECIFIED TOP";
    for (chosen, names) in [
        (PropertyList::new(), vec!["C"]),
        (PropertyList::new().text("Top", "OAK").none("TOP"), vec!["A"]),
        (PropertyList::new().none("Top").text("TOP", "OAK"), vec!["C"]),
        (PropertyList::new().number("top", 7).number("width", 900), vec!["B"]),
        (PropertyList::new().text("TOP", "").text("WIDTH", "900"), vec!["B"]),
    ] {
        assert_eq!(names_of(&chosen.bytes().unwrap(), relation).unwrap(), names, "{chosen:?}");
    }
}

#[test]
fn a_wrong_relation_is_told_by_line_and_column() {
    for (relation, refused) in [
        (&b""[..], at(Refusal::BadRelation, 1, 1, 1)),
        (b"$VARCOND = 'A',\n", at(Refusal::BadRelation, 17, 2, 1)),
        (b"$VARCOND = 'A'\r\n IF TOP 'A'", at(Refusal::BadRelation, 25, 2, 9)),
        (b"$VARCOND = 'A' IF AND\n", at(Refusal::BadRelation, 22, 1, 22)),
        (DEEP, at(Refusal::DeepRelation, 44, 2, 26)),
        (b"$VARCOND = 'A',\n\n  $VARCOND = ''", at(Refusal::UnfitName, 20, 3, 3)),
    ] {
        assert_eq!(wrong(relation), refused);
        assert_eq!(derive(&sample("june.question"), &[0], relation, &mut []), Err(refused));
    }
    let told = wrong(DEEP).to_string();
    assert_eq!(told, "line 2, column 26: a condition of the relation has parentheses that are over sixteen deep");
}

#[test]
fn refusals_without_a_spot() {
    let [plain, granting, chosen, relation] =
        ["june.question", "june_oak.question", "chosen.properties", "sample.relation"].map(sample);
    let refused = |question: &[u8], properties: &[u8], room| derive(question, properties, &relation, &mut vec![0; room]).err();
    assert_eq!(refused(&[], &chosen, 60), Some(nowhere(Refusal::BrokenQuestion)));
    assert_eq!(refused(&granting, &chosen, 60), Some(nowhere(Refusal::BrokenQuestion)));
    assert_eq!(refused(&plain, &[], 60), Some(nowhere(Refusal::BrokenQuestion)));
    assert_eq!(refused(&plain, &[&chosen[..], &[0]].concat(), 60), Some(nowhere(Refusal::BrokenQuestion)));
    assert_eq!((refused(&plain, &chosen, 29), refused(&plain, &chosen, 30)), (Some(nowhere(Refusal::ShortOutput)), None));
    let told = nowhere(Refusal::ShortOutput).to_string();
    assert_eq!(told, "the lent output is too short");
}

/// The call reads them one behind the other: a hundred thousand of them take no more of the stack than one.
#[test]
fn many_nots() {
    let relation = [&b"$VARCOND = 'A' IF "[..], &b"NOT ".repeat(100_000), b"1 = 1"].concat();
    assert_eq!(names_of(&[0], &relation).unwrap(), ["A"]);
}
