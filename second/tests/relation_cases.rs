//! What the comparison of the two calls for relations relies on: spellings that mean the same, cases of every sort, and a
//! difference that is noticed and made small.

use std::collections::HashSet;

use second::bad_relations::{bad_relations, beside, texts};
use second::calls::{RelationCalls, Second};
use second::letters::capital;
use second::make::{latin1, ListedValue};
use second::random::Random;
use second::refusal::{BAD_DERIVED_NAME, BAD_RELATION, TOO_DEEP};
use second::relation::{Properties, Refused, Relation};
use second::relation_cases::{plain_relation_case, sweep_relations, RelationCase, RelationScene};
use second::relation_compare::{compare_relation, run_relation, RelationCall, RELATION_CALLS};
use second::shrink::shrunk_relation;
use second::{DerivedAnswer, Placed};

/// A relation without its places, which hang on the spelling.
fn meaning(text: &[u8]) -> Option<Relation> {
    let mut relation = Relation::read(text).ok()?;
    relation.assignments.iter_mut().for_each(|assignment| assignment.place = 0);
    Some(relation)
}

#[test]
fn every_spelling_means_the_same() {
    let mut read = 0;
    for index in 0..3_000 {
        let mut scene = RelationScene::new(Random::stream(11, index));
        let tokens = scene.assignments(&[latin1("OAK"), latin1(" \u{c4}"), Vec::new()][..index as usize % 3 + 1]);
        let mut another = RelationScene::new(Random::stream(12, index));
        let (one, other) = (scene.spelled(&tokens), another.spelled(&tokens));
        assert_eq!(meaning(&one), meaning(&other), "{}", one.escape_ascii());
        match Relation::read(&one) {
            Ok(_) => read += 1,
            Err(refused) => assert_eq!(refused.number, TOO_DEEP, "{}", one.escape_ascii()),
        }
    }
    assert!(read > 2_800, "{read}");
}

#[test]
fn both_calls_succeed_on_the_plain_case() {
    let case = plain_relation_case();
    let inputs = case.inputs();
    for call in RELATION_CALLS {
        let outcome = run_relation(call, &Second, &inputs, call.size(&case, &inputs));
        assert_eq!(outcome.answer.number(), 0, "{}", call.name());
    }
    // Both names are derived.
    let names = Relation::read(&inputs.relation).unwrap().names(&Properties::read(&inputs.properties).unwrap());
    assert_eq!(names, Ok(vec![latin1("oak"), latin1("Ash")]));
}

#[test]
fn cases_repeat() {
    for index in 0..50 {
        let once = RelationCase::generate(5, index).inputs();
        assert_eq!(once, RelationCase::generate(5, index).inputs());
        assert_ne!(once, RelationCase::generate(6, index).inputs());
    }
}

#[test]
fn every_number_comes_up() {
    for call in RELATION_CALLS {
        let mut seen = [0u32; 17];
        for index in 0..3_000 {
            let (outcome, difference) = compare_relation(call, &Second, &RelationCase::generate_small(3, index));
            assert!(difference.is_none());
            seen[usize::from(outcome.answer.number())] += 1;
        }
        for (number, count) in (0u8..).zip(seen) {
            let possible = call.possible().contains(&number);
            assert_eq!(possible, count > 0, "{} {number}", call.name());
            assert!(!possible || count >= 20, "{} {number}: {count}", call.name());
        }
    }
}

/// The cases whose inputs are good, with what is read of them.
fn read_cases() -> impl Iterator<Item = (RelationCase, Properties, Relation)> {
    let cases = (0..3_000).map(|index| RelationCase::generate_small(3, index));
    cases.filter_map(|case| {
        let inputs = case.inputs();
        let (properties, relation) = (Properties::read(&inputs.properties)?, Relation::read(&inputs.relation).ok()?);
        Some((case, properties, relation))
    })
}

#[test]
fn every_truth_comes_up() {
    let mut seen = [0; 3];
    for (_, properties, relation) in read_cases() {
        for condition in relation.assignments.iter().filter_map(|assignment| assignment.condition.as_ref()) {
            seen[condition.truth(&properties) as usize] += 1;
        }
    }
    assert!(seen.iter().all(|&count| count > 600), "{seen:?}");
}

#[test]
fn names_up_to_the_bound_come_up() {
    let counts: Vec<usize> =
        read_cases().filter_map(|(_, properties, relation)| relation.names(&properties).ok()).map(|names| names.len()).collect();
    assert!((0..=12).chain([31, 32]).all(|count| counts.contains(&count)));
    let both: HashSet<u8> = read_cases().map(|(case, ..)| case.question.version).collect();
    assert!(both.contains(&1) && both.contains(&2));
}

#[test]
fn the_two_forms_of_16_come_up() {
    let (mut many, mut bad) = (0, 0);
    for (_, properties, mut relation) in read_cases() {
        let Err(refused) = relation.names(&properties) else { continue };
        assert_eq!(refused.number, BAD_DERIVED_NAME);
        relation.assignments.retain(|assignment| assignment.place != refused.place);
        let without = relation.names(&properties);
        *(if without.is_ok_and(|names| names.len() < 32) { &mut bad } else { &mut many }) += 1;
    }
    assert!(many > 15 && bad > 50, "{many} {bad}");
}

#[test]
fn places_of_every_sort_come_up() {
    let mut places = HashSet::new();
    for index in 0..3_000 {
        let inputs = RelationCase::generate_small(3, index).inputs();
        if let Err(refused) = Relation::read(&inputs.relation) {
            places.insert((refused.number, refused.place.min(1_000)));
        }
    }
    assert!((1..=60).all(|place| places.contains(&(BAD_RELATION, place))));
    assert!(places.iter().filter(|(number, _)| *number == TOO_DEEP).count() > 30);
}

#[test]
fn very_long_texts() {
    let mut lengths = Vec::new();
    for index in (31..6_000).step_by(500) {
        let case = RelationCase::generate(4, index);
        for call in RELATION_CALLS {
            assert!(compare_relation(call, &Second, &case).1.is_none());
        }
        lengths.push(case.relation.len());
    }
    assert!(lengths.iter().filter(|&&length| length > 1_000).count() >= 6, "{lengths:?}");
}

#[test]
fn the_sweep_meets_good_and_bad() {
    let mut seen = HashSet::new();
    // Some bytes only, for time's sake.
    for case in sweep_relations().step_by(7) {
        for call in RELATION_CALLS {
            let (outcome, difference) = compare_relation(call, &Second, &case);
            assert!(difference.is_none());
            seen.insert((call as u8, outcome.answer.number()));
        }
    }
    for number in [0, 2, 14, 16] {
        assert!(seen.contains(&(0, number)) && seen.contains(&(1, number)), "{number}");
    }
}

// Bad relations.

#[test]
fn what_the_texts_themselves_derive() {
    let properties = Properties::read(&beside().properties).unwrap();
    let derived = |text: &Vec<u8>| Relation::read(text).and_then(|relation| relation.names(&properties));
    let refused: Vec<Option<Refused>> = texts().iter().map(|text| derived(text).err()).collect();
    let known = [(11, TOO_DEEP, 36), (12, BAD_DERIVED_NAME, 33), (13, BAD_DERIVED_NAME, 28), (15, BAD_DERIVED_NAME, 32 * 13 + 1)];
    for (place, refused) in refused.iter().enumerate() {
        let due = known.iter().find(|(known, ..)| *known == place).map(|&(_, number, place)| Refused { number, place });
        assert_eq!(*refused, due, "text {place}");
    }
    let names: Vec<usize> = texts().iter().filter_map(|text| derived(text).ok()).map(|names| names.len()).collect();
    assert_eq!(names, [1, 2, 1, 1, 1, 1, 1, 1, 1, 0, 1, 2]);
}

#[test]
fn every_byte_of_the_texts_is_changed_to_a_hundred_others() {
    let bytes: usize = texts().iter().map(Vec::len).sum();
    let cuts = bytes + texts().len();
    // The one byte that no name has is not among those that others are changed to.
    assert_eq!(bad_relations().count(), cuts + 100 * bytes + 1);
}

// What is broken is noticed.

/// What becomes of the list and the text before the call, and of the answer behind it. A price is looked at as what it writes.
struct Broken {
    properties: fn(&[u8]) -> Vec<u8>,
    relation: fn(&[u8]) -> Vec<u8>,
    number_and_place: fn(&mut u8, &mut u64),
}

const RIGHT: Broken = Broken { properties: |bytes| bytes.to_vec(), relation: |bytes| bytes.to_vec(), number_and_place: |_, _| {} };

impl RelationCalls for Broken {
    fn price_derived(&self, book: &[u8], question: &[u8], properties: &[u8], relation: &[u8], out: &mut [u8]) -> DerivedAnswer {
        let mut answer = Second.price_derived(book, question, &(self.properties)(properties), &(self.relation)(relation), out);
        (self.number_and_place)(&mut answer.number, &mut answer.place);
        answer
    }

    fn derive(&self, question: &[u8], properties: &[u8], relation: &[u8], out: &mut [u8]) -> Placed {
        let mut answer = Second.derive(question, &(self.properties)(properties), &(self.relation)(relation), out);
        (self.number_and_place)(&mut answer.number, &mut answer.place);
        answer
    }
}

/// The first of many cases on which a broken call is noticed, made small.
fn noticed(call: RelationCall, broken: &Broken) -> RelationCase {
    let differs = |case: &RelationCase| compare_relation(call, broken, case).1.is_some();
    let mut cases = (0..20_000).map(|index| RelationCase::generate_small(9, index));
    shrunk_relation(&cases.find(differs).expect("what is broken is noticed"), &differs)
}

#[test]
fn what_is_right_is_not_noticed() {
    for index in 0..200 {
        let case = RelationCase::generate_small(9, index);
        assert!(RELATION_CALLS.into_iter().all(|call| compare_relation(call, &RIGHT, &case).1.is_none()));
    }
}

#[test]
fn a_place_next_to_the_right_one_is_noticed() {
    for call in RELATION_CALLS {
        let spoils: [fn(&mut u8, &mut u64); 3] = [
            |number, place| *place += u64::from(*number == 14 && *place > 1),
            |number, place| *place += u64::from(*number == 15),
            |number, place| *place += u64::from(*number == 16),
        ];
        for (spoil, length) in spoils.into_iter().zip([1, 17 + 15, 11]) {
            let small = noticed(call, &Broken { number_and_place: spoil, ..RIGHT });
            assert!(small.relation.len() <= length, "{}", small.relation.escape_ascii());
            assert!(small.book.is_empty() && small.properties.is_empty());
        }
    }
}

#[test]
fn a_place_beside_another_number_is_noticed() {
    let spoils: [fn(&mut u8, &mut u64); 5] = [
        |number, place| *place += u64::from(*number == 0),
        |number, place| *place += u64::from(*number == 2),
        |number, place| *place += u64::from(*number == 7),
        |_, place| *place = 0,
        |number, _| *number -= u8::from(*number == 15),
    ];
    for call in RELATION_CALLS {
        for spoil in spoils {
            noticed(call, &Broken { number_and_place: spoil, ..RIGHT });
        }
    }
}

#[test]
fn a_list_of_which_the_last_counts_is_noticed() {
    let small = noticed(RelationCall::Derive, &Broken { properties: reversed, ..RIGHT });
    assert_eq!(small.properties.len(), 2);
}

/// A good list with its properties the other way round.
fn reversed(bytes: &[u8]) -> Vec<u8> {
    if Properties::read(bytes).is_none() {
        return bytes.to_vec();
    }
    let mut listed = Vec::new();
    let mut rest = &bytes[1..];
    while !rest.is_empty() {
        let kind = 1 + usize::from(rest[0]);
        let value = match rest[kind] {
            0 => 0,
            1 => 1 + usize::from(rest[kind + 1]),
            _ => 8,
        };
        listed.push(rest[..=kind + value].to_vec());
        rest = &rest[kind + value + 1..];
    }
    listed.reverse();
    [&bytes[..1], &listed.concat()].concat()
}

#[test]
fn constants_without_their_case_are_noticed() {
    // In a price the names are raised anyway.
    let small = noticed(RelationCall::PriceDerived, &Broken { relation: |text| text.to_ascii_uppercase(), ..RIGHT });
    assert!(small.properties.is_empty());
}

/// The names derived where the properties have other letters in their values.
fn by_letters(case: &RelationCase, relation: &Relation, letter: fn(u8) -> u8) -> Option<Vec<Vec<u8>>> {
    let mut case = case.clone();
    for listed in &mut case.properties {
        if let ListedValue::Text(text) = &mut listed.value {
            *text = text.iter().copied().map(letter).collect();
        }
    }
    relation.names(&Properties::read(&case.inputs().properties)?).ok()
}

#[test]
fn values_that_another_raising_would_change_come_up() {
    let letters: [fn(u8) -> u8; 4] = [
        // Umlauts lost, as if they were not raised; then a byte more that is raised.
        |byte| if byte > 223 && capital(byte) < byte { 161 } else { byte },
        |byte| if byte == 223 { 191 } else { byte },
        |byte| if byte == 247 { 215 } else { byte },
        |byte| if byte == 255 { 223 } else { byte },
    ];
    for letter in letters {
        let count = read_cases()
            .filter(|(case, _, relation)| by_letters(case, relation, |byte| byte) != by_letters(case, relation, letter))
            .count();
        assert!(count > 3, "{count}");
    }
}

#[test]
fn a_reader_that_mends_is_noticed() {
    let mends: [fn(&[u8]) -> Vec<u8>; 6] = [
        // A comma at the end, a semicolon for a comma, a space that cannot be broken, an assignment behind none, another order of a
        // sign, and another word for AND.
        |text| text.strip_suffix(b",").unwrap_or(text).to_vec(),
        |text| text.iter().map(|&byte| if byte == b';' { b',' } else { byte }).collect(),
        |text| text.iter().map(|&byte| if byte == 0xa0 { b' ' } else { byte }).collect(),
        |text| if text.is_empty() { b"$VARCOND='A' IF 1=2".to_vec() } else { text.to_vec() },
        |text| replaced(text, "=<", "<="),
        |text| replaced(text, "LIKE ", "EQ "),
    ];
    for mend in mends {
        noticed(RelationCall::Derive, &Broken { relation: mend, ..RIGHT });
    }
}

fn replaced(text: &[u8], from: &str, to: &str) -> Vec<u8> {
    let text: String = text.iter().map(|&byte| char::from(byte)).collect();
    latin1(&text.replace(from, to))
}
