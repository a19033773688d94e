//! What the comparison relies on: cases that repeat, cases of every sort, and cases that are made small.

use std::collections::HashSet;

use second::basket::parts;
use second::calls::Second;
use second::cases::{plain_case, sweep, Case};
use second::compare::{compare, run, Call, Plan, ALL_CALLS, QUESTION_NUMBERS};
use second::counts::Counts;
use second::letters::raised;
use second::make::{Granted, Question};
use second::question_ok;
use second::shrink::shrunk;

#[test]
fn every_call_succeeds_on_the_plain_case() {
    let case = plain_case();
    let inputs = case.inputs();
    let sizes = Plan::of(&case, &inputs).sizes;
    for call in ALL_CALLS {
        let outcome = run(call, &Second, &inputs, sizes);
        assert_eq!(outcome.answer.number(), 0, "{}", call.name());
    }
    assert!(!second::program(&inputs.program).starts_with(b"refusal"));
}

#[test]
fn cases_repeat() {
    for index in 0..50 {
        let once = Case::generate(5, index).inputs();
        assert_eq!(once, Case::generate(5, index).inputs());
        assert_ne!(once, Case::generate(6, index).inputs());
    }
}

#[test]
fn every_number_comes_up() {
    let mut seen = [[0u32; 13]; ALL_CALLS.len()];
    for index in 0..1_500 {
        let case = Case::generate_small(3, index);
        let inputs = case.inputs();
        let sizes = Plan::of(&case, &inputs).sizes;
        for (place, call) in ALL_CALLS.into_iter().enumerate() {
            let (outcome, difference) = compare(call, &Second, &inputs, sizes);
            assert!(difference.is_none());
            seen[place][usize::from(outcome.answer.number())] += 1;
        }
    }
    for (call, counts) in ALL_CALLS.iter().zip(seen) {
        for (number, count) in (0u8..).zip(counts) {
            let possible = call.possible().contains(&number);
            assert_eq!(possible, count > 0, "{} {number}", call.name());
            assert!(!possible || count >= 15, "{} {number}: {count}", call.name());
        }
    }
}

#[test]
fn every_number_of_a_question_in_a_basket_comes_up() {
    let mut seen = [0u32; 13];
    let mut counts = Vec::new();
    for index in 0..3_000 {
        let case = Case::generate_small(3, index);
        let questions = Plan::of(&case, &case.inputs()).questions;
        for number in &questions {
            seen[usize::from(*number)] += 1;
        }
        counts.push(questions.len());
    }
    for (number, count) in (0u8..).zip(seen) {
        assert_eq!(QUESTION_NUMBERS.contains(&number), count >= 15, "{number}: {count}");
    }
    assert!([0, 1, 2, 3, 4, 6, 199, 200].iter().all(|count| counts.contains(count)));
}

/// The questions of many cases, in baskets or not.
fn questions() -> impl Iterator<Item = Question> {
    (0..3_000).map(|index| Case::generate_small(3, index)).flat_map(|case| [vec![case.question], case.basket].concat())
}

#[test]
fn both_versions_come_up_alike() {
    let versions: Vec<u8> = questions().map(|question| question.version).collect();
    let share = |version| versions.iter().filter(|one| **one == version).count() * 100 / versions.len();
    assert!((47..=50).contains(&share(1)) && (47..=50).contains(&share(2)), "{} {}", share(1), share(2));
    assert!([0, 3, 255].iter().all(|version| versions.contains(version)));
    assert!(questions().any(|question| question.version == 2 && question.granted.len() == 32));
}

#[test]
fn factors_of_the_whole_range_come_up() {
    let of_version_2 = questions().filter(|question| question.version == 2);
    let factors: HashSet<u16> = of_version_2.flat_map(|question| question.granted).map(|granted| granted.factor).collect();
    assert!([0, 1, 500, 999, 1_000, 1_001, 9_999, 10_000, 10_001, u16::MAX].iter().all(|factor| factors.contains(factor)));
    for start in (0..10_000).step_by(100) {
        assert!((start..start + 100).any(|factor| factors.contains(&factor)), "{start}");
    }
}

/// The granted names in front of a place that are the same once raised.
fn repeated(question: &Question, place: usize) -> impl Iterator<Item = &Granted> {
    let name = raised(&question.granted[place].name);
    question.granted[..place].iter().filter(move |earlier| raised(&earlier.name) == name)
}

#[test]
fn repeats_with_other_factors_come_up() {
    let with_another = |question: &Question| {
        let places = 0..question.granted.len();
        places.into_iter().any(|place| repeated(question, place).any(|earlier| earlier.factor != question.granted[place].factor))
    };
    assert!(questions().filter(with_another).count() >= 1_000);
}

/// Whether only the factors of some granted names break a question.
fn broken_by_factors(question: &Question, of: impl Fn(usize) -> bool) -> bool {
    let mut mended = question.clone();
    for (_, granted) in mended.granted.iter_mut().enumerate().filter(|(place, _)| of(*place)) {
        granted.factor = granted.factor.min(10_000);
    }
    question.version == 2 && !question_ok(&question.bytes()) && question_ok(&mended.bytes())
}

#[test]
fn factors_out_of_range_come_up() {
    let over: Vec<Question> = questions().filter(|question| broken_by_factors(question, |_| true)).collect();
    assert!(over.len() >= 30, "{}", over.len());
    let is_repeat = |question: &Question, place: usize| repeated(question, place).next().is_some();
    let behind_repeats = over.iter().filter(|question| broken_by_factors(question, |place| is_repeat(question, place)));
    assert!(behind_repeats.count() >= 10);
    assert!(over.iter().any(|question| broken_by_factors(question, |place| !is_repeat(question, place))));
}

#[test]
fn every_byte_of_both_versions_is_changed() {
    let changed: HashSet<Vec<u8>> = sweep().map(|case| case.inputs().question).collect();
    for question in [plain_case().question, plain_case().question.granted(&["oak", "Ash"]).version(1)] {
        let bytes = question.bytes();
        for place in 0..bytes.len() {
            for value in 0..=255 {
                let mut other = bytes.clone();
                other[place] = value;
                assert!(changed.contains(&other));
            }
        }
    }
}

#[test]
fn shrinking_keeps_only_what_matters() {
    let case = plain_case();
    let base_price = |case: &Case| {
        let inputs = case.inputs();
        let answer = second::price(&inputs.book, &inputs.question, &mut [0; 1000]);
        answer.number == 0 && answer.unit >= 10_000
    };
    let small = shrunk(&case, &base_price);
    assert_eq!(small.book.len(), 2);
    assert!(small.question.granted.is_empty() && small.question.properties.is_empty());
    assert!(small.asked.is_empty() && small.fallback.is_empty());
    assert!(small.basket.is_empty());
    assert_eq!(small.end, small.question.date);
    assert!(small.question.version == 1);
}

#[test]
fn shrinking_keeps_only_factors_that_matter() {
    let mut case = plain_case();
    case.question = case.question.factored(&[("ash", 2_000), ("oak", 1_500), ("elm", 0), ("OAK", 7)]);
    case.basket = vec![case.question.clone(); 3];
    let shows_its_factor = |case: &Case| {
        let inputs = case.inputs();
        let mut lines = [0; 1000];
        second::price(&inputs.book, &inputs.question, &mut lines).number == 0 && lines.windows(2).any(|pair| pair == [0x05, 0xDC])
    };
    let small = shrunk(&case, &shows_its_factor);
    assert_eq!(small.question.bytes(), Question::new("A1", 20240228).factored(&[("oak", 1_500)]).bytes());
    // A name that has to stay, and whose factor does not.
    let ash_and_oak = |case: &Case| case.question.granted.len() >= 3 && shows_its_factor(case);
    let small = shrunk(&case, &ash_and_oak);
    assert_eq!(small.question.granted.iter().filter(|granted| granted.factor != 1_000).count(), 1);
    let of_the_basket = |case: &Case| case.basket.iter().any(|question| question.granted.iter().any(|one| one.factor == 7));
    let small = shrunk(&case, &of_the_basket);
    assert_eq!(small.inputs().basket, Question::new("A1", 20240228).factored(&[("OAK", 7)]).bytes());
}

#[test]
fn shrinking_keeps_the_question_of_a_basket_that_matters() {
    let mut case = plain_case();
    case.basket = vec![case.question.clone(); 200];
    case.basket[150].quantity = 9;
    let of_nine = |case: &Case| {
        let inputs = case.inputs();
        let parts = parts(&inputs.book, &inputs.basket).unwrap_or_default();
        parts.iter().any(|part| part.answer.total > part.answer.unit)
    };
    let small = shrunk(&case, &of_nine);
    assert_eq!(small.basket.len(), 1);
    assert_eq!(small.basket[0].quantity, 9);
    assert!(small.basket[0].granted.is_empty() && small.basket[0].properties.is_empty());
    assert_eq!(small.book.len(), 2);
}

#[test]
fn numbers_that_did_not_come_up_are_complained_of() {
    let mut counts = Counts::default();
    for call in ALL_CALLS {
        for number in call.possible() {
            counts.call(call, *number);
        }
    }
    let complaints = counts.complaints();
    assert!(complaints.contains(&"program: number 9 has not come up".to_string()));
    assert!(complaints.contains(&"read_prices: number 13 has not come up".to_string()));
    assert!(complaints.contains(&"write_prices: number 13 has not come up".to_string()));
    assert!(complaints.contains(&"price_derived: number 15 has not come up".to_string()));
    assert!(complaints.contains(&"derive: number 16 has not come up".to_string()));
    assert!(!complaints.iter().any(|complaint| complaint.starts_with("price:")));
    counts.call(Call::Calendar, 10);
    assert!(counts.complaints().contains(&"calendar: number 10 should never come up".to_string()));
}
