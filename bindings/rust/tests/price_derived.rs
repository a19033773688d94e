//! The call that prices with derived conditions.

mod samples;

use rafttwine::{
    derived_of, derived_price_of, price_derived, price_of, Factor, Level, Line, Refusal, RefusedRelation, Spot, PRICE_ROOM,
};
use samples::sample;

const WRONG: &[u8] = b"$VARCOND = 'A'\n IF";

/// Why there is no price, with so much room for lines.
fn refused(book: &[u8], question: &str, properties: &[u8], relation: &[u8], room: usize) -> Option<RefusedRelation> {
    price_derived(book, &sample(question), properties, relation, &mut vec![0; room]).err()
}

fn nowhere(refusal: Refusal) -> Option<RefusedRelation> {
    Some(RefusedRelation { refusal, spot: None })
}

#[test]
fn lines_total_and_unused_names() {
    let [book, question, chosen, relation] = ["sample.book", "june.question", "chosen.properties", "sample.relation"].map(sample);
    let mut room = [0; PRICE_ROOM];
    let answer = price_derived(&book, &question, &chosen, &relation, &mut room).unwrap();
    let lines = [
        Line { text: 100, level: Level::Base, place: None, amount: 10_000, factor: Factor::ONE },
        Line { text: 200, level: Level::Surcharge, place: Some(1), amount: 1_250, factor: Factor::ONE },
        Line { text: 300, level: Level::Discount, place: None, amount: -375, factor: Factor::ONE },
    ];
    assert!(answer.lines().eq(lines));
    assert_eq!((answer.unit, answer.total, answer.currency.as_str(), answer.unused), (10_875, 10_875, "EUR", 0b10));
}

#[test]
fn the_price_of_the_derived_question() {
    let [book, chosen, relation] = ["sample.book", "chosen.properties", "sample.relation"].map(sample);
    for name in ["june.question", "june_version_2.question", "fives.question"] {
        let question = sample(name);
        let derived = derived_of(&question, &chosen, &relation).unwrap();
        let kept = derived_price_of(&book, &question, &chosen, &relation);
        assert_eq!(kept.unwrap(), price_of(&book, &derived).unwrap());
    }
}

#[test]
fn refusals_in_their_order() {
    let [book, chosen, relation] = ["sample.book", "chosen.properties", "sample.relation"].map(sample);
    let of_relation = |question| refused(&book, question, &chosen, &relation, PRICE_ROOM);
    let cut = Spot { byte: 19, line: 2, column: 4 };
    assert_eq!(refused(&[], "june_oak.question", &[], WRONG, 0), nowhere(Refusal::BrokenBook));
    assert_eq!(refused(&book, "june_oak.question", &chosen, WRONG, 0), nowhere(Refusal::BrokenQuestion));
    assert_eq!(refused(&book, "missing.question", &[], WRONG, 0), nowhere(Refusal::BrokenQuestion));
    let bad = Some(RefusedRelation { refusal: Refusal::BadRelation, spot: Some(cut) });
    assert_eq!(refused(&book, "missing.question", &chosen, WRONG, 0), bad);
    let unfit = refused(&book, "missing.question", &chosen, b" $VARCOND=''", 0).unwrap();
    assert_eq!((unfit.refusal, unfit.spot.map(|spot| spot.byte)), (Refusal::UnfitName, Some(2)));
    assert_eq!(of_relation("missing.question"), nowhere(Refusal::NoArticle));
    assert_eq!(of_relation("next_year.question"), nowhere(Refusal::NoBaseLine));
    assert_eq!(of_relation("mixed.question"), nowhere(Refusal::MixedCurrencies));
    assert_eq!(of_relation("huge.question"), nowhere(Refusal::TotalOutOfRange));
    assert_eq!(refused(&book, "june.question", &chosen, &relation, 47), nowhere(Refusal::ShortOutput));
    assert_eq!(refused(&book, "june.question", &chosen, &relation, 48), None);
}
