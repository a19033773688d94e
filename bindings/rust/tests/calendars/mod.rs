//! What both calendar calls answer to the same question.

use rafttwine::{Day, Refusal, Stretch};

/// The last day of the calendar worked by hand.
pub fn end() -> Day {
    Day::new(2025, 1, 2).expect("a day")
}

/// Holds stretches to those of the calendar worked by hand.
pub fn expect_worked_by_hand(stretches: impl Iterator<Item = Stretch>) {
    let euros = |unit: i64| Ok((unit, "EUR".to_string()));
    let shown = |stretch: Stretch| {
        let outcome = stretch.outcome.map(|price| (price.unit, price.currency.to_string()));
        (stretch.first.number(), stretch.last.number(), outcome)
    };
    let expected =
        [(20240629, 20240630, euros(10_875)), (20240701, 20241231, euros(11_420)), (20250101, 20250102, Err(Refusal::NoBaseLine))];
    assert_eq!(stretches.map(shown).collect::<Vec<_>>(), expected);
}
