//! The packaging call.

mod samples;

use rafttwine::{packaging, Packaging, Refusal, Unit};
use samples::sample;

/// Its numbers, gross behind them, and its units.
fn shown(answer: &Packaging) -> ([Option<i64>; 9], [Option<&str>; 3]) {
    let Packaging { width, height, depth, volume, tare, net, items, packs, gross, length_unit, volume_unit, weight_unit } = answer;
    let units = [length_unit, volume_unit, weight_unit].map(|unit| unit.as_ref().map(Unit::as_str));
    ([*width, *height, *depth, *volume, *tare, *net, *items, *packs, *gross], units)
}

#[test]
fn plain_article_and_what_conditions_add() {
    let book = sample("sample.book");
    let known = [Some("MMT"), Some("LTR"), Some("KGM")];
    for (name, values, units) in [
        ("carton.question", [800, 720, 45, 26, 2_000, 15_000, 2, 1, 32_000].map(Some), known),
        ("carton_oak.question", [800, 720, 45, 26, 2_000, 18_000, 2, 1, 38_000].map(Some), known),
        // A factor is for prices: a carton weighs what it weighs.
        ("carton_factor.question", [800, 720, 45, 26, 2_000, 18_000, 2, 1, 38_000].map(Some), known),
        ("carton_wide.question", [Some(2), None, None, None, None, None, None, None, None], [Some("CMT"), None, None]),
    ] {
        assert_eq!(shown(&packaging(&book, &sample(name)).unwrap()), (values, units));
    }
}

#[test]
fn refusals() {
    let (book, question) = (sample("sample.book"), sample("carton.question"));
    assert_eq!(packaging(&[], &question), Err(Refusal::BrokenBook));
    assert_eq!(packaging(&book, &[]), Err(Refusal::BrokenQuestion));
    for (name, reason) in [
        ("missing.question", Refusal::NoArticle),
        ("june.question", Refusal::NoPackaging),
        ("carton_pounds.question", Refusal::UnfitPackaging),
        ("carton_below.question", Refusal::UnfitPackaging),
    ] {
        assert_eq!(packaging(&book, &sample(name)), Err(reason));
    }
}
