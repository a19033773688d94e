//! The price call.

mod samples;

use rafttwine::{price, price_of, Article, Book, Cents, Factor, Level, Line, OwnedPrice, PriceRow, Question, Refusal, PRICE_ROOM};
use samples::{day, sample};

const LINE: usize = PRICE_ROOM / 99;

fn refusal(book: &[u8], question: &[u8], room: usize) -> Option<Refusal> {
    price(book, question, &mut vec![0; room]).err()
}

#[test]
fn lines_total_and_unused_names() {
    let mut room = [0; PRICE_ROOM];
    let answer = price(&sample("sample.book"), &sample("june_oak.question"), &mut room).unwrap();
    let lines = [
        Line { text: 100, level: Level::Base, place: None, amount: 10_000, factor: Factor::ONE },
        Line { text: 200, level: Level::Surcharge, place: Some(1), amount: 1_250, factor: Factor::ONE },
        Line { text: 300, level: Level::Discount, place: None, amount: -375, factor: Factor::ONE },
    ];
    assert_eq!(answer.lines().len(), 3);
    assert!(answer.lines().eq(lines));
    assert_eq!((answer.unit, answer.total, answer.currency.as_str(), answer.unused), (10_875, 3 * 10_875, "EUR", 0b10));
    assert!(answer.unused_places().eq([2]));
}

/// 2.5 times oak are 3125; 3.33 % of 13125 are 437.0625.
#[test]
fn lines_with_factors() {
    let kept = price_of(&sample("sample.book"), &sample("june_factors.question")).unwrap();
    let lines = [
        Line { text: 100, level: Level::Base, place: None, amount: 10_000, factor: Factor::ONE },
        Line { text: 200, level: Level::Surcharge, place: Some(2), amount: 3_125, factor: "2.5".parse().unwrap() },
        Line { text: 300, level: Level::Discount, place: None, amount: -437, factor: Factor::ONE },
    ];
    assert_eq!((&kept.lines[..], kept.unit, &kept.unused[..]), (&lines[..], 12_688, &[1][..]));
}

/// A factor at its bound, and one past it, which no question of this crate has.
#[test]
fn a_factor_out_of_range_is_refused() {
    let (book, mut question) = (sample("sample.book"), sample("june_factors.question"));
    let last = question.len() - 3;
    for (factor, reason) in [(10_000_u16, None), (10_001, Some(Refusal::BrokenQuestion))] {
        question[last..last + 2].copy_from_slice(&factor.to_be_bytes());
        assert_eq!(refusal(&book, &question, PRICE_ROOM), reason);
    }
}

#[test]
fn the_same_to_be_kept() {
    let (book, question) = (sample("sample.book"), sample("june_oak.question"));
    let mut room = [0; PRICE_ROOM];
    let lent = price(&book, &question, &mut room).unwrap();
    let lines: Vec<Line> = lent.lines().collect();
    assert_eq!(lines.len(), 3);
    let kept = OwnedPrice { unit: 10_875, total: 3 * 10_875, currency: lent.currency, lines, unused: vec![2] };
    assert_eq!(price_of(&book, &question), Ok(kept));
    assert_eq!(price_of(&book, &sample("missing.question")), Err(Refusal::NoArticle));
}

#[test]
fn the_longest_price_has_room() {
    let names: Vec<String> = (1..=32).map(|place| format!("N{place}")).collect();
    let mut book = Book::new();
    book.add(Article::new("A1")).unwrap();
    for condition in names.iter().map(String::as_str).chain([""]) {
        for row in [PriceRow::base, PriceRow::surcharge, PriceRow::discount] {
            book.add(row("A1", Cents(-1)).condition(condition)).unwrap();
        }
    }
    let question = Question::new("A1", day(20240630)).granted(names.iter().map(String::as_str)).bytes().unwrap();
    let kept = price_of(&book, &question).unwrap();
    assert_eq!((kept.lines.len(), kept.unit, kept.unused.len()), (99, -99, 0));
    assert_eq!(refusal(&book, &question, PRICE_ROOM - 1), Some(Refusal::ShortOutput));
}

#[test]
fn other_sums_worked_by_hand() {
    let book = sample("sample.book");
    for (name, amounts) in [
        ("july_oak.question", vec![10_500, 1_313, -393]),
        ("june.question", vec![10_000, -333]),
        ("fives.question", vec![10_500, 1_315]),
        ("euros.question", vec![10_500, 1_400]),
    ] {
        let mut room = [0; PRICE_ROOM];
        let answer = price(&book, &sample(name), &mut room).unwrap();
        assert_eq!(answer.lines().map(|line| line.amount).collect::<Vec<_>>(), amounts);
        assert_eq!((answer.unit, answer.unused), (amounts.iter().sum(), 0));
    }
}

#[test]
fn refusals() {
    let (book, question) = (sample("sample.book"), sample("june_oak.question"));
    assert_eq!(refusal(&[], &question, PRICE_ROOM), Some(Refusal::BrokenBook));
    assert_eq!(refusal(&book, &[], PRICE_ROOM), Some(Refusal::BrokenQuestion));
    for (name, reason) in [
        ("missing.question", Refusal::NoArticle),
        ("next_year.question", Refusal::NoBaseLine),
        ("mixed.question", Refusal::MixedCurrencies),
        ("huge.question", Refusal::TotalOutOfRange),
    ] {
        assert_eq!(refusal(&book, &sample(name), PRICE_ROOM), Some(reason));
    }
    assert_eq!(LINE, 16);
    assert_eq!(refusal(&book, &question, 3 * LINE - 1), Some(Refusal::ShortOutput));
    assert_eq!(refusal(&book, &question, 3 * LINE), None);
}
