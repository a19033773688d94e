//! Answers in words: the table that a salesperson reads, stretches, amounts, days.

mod samples;

use rafttwine::{calendar_of, packaging, price, price_of, Article, Book, Cents, Day, Percent, PriceRow, Question, PRICE_ROOM};
use samples::{day, sample};

#[test]
fn a_price_as_a_table() {
    let (book, question) = (sample("sample.book"), sample("june_oak.question"));
    let due = "\
Base price                         100.00 EUR
Surcharge for granted condition 1   12.50 EUR
Discount                            -3.75 EUR
---------------------------------------------
One piece                          108.75 EUR
3 pieces                           326.25 EUR
No price line for granted condition 2";
    assert_eq!(price_of(&book, &question).unwrap().to_string(), due);
    assert_eq!(price(&book, &question, &mut [0; PRICE_ROOM]).unwrap().to_string(), due);
}

#[test]
fn a_price_with_texts_and_names() {
    let (asked, fallback) = (sample("asked.texts"), sample("fallback.texts"));
    let price = price_of(&sample("sample.book"), &sample("june_oak.question")).unwrap();
    let due = "\
table      100.00 EUR
            12.50 EUR
Nachlass    -3.75 EUR
---------------------
One piece  108.75 EUR
3 pieces   326.25 EUR
No price line for ash";
    assert_eq!(price.table().texts(&asked, &fallback).granted(&["oak", "ash"]).to_string(), due);
}

#[test]
fn a_factor_stands_behind_its_line() {
    let price = price_of(&sample("sample.book"), &sample("june_factors.question")).unwrap();
    let due = "\
Base price                               100.00 EUR
Surcharge for granted condition 2 x 2.5   31.25 EUR
Discount                                  -4.37 EUR
---------------------------------------------------
One piece                                126.88 EUR
No price line for granted condition 1";
    assert_eq!(price.to_string(), due);
    let asked = sample("asked.texts");
    let lacking = price.table().texts(&asked, &asked).granted(&["ash", "oak"]).to_string();
    assert!(lacking.contains("\n x 2.5 "), "{lacking}");
}

#[test]
fn a_text_that_is_not_there_is_told() {
    let (asked, price) = (sample("asked.texts"), price_of(&sample("sample.book"), &sample("june.question")).unwrap());
    let lacking = price.table().texts(&asked, &asked).to_string();
    assert!(lacking.contains("\nDiscount (text 300: neither text book has the number)   -3.33 EUR\n"), "{lacking}");
    let broken = price.table().texts(&asked, &[]).to_string();
    let reason = "the price book, or one of the text books, is not laid out as such a book";
    assert!(broken.starts_with(&format!("Base price (text 100: {reason})  100.00 EUR\n")), "{broken}");
}

#[test]
fn one_piece_has_one_total() {
    let shown = price_of(&sample("sample.book"), &sample("june.question")).unwrap().to_string();
    assert!(shown.ends_with("\nOne piece    96.67 EUR"), "{shown}");
}

#[test]
fn a_price_of_nothing() {
    let mut book = Book::new();
    book.add(Article::new("A1")).unwrap().add(PriceRow::base("A1", Cents(0))).unwrap();
    let question = Question::new("A1", day(20240630)).quantity(4).bytes().unwrap();
    let due = "Base price  0.00 EUR\n--------------------\nOne piece   0.00 EUR";
    assert_eq!(price_of(&book, &question).unwrap().to_string(), due);
}

#[test]
fn stretches_in_words() {
    let stretches = calendar_of(&sample("sample.book"), &sample("calendar.question"), day(20250101)).unwrap();
    let shown: Vec<String> = stretches.iter().map(ToString::to_string).collect();
    assert_eq!(
        shown,
        [
            "29 June 2024 to 30 June 2024: 108.75 EUR",
            "1 July 2024 to 31 December 2024: 114.20 EUR",
            "1 January 2025: no price, since the article has no base price on that day, in that quantity",
        ]
    );
}

#[test]
fn amounts_and_days() {
    for (cents, shown) in [
        (0, "0.00"),
        (5, "0.05"),
        (-5, "-0.05"),
        (99_999, "999.99"),
        (100_000, "1,000.00"),
        (-123_456_789, "-1,234,567.89"),
        (i64::MIN, "-92,233,720,368,547,758.08"),
    ] {
        assert_eq!(Cents(cents).to_string(), shown);
    }
    assert_eq!(format!("[{:>8}]", Cents(5)), "[    0.05]");
    assert_eq!(Percent::hundredths(-333).to_string(), "-3.33 %");
    assert_eq!((Day::FIRST.to_string(), Day::LAST.to_string()), ("1 January 1".to_string(), "31 December 9999".to_string()));
    assert_eq!(format!("{:?}", day(20240630)), "2024-06-30");
}

#[test]
fn units_by_their_letters() {
    let carton = packaging(&sample("sample.book"), &sample("carton.question")).unwrap();
    assert_eq!(carton.weight_unit.unwrap().to_string(), "KGM");
}
