//! What a book packs and nobody means: it is told, and it is so.

mod samples;

use rafttwine::{price_of, Article, Book, Cents, PackagingRow, Percent, PriceRow, Question};
use samples::day;

#[test]
fn what_is_hardly_meant() {
    let mut book = Book::new();
    book.add(PriceRow::base("A1", Cents(100)).condition("OAK")).unwrap();
    book.add(PriceRow::surcharge("A1", Cents(5)).condition("Oak")).unwrap();
    book.add(PriceRow::discount("A1", Percent::hundredths(333)).condition("ÄÖü")).unwrap();
    book.add(PriceRow::discount("A1", Cents(-5)).days(day(20240702), day(20240701))).unwrap();
    book.add(PackagingRow::new("A1").condition("oak").items(1)).unwrap();
    let warnings: Vec<String> = book.warnings().iter().map(ToString::to_string).collect();
    let small = "has small letters and is never granted, since granted names are raised to capitals";
    assert_eq!(
        warnings,
        [
            format!("record 2, PriceRow.condition: \"Oak\" {small}"),
            format!("record 3, PriceRow.condition: \"ÄÖü\" {small}"),
            "record 3, PriceRow.value: a discount of 3.33 % raises the price; what lowers it is below zero".to_string(),
            "record 4, PriceRow.days: the last day, 1 July 2024, is before the first, 2 July 2024, so it never holds".to_string(),
            format!("record 5, PackagingRow.condition: \"oak\" {small}"),
        ]
    );
}

/// What the warnings say is so: each of these rows does what its warning says.
#[test]
fn warnings_are_right() {
    let asked = Question::new("A1", day(20240701)).granted(["Oak", "ü", "ß÷ÿ"]).bytes().unwrap();
    let with = |row: PriceRow| {
        let mut book = Book::new();
        book.add(Article::new("A1")).unwrap().add(PriceRow::base("A1", Cents(100))).unwrap().add(row).unwrap();
        (price_of(&book, &asked).unwrap().unit, book.warnings().len())
    };
    let more = PriceRow::surcharge("A1", Cents(5));
    assert_eq!(with(more.condition("Oak")), (100, 1));
    assert_eq!(with(more.condition("OAK")), (105, 0));
    assert_eq!(with(more.condition("ü")), (100, 1));
    assert_eq!(with(more.condition("Ü")), (105, 0));
    assert_eq!(with(more.condition("ß÷ÿ")), (105, 0));
    assert_eq!(with(more.days(day(20240702), day(20240701))), (100, 1));
    assert_eq!(with(more.days(day(20240701), day(20240701))), (105, 0));
    assert_eq!(with(PriceRow::discount("A1", Cents(1))), (101, 1));
    assert_eq!(with(PriceRow::discount("A1", Cents(-5))), (95, 0));
}
