//! The call that writes a price file from a book.

mod samples;

use rafttwine::{
    file_room, price_file_of, records_of, write_prices, Article, Book, Cents, Percent, Place, PriceRow, Refusal, RefusedAt,
    Rounding, Way,
};
use samples::{day, sample};

fn with_rows(rows: &[PriceRow<'_>]) -> Book {
    let mut book = Book::new();
    for row in rows {
        book.add(*row).unwrap();
    }
    book
}

#[test]
fn a_line_for_each_price_record() {
    let mut book = Book::new();
    book.add(Article::new("A1")).unwrap();
    book.add(PriceRow::base("A1", Cents(10_000)).days(day(20240101), day(20241231)).text(1)).unwrap();
    book.add(Rounding::new(1, Way::Up, 5)).unwrap();
    book.add(PriceRow::discount("A1", Percent::hundredths(-5)).condition("ASH").up_to(9).currency("USD")).unwrap();
    let due = b"A1;;S;B;1;1;100.00;1;EUR;20240101;20241231;0;\nA1;ASH;S;D;1;;-0.05;0;USD;00010101;99991231;9;\n";
    assert_eq!(price_file_of(&book).as_deref(), Ok(&due[..]));
    assert_eq!(write_prices(&book, &mut [0; 200]), Ok(&due[..]));
    assert_eq!(price_file_of(&Book::new()), Ok(vec![]));
}

#[test]
fn quotes_only_where_reading_needs_them() {
    for (article, condition, line) in [
        ("#1", "#1", r##""#1";#1"##),
        ("A;1", ";", r#""A;1";";""#),
        ("\"1\"", "\"", r#""""1""";"""""#),
        ("1\" wide", "A\"", r#"1" wide;A""#),
        ("1\";", " ", r#""1"";"; "#),
    ] {
        let book = with_rows(&[PriceRow::base(article, Cents(1)).condition(condition)]);
        let file = price_file_of(&book).unwrap();
        assert!(file.starts_with(format!("{line};S;B;").as_bytes()), "{}", String::from_utf8_lossy(&file));
        assert_eq!(records_of(&file).as_deref(), Ok(&book[5..]));
    }
}

#[test]
fn the_longest_line_has_room() {
    let quotes = "\"".repeat(40);
    for length in [1, 20, 40] {
        let row = PriceRow::base(&quotes[..length], Cents(-100_000_000)).condition(&quotes[..length.min(20)]);
        let book = with_rows(&[row.text(u32::MAX).up_to(u32::MAX); 50]);
        assert_eq!(price_file_of(&book).map(|file| file.len()), Ok(50 * (71 + 2 * (length + length.min(20)))));
        assert!(71 * 50 <= file_room(book.len()));
    }
}

/// Why there is no file.
fn refusal(book: &[u8], room: usize) -> Option<RefusedAt> {
    write_prices(book, &mut vec![0; room]).err()
}

fn at(place: u64) -> Option<RefusedAt> {
    Some(RefusedAt { refusal: Refusal::BadRow, place: Some(Place::Byte(place)) })
}

#[test]
fn records_that_no_line_can_say() {
    let row = PriceRow::base("A1", Cents(1));
    let book = with_rows(&[row, row.rounding(7), row.rounding(8)]);
    assert_eq!((refusal(&book, 400), refusal(&book, 0)), (at(5 + 36 + 1), at(5 + 36 + 1)));
    assert_eq!(price_file_of(&book).err(), at(5 + 36 + 1));
    assert!(price_file_of(&book).unwrap_err().to_string().starts_with("byte 42: a line of the price file"));
    assert!(matches!(refusal(&sample("sample.book"), 0), Some(RefusedAt { place: Some(Place::Byte(_)), .. })));
    let days = with_rows(&[row]).into_bytes();
    for place in [days.len() - 14, days.len() - 10] {
        for (day, due) in [(99_999_999_u32, None), (100_000_000, at(6)), (u32::MAX, at(6))] {
            let mut late = days.clone();
            late[place..place + 4].copy_from_slice(&day.to_be_bytes());
            assert_eq!(refusal(&late, 100), due);
        }
    }
}

#[test]
fn refusals_without_a_place() {
    let book = with_rows(&[PriceRow::base("A1", Cents(1))]);
    let without_place = |refusal| Some(RefusedAt { refusal, place: None });
    let length = price_file_of(&book).unwrap().len();
    assert_eq!(refusal(&book, length), None);
    assert_eq!(refusal(&book, length - 1), without_place(Refusal::ShortOutput));
    assert_eq!(refusal(&book[1..], length), without_place(Refusal::BrokenBook));
    assert_eq!(refusal(&[], 0), without_place(Refusal::BrokenBook));
}
