//! The call that reads a maker's price file.

use rafttwine::{
    price_of, read_prices, record_room, records_of, Article, Book, Cents, Day, Percent, Place, PriceRow, Question, Refusal,
    RefusedAt, Rule, Sort,
};

const FILE: &[u8] = b"\
    # the maker's prices\n\
    \n\
    A1;;S;B;1;table;100.00;1;EUR;20240101;20241231;0;\n\
    \"A;\"\"1\"  ;OAK;P;X;2;oak;12.5;0;USD;20240101;20240630;5;\n\
    \t \n\
    A1;;S;D;1;table;-.05000;1;EUR;20240701;20241231;4294967295;";

fn bad_line(number: u64) -> RefusedAt {
    RefusedAt { refusal: Refusal::BadRow, place: Some(Place::Line(number)) }
}

/// The same rows, made by hand.
fn book() -> Book {
    let (first, middle, last) = (day(20240101), day(20240630), day(20241231));
    let oak = PriceRow::surcharge("A;\"1", Percent::hundredths(1_250)).condition("OAK").sort(Sort::Purchase);
    let off = PriceRow::discount("A1", Cents(-5)).days(day(20240701), last).up_to(u32::MAX).text(1);
    let mut book = Book::new();
    book.add(PriceRow::base("A1", Cents(10_000)).days(first, last).text(1)).unwrap();
    book.add(oak.rule(Rule::OfTotalSoFar).currency("USD").days(first, middle).up_to(5).text(2)).unwrap().add(off).unwrap();
    book
}

fn day(number: u32) -> Day {
    Day::of_number(number).expect("a day")
}

#[test]
fn records_as_they_stand_in_a_book() {
    let book = book();
    let mut room = vec![0; record_room(FILE.len())];
    assert_eq!(read_prices(FILE, &mut room), Ok(&book[5..]));
    assert_eq!(records_of(FILE).as_deref(), Ok(&book[5..]));
    assert_eq!(records_of(b""), Ok(vec![]));
    assert_eq!(records_of(b"#\n\n \n"), Ok(vec![]));
}

#[test]
fn a_book_of_a_file() {
    let mut made = Book::new();
    made.add_price_file(FILE).unwrap().add(Article::new("A1")).unwrap();
    let mut due = book();
    due.add(Article::new("A1")).unwrap();
    assert_eq!(made[..], due[..]);
    let error = made.add(PriceRow::base("", Cents(1))).unwrap_err();
    assert_eq!(error.record(), Some(5), "the file's records count");
    let question = Question::new("A1", day(20240701)).quantity(3).bytes().unwrap();
    assert_eq!(price_of(&made, &question).map(|price| price.total), Ok(3 * 9_995));
}

#[test]
fn a_bad_line_is_told_by_its_number() {
    for (file, line) in [
        (&b"x"[..], 1),
        (b"\n#\n \nA1;;S;B;1;;1,00;1;EUR;;;0;\nx", 4),
        (b"A1;;S;B;1;;1;1;EUR;;;0;\r\n", 1),
        (b"A1;;S;B;1;;1;1;EUR;;;0;\nA1;;S;B;1;;1.001;1;EUR;;;0;\n", 2),
        (b"A1;;S;B;1;;1;1;EUR;;;0;R7\n", 1),
        (b"A1;;S;B;1;;1;1;;;;0;\n", 1),
    ] {
        assert_eq!(records_of(file), Err(bad_line(line)));
        assert_eq!(read_prices(file, &mut []), Err(bad_line(line)));
    }
    let text = bad_line(4).to_string();
    assert_eq!(text, "line 4: a line of the price file makes no price record, or a price record of the book makes no line");
}

#[test]
fn a_bad_file_leaves_the_book() {
    let mut made = book();
    let error = made.add_price_file(b"A1;;S;B;1;;1;1;EUR;;;0;\nA1").unwrap_err();
    assert_eq!((error.field(), error.sentence()), ("Book.price_file", &*bad_line(2).to_string()));
    let rows = 4_194_304 / 35;
    let error = made.add_price_file(&b"A;;S;B;1;;1;1;EUR;;;0;\n".repeat(rows)).unwrap_err();
    let length = book().len() + 35 * rows;
    assert_eq!(error.to_string(), format!("Book: {length} bytes, and at most 4194304 are allowed"));
    assert_eq!(made[..], book()[..]);
}

#[test]
fn room() {
    let length = book().len() - 5;
    let short = Err(RefusedAt { refusal: Refusal::ShortOutput, place: None });
    assert!(read_prices(FILE, &mut vec![0; length]).is_ok());
    assert_eq!(read_prices(FILE, &mut vec![0; length - 1]), short);
    let shortest = b"A;;S;B;1;;1;1;EUR;;;0;";
    assert_eq!(records_of(shortest).map(|records| records.len()), Ok(35));
    assert!(records_of(&[&shortest[..], b"\n"].concat().repeat(100)).is_ok(), "there is room for any file");
}
