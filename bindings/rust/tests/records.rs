//! Records of a book: what their layout does not allow is told in a sentence, and what it allows the library accepts.

mod samples;

use rafttwine::{
    price_of, Article, Book, Cents, Day, PackagingRow, Percent, PriceRow, Question, Record, Refusal, Rounding, Rule, Scheme, Sort,
    Way,
};
use samples::day;

#[test]
fn bytes_of_a_book() {
    let row = PriceRow::discount("A1", Percent::hundredths(-333)).condition("ASH").rule(Rule::OfTotalSoFar).sort(Sort::Purchase);
    let row = row.currency("USD").days(day(20240102), Day::LAST).up_to(258).rounding(772).text(16_909_060);
    let mut book = Book::new();
    book.add(Article::new("A1").scheme("S")).unwrap().add(row).unwrap();
    let due = b"\0\0\0\x34\x01\
        \0\x06\x01\x02A1\x01S\
        \0\x25\x02\x02A1\x03ASHPD\x02\x01\x02\x03\x04\0\xff\xff\xfe\xb3USD\
        \x01\x34\xd6\xe6\x05\xf5\xbe\xbf\0\0\x01\x02\x03\x04";
    assert_eq!(book[..], due[..]);
}

#[test]
fn bytes_of_roundings() {
    for (way, byte) in [(Way::Down, 0), (Way::Up, 1), (Way::Commercial, 2)] {
        let mut book = Book::new();
        book.add(Rounding::new(258, way, 66_051).add_before(Cents(-2)).add_after(Cents(3))).unwrap();
        let due = [0, 0, 0, 23, 1, 0, 16, 3, 1, 2, byte, 0, 1, 2, 3, 255, 255, 255, 254, 0, 0, 0, 3];
        assert_eq!(book[..], due);
    }
}

/// A sentence for each price row and rounding that is not in its layout.
fn refused_rows() -> Vec<(Record<'static>, String)> {
    let beyond = |value: i64, most: i64| format!("{value}, and at most {most} either side of zero is allowed");
    let base = PriceRow::base("A1", Cents(1));
    let rounding = Rounding::new(1, Way::Up, 1);
    vec![
        (base.currency("eur").into(), "PriceRow.currency: \"eur\", and three capitals are needed".to_string()),
        (base.currency("EURO").into(), "PriceRow.currency: \"EURO\", and three capitals are needed".to_string()),
        (PriceRow::base("A1", Cents(100_000_001)).into(), format!("PriceRow.value: {}", beyond(100_000_001, 100_000_000))),
        (PriceRow::base("A1", Cents(1 << 32)).into(), format!("PriceRow.value: {}", beyond(1 << 32, 100_000_000))),
        (PriceRow::discount("A1", Percent::hundredths(-100_001)).into(), format!("PriceRow.value: {}", beyond(-100_001, 100_000))),
        (Rounding::new(0, Way::Up, 1).into(), "Rounding.number: 0, and 1 to 65535 are allowed".to_string()),
        (Rounding::new(1, Way::Up, 0).into(), "Rounding.step: 0, and 1 to 1000000 are allowed".to_string()),
        (Rounding::new(1, Way::Up, 1_000_001).into(), "Rounding.step: 1000001, and 1 to 1000000 are allowed".to_string()),
        (rounding.add_before(Cents(1_000_001)).into(), format!("Rounding.before: {}", beyond(1_000_001, 1_000_000))),
        (rounding.add_after(Cents(-1_000_001)).into(), format!("Rounding.after: {}", beyond(-1_000_001, 1_000_000))),
    ]
}

/// And for each packaging row.
fn refused_cartons() -> Vec<(Record<'static>, String)> {
    let carton = PackagingRow::new("A1");
    let lacking = |unit: &str, value: &str| format!("PackagingRow.{unit}: not given, though the {value} is");
    let wrong =
        |unit: &str, letters: &str, allowed: &str| format!("PackagingRow.{unit}: {letters:?}, and one of {allowed} is needed");
    let beyond = |field: &str, value: i64, most: i64| {
        format!("PackagingRow.{field}: {value}, and at most {most} either side of zero is allowed")
    };
    vec![
        (
            PackagingRow::new("*").into(),
            "PackagingRow.condition: empty, and what is added to every article, *, needs one".to_string(),
        ),
        (carton.width(0).into(), lacking("length_unit", "width")),
        (carton.height(1).into(), lacking("length_unit", "height")),
        (carton.depth(1).into(), lacking("length_unit", "depth")),
        (carton.volume(1).into(), lacking("volume_unit", "volume")),
        (carton.tare(1).into(), lacking("weight_unit", "tare")),
        (carton.net(1).into(), lacking("weight_unit", "net")),
        (carton.width(1).length_unit("KGM").into(), wrong("length_unit", "KGM", "CMT, FOT, INH, MMT, MTR")),
        (carton.volume_unit("ltr").into(), wrong("volume_unit", "ltr", "INQ, LTR, MTQ")),
        (carton.weight_unit("").into(), wrong("weight_unit", "", "KGM, LBR, MGM")),
        (carton.tare(10_000_001).weight_unit("KGM").into(), beyond("tare", 10_000_001, 10_000_000)),
        (carton.items(10_001).into(), beyond("items", 10_001, 10_000)),
        (carton.packs(-10_001).into(), beyond("packs", -10_001, 10_000)),
    ]
}

/// And for each scheme.
fn refused_schemes() -> Vec<(Record<'static>, String)> {
    let scheme = Scheme::new("S");
    let trimmed = scheme.trim();
    let alike = |letter: char, whose: &str| {
        format!("Scheme.between_values: {letter:?}, which between trimmed values would look like a property that is {whose}")
    };
    vec![
        (scheme.hidden('\n').into(), "Scheme.hidden: '\\n' is no letter that can be printed".to_string()),
        (scheme.unselected('€').into(), "Scheme.unselected: '€' is not in Latin-1".to_string()),
        (trimmed.into(), "Scheme.between_values: empty, and trimmed values need something between them".to_string()),
        (trimmed.between_values("-").into(), alike('-', "hidden")),
        (trimmed.between_values("X").into(), alike('X', "unselected")),
        (trimmed.between_values("#").hidden('#').into(), alike('#', "hidden")),
        (trimmed.between_values("?").unselected('?').into(), alike('?', "unselected")),
    ]
}

#[test]
fn records_that_are_not_in_their_layout() {
    for (record, sentence) in [refused_rows(), refused_cartons(), refused_schemes()].concat() {
        let mut book = Book::new();
        book.add(Article::new("A1")).unwrap();
        let before = book.clone();
        let error = book.add(record).expect_err(&sentence);
        assert_eq!(error.to_string(), format!("record 2, {sentence}"));
        assert_eq!((error.record(), format!("{}: {}", error.field(), error.sentence())), (Some(2), sentence.clone()));
        assert_eq!(book, before, "a refused record has changed the book: {sentence}");
    }
}

/// Records at the bounds of their layout.
fn records_at_bounds() -> Vec<Record<'static>> {
    let row = |value| PriceRow::surcharge("A1", value).text(u32::MAX).up_to(u32::MAX).rounding(u16::MAX).currency("AZZ");
    let carton = PackagingRow::new("*").condition("C").width(10_000_000).height(-10_000_000).depth(0).volume(0);
    let carton = carton.tare(-10_000_000).net(10_000_000).items(10_000).packs(-10_000);
    let mut records = vec![
        PriceRow::surcharge("*", Cents(100_000_000)).into(),
        PriceRow::discount("A1", Cents(-100_000_000)).into(),
        row(Percent::hundredths(100_000)).into(),
        row(Percent::hundredths(-100_000)).days(Day::LAST, Day::FIRST).into(),
        Rounding::new(1, Way::Down, 1).add_before(Cents(1_000_000)).add_after(Cents(-1_000_000)).into(),
        Rounding::new(u16::MAX, Way::Commercial, 1_000_000).into(),
        PackagingRow::new("A1").items(1).packs(1).into(),
        Scheme::new("S").hidden('\u{a0}').unselected('ÿ').between_values("X").trim().into(),
        Scheme::new("S").between_values("--").show_hidden().trim().into(),
        Scheme::new("S").between_values("-").into(),
    ];
    for length in ["CMT", "FOT", "INH", "MMT", "MTR"] {
        for (volume, weight) in [("INQ", "KGM"), ("LTR", "LBR"), ("MTQ", "MGM")] {
            records.push(carton.length_unit(length).volume_unit(volume).weight_unit(weight).into());
        }
    }
    records
}

#[test]
fn the_library_accepts_records_at_their_bounds() {
    let question = Question::new("none", Day::LAST).bytes().unwrap();
    for record in records_at_bounds() {
        let mut book = Book::new();
        book.add(record).unwrap();
        assert_eq!(price_of(&book, &question), Err(Refusal::NoArticle), "{record:?}");
    }
}
