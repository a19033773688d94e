//! The examples of docs/FORMAT.md are what this crate packs for the same values.

mod samples;

use rafttwine::{
    Article, Book, Cents, Factor, FieldError, PackagingRow, PriceRow, Property, PropertyList, Question, Rounding, Scheme, TextBook,
    Way,
};
use samples::day;
use std::path::Path;

/// The column of examples.
const EXAMPLE: usize = 4;

/// The examples of the tables of fields below these headings, one behind the other.
fn examples(headings: &[&str]) -> Vec<u8> {
    let page = Path::new(env!("CARGO_MANIFEST_DIR")).join("../../docs/FORMAT.md");
    let page = std::fs::read_to_string(page).expect("docs/FORMAT.md stands in the clone");
    headings.iter().flat_map(|heading| below(&page, heading)).collect()
}

fn below(page: &str, heading: &str) -> Vec<u8> {
    let lines = page.lines().skip_while(|line| line.trim_start_matches('#').trim() != heading).skip(1);
    let rows =
        lines.take_while(|line| !line.starts_with('#')).filter(|line| line.starts_with("| ") && !line.starts_with("| Field"));
    let bytes: Vec<u8> = rows.flat_map(|row| hex(row.split('|').nth(EXAMPLE).expect("a column of examples"))).collect();
    assert!(!bytes.is_empty(), "docs/FORMAT.md has no example below {heading}");
    bytes
}

fn hex(cell: &str) -> Vec<u8> {
    let digits = cell.trim().trim_matches('`').as_bytes();
    let byte = |pair: &[u8]| u8::from_str_radix(std::str::from_utf8(pair).unwrap(), 16).expect("hex digits");
    digits.chunks(2).map(byte).collect()
}

#[test]
fn book() -> Result<(), FieldError> {
    let mut book = Book::new();
    book.add(Article::new("T1").scheme("S"))?;
    book.add(PriceRow::base("T1", Cents(12_345)).condition("OAK").days(day(20260101), day(20260630)).rounding(1).text(7))?;
    book.add(Rounding::new(1, Way::Commercial, 10).add_after(Cents(-1)))?;
    book.add(PackagingRow::new("T1").tare(500).net(2_000).items(2).weight_unit("KGM"))?;
    book.add(Scheme::new("S").between_values("/").trim())?;
    let records = ["Article, kind 1", "Price row, kind 2", "Rounding, kind 3", "Packaging, kind 4", "Scheme, kind 5"];
    assert_eq!(book[..], examples(&[&["Price book"][..], &records].concat()));
    assert_eq!(book.warnings(), []);
    Ok(())
}

#[test]
fn question() -> Result<(), FieldError> {
    let question = Question::new("T1", day(20260629)).quantity(2).properties([Property::valued(4, "ASH")]).currency("EUR");
    assert_eq!(question.clone().granted(["oak"]).bytes()?, examples(&["Question"]));
    let factor = Factor::thousandths(2_500)?;
    assert_eq!(question.granted_times("oak", factor).bytes()?, examples(&["Question of version 2"]));
    Ok(())
}

#[test]
fn property_list() -> Result<(), FieldError> {
    let list = PropertyList::new().text("TOP", "oak").number("WIDTH", -1).none("SHELF");
    assert_eq!(list.bytes()?, examples(&["Property list"]));
    Ok(())
}

#[test]
fn text_book() -> Result<(), FieldError> {
    let mut texts = TextBook::new();
    texts.add(7, "Table")?;
    assert_eq!(texts[..], examples(&["Text book"]));
    Ok(())
}
