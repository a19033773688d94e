//! The calendar call that writes bytes.

mod calendars;
mod samples;

use calendars::{end, expect_worked_by_hand};
use rafttwine::{calendar, calendar_of, Article, Book, Cents, Day, PriceRow, Question, Refusal, CALENDAR_ROOM, MOST_STRETCHES};
use samples::{day, sample};

fn refusal(book: &[u8], question: &[u8], end: Day, room: usize) -> Option<Refusal> {
    calendar(book, question, end, &mut vec![0; room]).err()
}

#[test]
fn every_longest_stretch() {
    let mut room = [0; CALENDAR_ROOM];
    let stretches = calendar(&sample("sample.book"), &sample("calendar.question"), end(), &mut room).unwrap();
    assert_eq!(stretches.len(), 3);
    expect_worked_by_hand(stretches);
}

#[test]
fn every_longest_stretch_to_be_kept() {
    let (book, question) = (sample("sample.book"), sample("calendar.question"));
    expect_worked_by_hand(calendar_of(&book, &question, end()).unwrap().into_iter());
    assert_eq!(calendar_of(&book, &question, day(20240628)), Err(Refusal::BadPeriod));
}

/// With 2.5 times oak: in July 3281.25 on top of 10500, and 3.33 % of 13781 are 458.9073.
#[test]
fn a_factor_counts_on_every_day() {
    let stretches = calendar_of(&sample("sample.book"), &sample("calendar_factors.question"), end()).unwrap();
    let units: Vec<_> = stretches.iter().map(|stretch| stretch.outcome.map(|price| price.unit)).collect();
    assert_eq!(units, [Ok(12_688), Ok(13_322), Err(Refusal::NoBaseLine)]);
}

#[test]
fn the_longest_calendar_has_room() {
    let days = (20240101..=20261231).filter_map(|number| Day::of_number(number).ok());
    let mut book = Book::new();
    book.add(Article::new("A1")).unwrap();
    for (cents, first) in (1..).zip(days) {
        book.add(PriceRow::base("A1", Cents(cents)).days(first, Day::LAST)).unwrap();
    }
    let question = Question::new("A1", day(20240101)).bytes().unwrap();
    let stretches = calendar_of(&book, &question, day(20261231)).unwrap();
    assert_eq!(stretches.len(), MOST_STRETCHES);
    assert!(stretches.iter().all(|stretch| stretch.first == stretch.last && stretch.outcome.is_ok()));
}

#[test]
fn refusals() {
    let (book, question) = (sample("sample.book"), sample("calendar.question"));
    assert_eq!(refusal(&[], &question, end(), CALENDAR_ROOM), Some(Refusal::BrokenBook));
    assert_eq!(refusal(&book, &[], end(), CALENDAR_ROOM), Some(Refusal::BrokenQuestion));
    assert_eq!(refusal(&book, &question, day(20240628), CALENDAR_ROOM), Some(Refusal::BadPeriod));
    assert_eq!(refusal(&book, &sample("missing.question"), end(), CALENDAR_ROOM), Some(Refusal::NoArticle));
    assert_eq!(refusal(&book, &question, end(), 3 * 20 - 1), Some(Refusal::ShortOutput));
    assert_eq!(refusal(&book, &question, end(), 3 * 20), None);
}
