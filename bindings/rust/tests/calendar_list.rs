//! The calendar call that fills a list of records.

mod calendars;
mod samples;

use calendars::{end, expect_worked_by_hand};
use rafttwine::{calendar_list, Day, Refusal, StretchRecord, MOST_STRETCHES};
use samples::{day, sample};

fn refusal(book: &[u8], question: &[u8], end: Day, room: usize) -> Option<Refusal> {
    calendar_list(book, question, end, &mut vec![StretchRecord::default(); room]).err()
}

#[test]
fn every_longest_stretch() {
    let mut room = [StretchRecord::default(); MOST_STRETCHES];
    let stretches = calendar_list(&sample("sample.book"), &sample("calendar.question"), end(), &mut room).unwrap();
    assert_eq!(stretches.len(), 3);
    expect_worked_by_hand(stretches);
}

#[test]
fn refusals() {
    let (book, question) = (sample("sample.book"), sample("calendar.question"));
    assert_eq!(refusal(&[], &question, end(), 3), Some(Refusal::BrokenBook));
    assert_eq!(refusal(&book, &[], end(), 3), Some(Refusal::BrokenQuestion));
    assert_eq!(refusal(&book, &question, day(20240628), 3), Some(Refusal::BadPeriod));
    assert_eq!(refusal(&book, &sample("missing.question"), end(), 3), Some(Refusal::NoArticle));
    assert_eq!(refusal(&book, &question, end(), 2), Some(Refusal::ShortOutput));
    assert_eq!(refusal(&book, &question, end(), 3), None);
}
