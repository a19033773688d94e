//! The text call.

mod samples;

use rafttwine::{text, Refusal, Source};
use samples::sample;

#[test]
fn asked_book_first_then_fallback() {
    let (asked, fallback) = (sample("asked.texts"), sample("fallback.texts"));
    for (number, source, book, content) in [
        (100, Source::Asked, &asked, &b"table"[..]),
        (200, Source::Asked, &asked, &b""[..]),
        (300, Source::Fallback, &fallback, &b"Nachlass"[..]),
    ] {
        let answer = text(&asked, &fallback, number).unwrap();
        assert_eq!((answer.source, answer.part), (source, content));
        assert_eq!(answer.part.as_ptr(), book[answer.place..].as_ptr());
    }
}

#[test]
fn refusals() {
    let (asked, fallback) = (sample("asked.texts"), sample("fallback.texts"));
    assert_eq!(text(&[], &fallback, 100), Err(Refusal::BrokenBook));
    assert_eq!(text(&asked, &fallback[1..], 100), Err(Refusal::BrokenBook));
    assert_eq!(text(&asked, &fallback, 400), Err(Refusal::NoText));
}
