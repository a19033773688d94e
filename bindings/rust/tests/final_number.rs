//! The call for the final article number.

mod samples;

use rafttwine::{final_number, final_number_of, Article, Book, Property, Question, Refusal, Scheme, NUMBER_ROOM};
use samples::{day, sample};

fn refusal(book: &[u8], question: &[u8], room: usize) -> Option<Refusal> {
    final_number(book, question, &mut vec![0; room]).err()
}

#[test]
fn values_behind_the_base_number() {
    let book = sample("sample.book");
    for (name, number) in [
        ("padded.question", &b"T100 OAK _--_XXX"[..]),
        ("trimmed.question", &b"T200 OAK_--_XXX"[..]),
        ("june.question", &b"A1"[..]),
        ("june_factors.question", &b"A1"[..]),
    ] {
        assert_eq!(final_number(&book, &sample(name), &mut [0; NUMBER_ROOM]), Ok(number));
    }
}

#[test]
fn the_same_to_be_kept() {
    let book = sample("sample.book");
    assert_eq!(final_number_of(&book, &sample("padded.question")).as_deref(), Ok("T100 OAK _--_XXX"));
    assert_eq!(final_number_of(&book, &sample("missing.question")), Err(Refusal::NoArticle));
}

#[test]
fn letters_of_latin_1() {
    let mut book = Book::new();
    book.add(Article::new("Büro").scheme("S")).unwrap().add(Scheme::new("S").before_values("·").unselected('×')).unwrap();
    let question = Question::new("Büro", day(20240630)).properties([Property::valued(3, "ÖL"), Property::unselected(2)]);
    assert_eq!(final_number_of(&book, &question.bytes().unwrap()).as_deref(), Ok("Büro·ÖL ××"));
}

#[test]
fn the_longest_number_has_room() {
    let (article, value) = ("A".repeat(40), "V".repeat(30));
    let mut book = Book::new();
    book.add(Article::new(&article).scheme("S")).unwrap();
    book.add(Scheme::new("S").before_values("________").between_values("________")).unwrap();
    let question = Question::new(&article, day(20240630)).properties([Property::valued(30, &value); 32]);
    assert_eq!(final_number_of(&book, &question.bytes().unwrap()).unwrap().len(), NUMBER_ROOM);
}

#[test]
fn refusals() {
    let (book, question) = (sample("sample.book"), sample("padded.question"));
    assert_eq!(refusal(&[], &question, NUMBER_ROOM), Some(Refusal::BrokenBook));
    assert_eq!(refusal(&book, &[], NUMBER_ROOM), Some(Refusal::BrokenQuestion));
    assert_eq!(refusal(&book, &sample("missing.question"), NUMBER_ROOM), Some(Refusal::NoArticle));
    assert_eq!(refusal(&book, &question, 15), Some(Refusal::ShortOutput));
    assert_eq!(refusal(&book, &question, 16), None);
}
