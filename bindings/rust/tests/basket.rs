//! The basket call.

mod samples;

use rafttwine::{
    basket, basket_of, basket_room, price_of, Article, Book, Cents, OwnedPrice, PriceRow, Question, Refusal, BASKET_QUESTIONS,
    BASKET_ROOM, PRICE_ROOM,
};
use samples::{day, sample};

const NAMES: [&str; 9] = ["june_oak", "missing", "june_factors", "july_oak", "next_year", "mixed", "fives", "huge", "june"];

fn questions() -> Vec<Vec<u8>> {
    NAMES.iter().map(|name| sample(&format!("{name}.question"))).collect()
}

fn refusal(book: &[u8], questions: &[u8], room: usize) -> Option<Refusal> {
    basket(book, questions, &mut vec![0; room]).err()
}

#[test]
fn each_gets_what_its_question_gets_alone() {
    let (book, asked) = (sample("sample.book"), questions());
    let alone: Vec<Result<OwnedPrice, Refusal>> = asked.iter().map(|question| price_of(&book, question)).collect();
    let units: Vec<Result<i64, u8>> =
        alone.iter().map(|one| one.as_ref().map(|price| price.unit).map_err(|why| why.number())).collect();
    assert_eq!(units, [Ok(10_875), Err(3), Ok(12_688), Ok(11_420), Err(4), Err(5), Ok(11_815), Err(6), Ok(9_667)]);
    assert_eq!(basket_of(&book, &asked), Ok(alone.clone()));
    let mut room = [0; BASKET_ROOM];
    let lent = basket(&book, &asked.concat(), &mut room).unwrap();
    assert_eq!(lent.len(), NAMES.len());
    assert!(lent.map(|one| one.map(OwnedPrice::from)).eq(alone));
}

#[test]
fn no_questions() {
    let book = sample("sample.book");
    assert_eq!(basket(&book, &[], &mut []).unwrap().len(), 0);
    assert_eq!(basket_of::<Vec<u8>>(&book, &[]), Ok(vec![]));
    assert_eq!(basket_of::<Vec<u8>>(&book[1..], &[]), Err(Refusal::BrokenBook));
}

#[test]
fn the_fullest_basket_has_room() {
    let names: Vec<String> = (1..=32).map(|place| format!("N{place}")).collect();
    let mut book = Book::new();
    book.add(Article::new("A1")).unwrap();
    for condition in names.iter().map(String::as_str).chain([""]) {
        for row in [PriceRow::base, PriceRow::surcharge, PriceRow::discount] {
            book.add(row("A1", Cents(-1)).condition(condition)).unwrap();
        }
    }
    let question = Question::new("A1", day(20240630)).granted(names.iter().map(String::as_str)).bytes().unwrap();
    let asked = vec![question.clone(); BASKET_QUESTIONS];
    assert_eq!(basket_of(&book, &asked), Ok(vec![price_of(&book, &question); BASKET_QUESTIONS]));
    assert_eq!(refusal(&book, &asked.concat(), BASKET_ROOM), None);
    assert_eq!(refusal(&book, &asked.concat(), BASKET_ROOM - 1), Some(Refusal::ShortOutput));
    let over = vec![question; BASKET_QUESTIONS + 1];
    assert_eq!(basket_of(&book, &over), Err(Refusal::BrokenQuestion));
    assert_eq!(refusal(&book, &over.concat(), basket_room(over.len())), Some(Refusal::BrokenQuestion));
}

#[test]
fn refusals() {
    let (book, asked) = (sample("sample.book"), questions().concat());
    let line = PRICE_ROOM / 99;
    let written = NAMES.len() * 33 + (3 + 3 + 3 + 2 + 2) * line;
    assert_eq!(refusal(&[], &asked, BASKET_ROOM), Some(Refusal::BrokenBook));
    assert_eq!(refusal(&book, &asked[..asked.len() - 1], BASKET_ROOM), Some(Refusal::BrokenQuestion));
    assert_eq!(refusal(&book, &asked, written - 1), Some(Refusal::ShortOutput));
    assert_eq!(refusal(&book, &asked, written), None);
}

/// Together the pieces would be questions; each by itself is none.
#[test]
fn questions_that_are_not_whole() {
    let (book, question) = (sample("sample.book"), sample("june.question"));
    let (front, back) = question.split_at(10);
    assert_eq!(basket_of(&book, &[front, back]), Err(Refusal::BrokenQuestion));
    assert_eq!(basket_of(&book, &[&question[..question.len() - 1], &[0]]), Err(Refusal::BrokenQuestion));
    assert_eq!(basket_of(&book, &[[&question[..], &question].concat()]), Err(Refusal::BrokenQuestion));
    assert_eq!(basket_of(&[], &[front]), Err(Refusal::BrokenBook));
    assert_eq!(basket_of(&book, &[&question, &[][..]]), Err(Refusal::BrokenQuestion));
}
