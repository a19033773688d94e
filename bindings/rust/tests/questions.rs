//! Questions: what their layout does not allow is told in a sentence, and what it allows the library accepts.

mod samples;

use rafttwine::{price_of, Book, Day, Factor, Property, Question, Refusal, Sort};
use samples::day;

#[test]
fn bytes_of_a_question() {
    let properties = [Property::valued(2, "W"), Property::hidden(3), Property::unselected(4)];
    let question = Question::new("A1", day(20240102)).quantity(9).granted(["ash"]).properties(properties).sort(Sort::Purchase);
    let due = b"\0\0\0\x24\x01\x02A1P\0\0\0\x01\x34\xd6\xe6\0\0\0\x09\x01\x03ash\
        \x03\x02\0\x01W\x03\x01\0\x04\x02\0";
    assert_eq!(question.bytes().unwrap(), due);
}

/// Version 2, unless every factor is 1.
#[test]
fn bytes_of_a_question_with_factors() {
    let asked = || Question::new("A1", day(20240102)).granted(["oak"]);
    let once = b"\0\0\0\x1a\x01\x02A1S\0\0\0\x01\x34\xd6\xe6\0\0\0\x01\x01\x03oak\0";
    assert_eq!(asked().bytes().unwrap(), once);
    let twice = b"\0\0\0\x1f\x01\x02A1S\0\0\0\x01\x34\xd6\xe6\0\0\0\x01\x02\x03oak\x04edge\0";
    assert_eq!(asked().granted_times("edge", Factor::ONE).bytes().unwrap(), twice);
    let factors = b"\0\0\0\x23\x02\x02A1S\0\0\0\x01\x34\xd6\xe6\0\0\0\x01\x02\x03oak\x03\xe8\x04edge\x09\xc4\0";
    let question = asked().granted_times("edge", "2.5".parse().unwrap());
    assert_eq!(question.bytes().unwrap(), factors);
    assert_eq!(question.granted(["oak"]).bytes().unwrap(), once);
}

#[test]
fn questions_that_are_not_in_their_layout() {
    let asked = || Question::new("A1", day(20240630));
    for (question, sentence) in [
        (asked().quantity(100_001), "Question.quantity: 100001, and 1 to 100000 are allowed"),
        (asked().currency("€UR"), "Question.currency: \"€UR\", and three capitals are needed"),
        (asked().granted(["oak", ""]), "Question.granted of place 2: empty, and at least 1 byte is needed"),
        (asked().granted_times("", Factor::ONE), "Question.granted of place 1: empty, and at least 1 byte is needed"),
        (
            asked().granted(["oak"; 32]).granted_times("edge", Factor::ONE),
            "Question.granted: 33 of them, and at most 32 are allowed",
        ),
        (asked().granted(["oak"; 33]), "Question.granted: 33 of them, and at most 32 are allowed"),
        (asked().properties([Property::hidden(1); 33]), "Question.properties: 33 of them, and at most 32 are allowed"),
        (asked().properties([Property::hidden(0)]), "Property.width of place 1: 0, and 1 to 30 are allowed"),
        (asked().properties([Property::unselected(31)]), "Property.width of place 1: 31, and 1 to 30 are allowed"),
        (asked().properties([Property::valued(3, "OAK!")]), "Property.value of place 1: 4 bytes, and at most 3 are allowed"),
        (asked().properties([Property::valued(3, "")]), "Property.value of place 1: empty, and at least 1 byte is needed"),
    ] {
        assert_eq!(question.bytes().expect_err(sentence).to_string(), sentence);
    }
}

#[test]
fn the_library_accepts_questions_at_their_bounds() {
    let (article, name, value) = ("A".repeat(40), "ä".repeat(20), "ÿ".repeat(30));
    let most = Question::new(&article, Day::LAST).quantity(100_000).currency("AAA").granted([name.as_str(); 32]);
    let most = most.properties([Property::valued(30, &value); 32]);
    let ten = Factor::thousandths(10_000).unwrap();
    let factors = (0..32).fold(Question::new("~", Day::FIRST), |asked, _| asked.granted_times(&name, ten));
    for question in [most, factors, Question::new("~", Day::FIRST).properties([Property::unselected(1)])] {
        assert_eq!(price_of(&Book::new(), &question.bytes().unwrap()), Err(Refusal::NoArticle));
    }
}
