//! Names: as long as docs/FORMAT.md says and no longer, of bytes that it allows and of no others.

use rafttwine::{
    price_of, Article, Book, Cents, Day, FieldError, PackagingRow, PriceRow, Property, Question, Record, Refusal, Scheme,
};

type Packed = Result<Vec<u8>, FieldError>;

/// A field, something with that name in it, and the least and the most bytes it may have.
type Field = (&'static str, fn(&str) -> Packed, usize, usize);

fn book(record: Record) -> Packed {
    Book::new().add(record).map(|book| book.to_vec())
}

fn question(question: Question) -> Packed {
    question.bytes()
}

const IN_BOOKS: [Field; 9] = [
    ("Article.number", |name| book(Article::new(name).into()), 1, 40),
    ("Article.scheme", |name| book(Article::new("A").scheme(name).into()), 0, 20),
    ("PriceRow.article", |name| book(PriceRow::base(name, Cents(1)).into()), 1, 40),
    ("PriceRow.condition", |name| book(PriceRow::base("A", Cents(1)).condition(name).into()), 0, 20),
    ("PackagingRow.article", |name| book(PackagingRow::new(name).into()), 1, 40),
    ("PackagingRow.condition", |name| book(PackagingRow::new("A").condition(name).into()), 0, 20),
    ("Scheme.id", |name| book(Scheme::new(name).into()), 1, 20),
    ("Scheme.before_values", |name| book(Scheme::new("S").before_values(name).into()), 0, 8),
    ("Scheme.between_values", |name| book(Scheme::new("S").between_values(name).into()), 0, 8),
];

const IN_QUESTIONS: [Field; 3] = [
    ("Question.article", |name| question(Question::new(name, Day::FIRST)), 1, 40),
    ("Question.granted of place 1", |name| question(Question::new("A", Day::FIRST).granted([name])), 1, 20),
    ("Property.value of place 1", |name| question(Question::new("A", Day::FIRST).properties([Property::valued(30, name)])), 1, 30),
];

/// Neither book nor question is broken: the library looks for the article, which is not there.
fn accepted(book: &[u8], question: &[u8]) -> bool {
    price_of(book, question) == Err(Refusal::NoArticle)
}

fn sentence(packed: Packed) -> String {
    let error = packed.expect_err("this is not to be packed");
    format!("{}: {}", error.field(), error.sentence())
}

#[test]
fn as_long_as_they_may_be() {
    let (empty, any) = (Book::new(), Question::new("none", Day::FIRST).bytes().unwrap());
    for (field, pack, least, most) in IN_BOOKS {
        for length in [least, least + 1, most] {
            assert!(accepted(&pack(&"N".repeat(length)).unwrap(), &any), "{field} of {length}");
        }
    }
    for (field, pack, least, most) in IN_QUESTIONS {
        for length in [least, most] {
            assert!(accepted(&empty, &pack(&"\u{ff}".repeat(length)).unwrap()), "{field} of {length}");
        }
    }
}

#[test]
fn no_longer_and_no_shorter() {
    for (field, pack, least, most) in IN_BOOKS.into_iter().chain(IN_QUESTIONS) {
        let long = format!("{field}: {} bytes, and at most {most} are allowed", most + 1);
        assert_eq!(sentence(pack(&"\u{ff}".repeat(most + 1))), long);
        if least > 0 {
            assert_eq!(sentence(pack("")), format!("{field}: empty, and at least 1 byte is needed"));
        }
    }
}

#[test]
fn of_bytes_that_can_be_printed() {
    let question = Question::new("none", Day::FIRST).bytes().unwrap();
    for letter in (0..=300).filter_map(char::from_u32) {
        let packed = book(Article::new(&letter.to_string()).into());
        match u32::from(letter) {
            32..=126 | 160..=255 => assert!(accepted(&packed.unwrap(), &question), "{letter:?}"),
            0..=255 => assert_eq!(sentence(packed), format!("Article.number: {letter:?} is no letter that can be printed")),
            _ => assert_eq!(sentence(packed), format!("Article.number: {letter:?} is not in Latin-1")),
        }
    }
}

#[test]
fn values_have_no_spaces_and_no_backslash() {
    for letter in [' ', '\u{a0}', '\\'] {
        let value = format!("A{letter}B");
        let packed = Question::new("A", Day::FIRST).properties([Property::valued(9, &value)]).bytes();
        assert_eq!(sentence(packed), format!("Property.value of place 1: {value:?} has {letter:?}, which no value may have"));
    }
}
