//! Refusals: of several faults the first in the order 1, 2, 3, 7 is told; schemes that break the book; and the room for the number.

use super::{ask, book, written, Vector};
use second::make::{self, Article, Scheme};

pub fn vectors() -> Vec<Vector> {
    [ladder(), broken_schemes(), broken_properties(), room()].concat()
}

/// Each rung has the faults of all rungs below it.
fn ladder() -> Vec<Vector> {
    let no_article = make::book(&[Article::new("T2", "").into()]);
    let fair = make::book(&[Article::new("T", "").into()]);
    let question = ask("T").bytes();
    let (broken_book, broken_question) = (&no_article[1..], &question[1..]);
    vec![
        Vector::refused("everything wrong", broken_book, broken_question, 1).room(0),
        Vector::refused("the question, the article, the room", &no_article, broken_question, 2).room(0),
        Vector::refused("the article, the room", &no_article, &question, 3).room(0),
        Vector::refused("the room", &fair, &question, 7).room(0),
        written("nothing wrong", &fair, &ask("T"), "T").room(1),
    ]
}

/// A trimmed list needs a separator that is not the hidden or the unselected character; separators have 8 bytes at most.
fn broken_schemes() -> Vec<Vector> {
    let mut vectors = Vec::new();
    for (shows, scheme) in [
        ("trimmed without a separator", Scheme::new("S", "", "").trim(1)),
        ("trimmed by the default for hidden", Scheme::new("S", "", "-").trim(1)),
        ("trimmed by the default for unselected", Scheme::new("S", "", "X").trim(1)),
        ("trimmed by the given one for hidden", Scheme::new("S", "", "#").characters(b'#', 0).trim(1)),
        ("trimmed by the given one for unselected", Scheme::new("S", "", "#").characters(0, b'#').trim(1)),
        ("trimmed by the default for hidden, which is not shown", Scheme::new("S", "", "-").visibility(0).trim(1)),
        ("trim 2", Scheme::new("S", "", ".").trim(2)),
        ("visibility 2", Scheme::new("S", "", ".").visibility(2)),
        ("a hidden character that is none", Scheme::new("S", "", ".").characters(127, 0)),
        ("an unselected character that is none", Scheme::new("S", "", ".").characters(0, 159)),
        ("a number separator of 9 bytes", Scheme::new("S", "123456789", ".")),
        ("a value separator of 9 bytes", Scheme::new("S", "", "123456789")),
    ] {
        vectors.push(Vector::refused(shows, &book("T", scheme), &ask("T").bytes(), 1));
    }
    vectors
}

fn broken_properties() -> Vec<Vector> {
    let book = book("T", Scheme::new("S", "", "."));
    let mut vectors = Vec::new();
    for (shows, question) in [
        ("width 0", ask("T").unselected(0)),
        ("width 31", ask("T").unselected(31)),
        ("a value longer than its width", ask("T").valued(1, "AB")),
        ("valued without a value", ask("T").valued(1, "")),
        ("hidden with a value", ask("T").property(1, 1, "A")),
        ("unselected with a value", ask("T").property(1, 2, "A")),
        ("state 3", ask("T").property(1, 3, "")),
        ("a blank in a value", ask("T").valued(3, "A B")),
        ("a hard blank in a value", ask("T").valued(3, "A\u{a0}B")),
        ("a backslash in a value", ask("T").valued(3, "A\\B")),
        ("33 properties", (0..33).fold(ask("T"), |question, _| question.hidden(1))),
    ] {
        vectors.push(Vector::refused(shows, &book, &question.bytes(), 2));
    }
    vectors
}

/// `T A.B` has five bytes.
fn room() -> Vec<Vector> {
    let book = book("T", Scheme::new("S", "", "."));
    let question = ask("T").valued(1, "A").valued(1, "B");
    let fits = |shows, room| written(shows, &book, &question, "T A.B").room(room);
    let refused = |shows, room| Vector::refused(shows, &book, &question.bytes(), 7).room(room);
    vec![
        fits("just enough room", 5),
        fits("a byte more", 6),
        fits("much more", 2_000),
        refused("a byte short", 4),
        refused("room for the base number alone", 1),
        refused("no room at all", 0),
    ]
}
