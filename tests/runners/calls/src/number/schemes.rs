//! The scheme: which one is taken, and its two separators.

use super::{ask, book, written, Vector};
use second::make::{self, Article, Scheme};

pub fn vectors() -> Vec<Vector> {
    [taken(), separators()].concat()
}

fn taken() -> Vec<Vector> {
    let question = ask("T").valued(1, "A").valued(1, "B");
    let dotted = || Scheme::new("S", "-", ".");
    let dashed = || Scheme::new("S", "/", "_");
    let other = || Scheme::new("s", "/", "_");
    let of = |scheme: &str, records: [Scheme; 2]| {
        make::book(&[Article::new("T", scheme).into(), records[0].clone().into(), records[1].clone().into()])
    };
    let twice = |first: &str, second: &str| {
        let [one, two] = [Article::new("T", first), Article::new("T", second)];
        make::book(&[dotted().into(), one.into(), two.into()])
    };
    let long_name = "a scheme of 20 bytes";
    let long = make::book(&[Article::new("T", long_name).into(), Scheme::new(long_name, "-", ".").into()]);
    vec![
        written("the article names none", &of("", [dotted(), dashed()]), &question, "T"),
        written("the article names one that is not there", &of("Z", [dotted(), dashed()]), &question, "T"),
        written("of two with one id the first", &of("S", [dotted(), dashed()]), &question, "T-A.B"),
        written("the same two the other way round", &of("S", [dashed(), dotted()]), &question, "T/A_B"),
        written("ids are compared as they stand", &of("S", [other(), dotted()]), &question, "T-A.B"),
        written("of two article records the first names the scheme", &twice("S", ""), &question, "T-A.B"),
        written("the first names none", &twice("", "S"), &question, "T"),
        written("an id of 20 bytes", &long, &question, "T-A.B"),
        written(
            "no scheme and a number with blanks",
            &make::book(&[Article::new("T 1", "").into()]),
            &ask("T 1").valued(2, "A"),
            "T 1",
        ),
    ]
}

/// Separators of 0, 1 and 8 bytes. An empty one before the values is one blank; an empty one between them is none.
fn separators() -> Vec<Vector> {
    let mut vectors = Vec::new();
    let question = ask("T").valued(2, "A").unselected(1).hidden(1);
    for (number, value, joined) in [
        ("", "", "T A X-"),
        ("-", "", "T-A X-"),
        ("", "_", "T A _X_-"),
        (" ", " ", "T A  X -"),
        ("12345678", "", "T12345678A X-"),
        ("", "12345678", "T A 12345678X12345678-"),
        ("abcdefgh", "ABCDEFGH", "TabcdefghA ABCDEFGHXABCDEFGH-"),
        ("\u{a0}", "\u{a0}", "T\u{a0}A \u{a0}X\u{a0}-"),
    ] {
        let shows = format!("separators `{number}` and `{value}`");
        vectors.push(written(&shows, &book("T", Scheme::new("S", number, value)), &question, joined));
    }
    // Trimmed: more than the one character, or a character that is not the one in force.
    for (value, hidden, unselected, joined) in [
        ("XX", 0, 0, "T AXXXXX-"),
        ("-", b'#', 0, "T A-X-#"),
        ("X", 0, b'?', "T AX?X-"),
        ("12345678", 0, 0, "T A12345678X12345678-"),
    ] {
        let scheme = Scheme::new("S", "", value).characters(hidden, unselected).trim(1);
        let shows = format!("separator `{value}`, trimmed");
        vectors.push(written(&shows, &book("T", scheme), &question, joined));
    }
    vectors
}
