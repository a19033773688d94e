//! A price file that is written: each field, quotes only where reading needs them, and what no line can say.

use super::{done, plain, Vector, BAD_ROW};
use crate::book;
use crate::parts::{base, share};
use second::make::{latin1, Packaging, Price, Rounding, Scheme};

pub fn vectors() -> Vec<Vector> {
    [records(), numbers(), quotes(), unfit(), room()].concat()
}

/// A book of the article `A1` and these rows, and the file that is written, in Latin-1.
fn written(shows: &str, rows: &[Price], file: &str) -> Vector {
    let mut records = vec![second::make::Article::new("A1", "").into()];
    records.extend(rows.iter().cloned().map(second::make::Record::from));
    done(shows, &second::make::book(&records), latin1(file))
}

/// A row of which only the front of its line matters.
fn front(shows: &str, row: Price, front: &str) -> Vector {
    written(shows, &[row], &format!("{front};1.00;1;EUR;20240101;20241231;0;\n"))
}

fn records() -> Vec<Vector> {
    let others = book![Packaging::new("A1", ""), plain(), Rounding::new(7, 0, 5), Scheme::new("S", "", "")];
    let row = "A1;;S;B;1;;1.00;1;EUR;20240101;20241231;0;\n";
    vec![
        done("no records", &second::make::book(&[]), Vec::new()),
        written("no price records", &[], ""),
        written("one", &[plain()], row),
        written("two, in their order", &[base(2, 1), plain()], &format!("A1;;S;B;1;2;0.01;1;EUR;20240101;20241231;0;\n{row}")),
        done("records of other kinds are left out", &others, row.into()),
    ]
}

fn numbers() -> Vec<Vector> {
    let line = |text: &str, value: &str, tail: &str| format!("A1;;S;B;1;{text};{value};1;EUR;{tail};\n");
    let value = |cents: i32, shown: &str| written(shown, &[base(0, cents)], &line("", shown, "20240101;20241231;0"));
    let share_line = "A1;OAK;S;X;2;7;-0.05;0;EUR;20240101;20241231;0;\n";
    vec![
        value(0, "0.00"),
        value(5, "0.05"),
        value(-5, "-0.05"),
        value(-100, "-1.00"),
        value(123_456, "1234.56"),
        value(100_000_000, "1000000.00"),
        value(-100_000_000, "-1000000.00"),
        written("a percentage", &[share(7, b'X', 2, -5).condition("OAK")], share_line),
        written("text numbers", &[base(u32::MAX, 100)], &line("4294967295", "1.00", "20240101;20241231;0")),
        written("no days", &[plain().dates(0, 0)], &line("", "1.00", ";;0")),
        written("short and long days", &[plain().dates(1, 99_999_999)], &line("", "1.00", "00000001;99999999;0")),
        written("quantities", &[plain().up_to(u32::MAX)], &line("", "1.00", "20240101;20241231;4294967295")),
        written(
            "purchase, discount",
            &[Price { sort: b'P', level: b'D', ..plain() }],
            "A1;;P;D;1;;1.00;1;EUR;20240101;20241231;0;\n",
        ),
    ]
}

fn quotes() -> Vec<Vector> {
    let of = |article: &str| Price { article: latin1(article), ..plain() };
    vec![
        front("a number sign in front of an article", of("#1"), "\"#1\";;S;B;1;"),
        front("one further in", of("1#"), "1#;;S;B;1;"),
        front("one in front of a condition", plain().condition("#1"), "A1;#1;S;B;1;"),
        front("a semicolon", of("A;1"), "\"A;1\";;S;B;1;"),
        front("a semicolon in a condition", plain().condition(";"), "A1;\";\";S;B;1;"),
        front("a quote in front", of("\"1"), "\"\"\"1\";;S;B;1;"),
        front("a quote further in", of("1\" x"), "1\" x;;S;B;1;"),
        front("a quote at the end of a condition", plain().condition("A\""), "A1;A\";S;B;1;"),
        front("quotes and a semicolon", of("1\";\""), "\"1\"\";\"\"\";;S;B;1;"),
        front("a quote alone", of("\""), "\"\"\"\";;S;B;1;"),
        front("a space", of(" "), " ;;S;B;1;"),
        front("letters of Latin-1", of("B\u{fc}ro"), "B\u{fc}ro;;S;B;1;"),
    ]
}

/// The head has 5 bytes, the article record 7, each price record 36 and the packaging record 49.
fn unfit() -> Vec<Vector> {
    let refused = |shows: &str, book: &[u8], place: u64| Vector::refused(shows, book, &[], BAD_ROW).at(place);
    let late = 100_000_000;
    let packaging = book![Packaging::new("A1", ""), plain().rounding(1)];
    vec![
        refused("a rounding number", &book![plain().rounding(1)], 13),
        refused("the greatest rounding number", &book![plain(), plain().rounding(u16::MAX)], 49),
        refused("a first day of nine digits", &book![plain().dates(late, 20241231)], 13),
        refused("a last day of nine digits", &book![plain().dates(20240101, late)], 13),
        refused("the first of several", &book![plain(), plain().dates(0, u32::MAX), plain().rounding(1)], 49),
        refused("behind a record of another kind", &packaging, 13 + 49),
        refused("no room either", &book![plain().rounding(1)], 13).room(0),
        Vector::refused("a broken book with such a record", &book![plain().rounding(1)][1..], &[], 1),
        done("a rounding record that no row names", &book![Rounding::new(1, 0, 5)], Vec::new()),
    ]
}

fn room() -> Vec<Vector> {
    let all = written("just enough room", &[plain()], "A1;;S;B;1;;1.00;1;EUR;20240101;20241231;0;\n");
    let length = all.written.len();
    vec![
        all.clone().room(length),
        Vector::refused("a byte short", &all.strings[0], &[], 7).room(length - 1),
        Vector::refused("no room", &all.strings[0], &[], 7).room(0),
        written("nothing to write, and no room", &[], "").room(0),
        Vector::refused("no book", &[], &[], 1).room(0),
    ]
}
