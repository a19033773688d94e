//! The thirteen fields of a line: what each may hold, how many there are, and quotes around them.

use super::{bad, plain, read, Vector, PLAIN};
use second::make::{latin1, Price};

pub fn vectors() -> Vec<Vector> {
    [names(), letters(), values(), days(), quantities(), counts(), quotes()].concat()
}

/// The fields of a plain line, and one of them changed.
fn with(place: usize, field: &str) -> String {
    let mut fields: Vec<&str> = PLAIN.split(';').collect();
    fields[place] = field;
    fields.join(";")
}

fn good(place: usize, field: &str, row: Price) -> Vector {
    read(&format!("field {}: {field}", place + 1), &with(place, field), &[row])
}

fn wrong(place: usize, fields: &[&str]) -> Vec<Vector> {
    fields.iter().map(|field| bad(&format!("field {}: {field:?}", place + 1), &with(place, field), 1)).collect()
}

fn names() -> Vec<Vector> {
    let of = |article: &str| Price { article: latin1(article), ..plain() };
    let (forty, twenty) = ("A".repeat(40), "C".repeat(20));
    let mut vectors = vec![
        good(0, "A", of("A")),
        good(0, &forty, of(&forty)),
        good(0, " a\u{a0}\u{ff}~", of(" a\u{a0}\u{ff}~")),
        good(0, "*", of("*")),
        good(1, &twenty, plain().condition(&twenty)),
        good(1, "#oak", plain().condition("#oak")),
    ];
    vectors.extend(wrong(0, &["", &"A".repeat(41), "A\t", "\u{7f}", "\u{9f}"]));
    vectors.extend(wrong(1, &[&"C".repeat(21), "\u{1}", "\u{80}"]));
    vectors.extend(wrong(5, &["\t", "text\u{7f}", "\u{81}"]));
    vectors
}

fn letters() -> Vec<Vector> {
    let mut vectors = vec![
        good(2, "P", plain().sort(b'P')),
        good(3, "X", Price { level: b'X', ..plain() }),
        good(3, "D", Price { level: b'D', ..plain() }),
        good(4, "2", Price { rule: 2, ..plain() }),
        good(8, "QQQ", plain().currency(b"QQQ")),
    ];
    vectors.extend(wrong(2, &["", "s", "B", "SP", " S", "S "]));
    vectors.extend(wrong(3, &["", "b", "S", "BX"]));
    vectors.extend(wrong(4, &["", "0", "3", "01", "1.", "A"]));
    vectors.extend(wrong(7, &["", "2", "00", "01", "1.0", "J"]));
    vectors.extend(wrong(8, &["", "eur", "EU", "EURO", "E1R", "E\u{dc}R", "EU "]));
    vectors.extend(wrong(12, &["R", " ", "0"]));
    vectors
}

fn values() -> Vec<Vector> {
    let cents = |value| Price { value, ..plain() };
    let mut vectors: Vec<Vector> = [
        ("12.5", 1_250),
        ("12.50", 1_250),
        ("12.500", 1_250),
        ("0012", 1_200),
        ("5.", 500),
        (".5", 50),
        ("-.05", -5),
        ("-0.00", 0),
        ("0", 0),
        ("1000000.000000000000000000000", 100_000_000),
        ("-1000000", -100_000_000),
        ("000000000000000000000000000001", 100),
    ]
    .into_iter()
    .map(|(field, value)| good(6, field, cents(value)))
    .collect();
    let percent = |field: &str| format!("A1;;S;X;1;;{field};0;EUR;20240101;20241231;0;");
    let share = |value| Price { level: b'X', fixed: 0, value, ..plain() };
    vectors.push(read("the greatest percentage", &percent("1000.00"), &[share(100_000)]));
    vectors.push(read("the least percentage", &percent("-1000"), &[share(-100_000)]));
    vectors.push(bad("a percentage above the greatest", &percent("1000.01"), 1));
    vectors.push(bad("a percentage below the least", &percent("-1000.01"), 1));
    let beyond = ["1000000.01", "-1000000.01", "42949673.96", "184467440737095516.17", &"9".repeat(60)];
    vectors.extend(wrong(6, &beyond));
    vectors.extend(wrong(
        6,
        &["", "-", ".", "-.", "1,50", "1.005", "1.0001", "+1", "1 ", " 1", "1-", "--1", "1.2.3", "1..", "1e2", "EUR"],
    ));
    vectors
}

fn days() -> Vec<Vector> {
    let mut vectors = vec![
        good(9, "", plain().dates(0, 20241231)),
        good(9, "00000000", plain().dates(0, 20241231)),
        good(10, "", plain().dates(20240101, 0)),
        good(10, "20230229", plain().dates(20240101, 20230229)),
        good(10, "99999999", plain().dates(20240101, 99999999)),
        read("both days blank", "A1;;S;B;1;;1;1;EUR;;;0;", &[plain().dates(0, 0)]),
    ];
    for place in [9, 10] {
        vectors.extend(wrong(place, &["0", "2024010", "202401011", "2024-1-1", "        ", " ", "-2024010", "2024O101"]));
    }
    vectors
}

fn quantities() -> Vec<Vector> {
    let mut vectors = vec![
        good(11, "1", plain().up_to(1)),
        good(11, "007", plain().up_to(7)),
        good(11, "4294967295", plain().up_to(u32::MAX)),
        good(11, &format!("{}9", "0".repeat(50)), plain().up_to(9)),
    ];
    vectors.extend(wrong(11, &["", "4294967296", "18446744073709551616", "1.0", "-1", "+1", " 1", "1 "]));
    vectors
}

fn counts() -> Vec<Vector> {
    let fields: Vec<&str> = PLAIN.split(';').collect();
    let mut vectors: Vec<Vector> = (1..13).map(|count| bad(&format!("{count} fields"), &fields[..count].join(";"), 1)).collect();
    vectors.push(bad("a fourteenth field, empty", &format!("{PLAIN};"), 1));
    vectors.push(bad("twice the fields", &format!("{PLAIN};{PLAIN}"), 1));
    vectors
}

fn quotes() -> Vec<Vector> {
    let of = |article: &str| Price { article: latin1(article), ..plain() };
    let all: Vec<String> = PLAIN.split(';').map(|field| format!("\"{field}\"")).collect();
    let mut vectors = vec![
        good(0, "\"A1\"", plain()),
        good(0, "\"A1\"   ", plain()),
        good(0, "\"A;1\"", of("A;1")),
        good(0, "\"#1\"", of("#1")),
        good(0, "\"A\"\"1\"", of("A\"1")),
        good(0, "\"\"\"\"", of("\"")),
        good(0, "\"\"\"\"\"\"", of("\"\"")),
        good(0, "\" A1 \"", of(" A1 ")),
        good(0, "1\" x", of("1\" x")),
        good(0, "A\"\"", of("A\"\"")),
        good(0, " \"A1\"", of(" \"A1\"")),
        good(1, "\"\"", plain()),
        read("every field", &all.join(";"), &[plain()]),
        read("every field, and spaces behind the quotes", &all.join("  ;"), &[plain()]),
        good(12, "\"\"  ", plain()),
        good(9, "\"\"", plain().dates(0, 20241231)),
    ];
    vectors.extend(wrong(
        0,
        &["\"", "\"\"", "\"A1", "\"A\"1\"", "\"A1\"x", "\"A1\" x", "\"A1\"\t", "\"A\"\"", "\"A1\" \"", "\"A1\"\u{a0}"],
    ));
    vectors.extend(wrong(6, &["\"1.00", "\"1\".00", "\" 1\"", "\"1;00\""]));
    vectors.push(bad("a quoted field does not go over a line's end", &format!("{}\n", with(0, "\"A\n1\"")), 1));
    vectors.push(bad("a quote that opens the last field", &with(12, "\""), 1));
    vectors
}
