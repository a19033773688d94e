//! The manufacturer's price file: what each line becomes, which lines are bad, and what is written from a book. What a field may say
//! and what not is in `src/file_faults`, and held to in `price_file_faults.rs`.

use second::file_faults::columns::*;
use second::make::{self, latin1, Article, Packaging, Price, Record, Rounding, Scheme};
use second::{book_ok, read_prices, write_prices, Placed};

const PATTERN: u8 = 0xA5;

type Call = fn(&[u8], &mut [u8]) -> Placed;

/// What a call writes into ample room, the bytes behind it being untouched; else number and place of the refusal.
fn written(call: Call, input: &[u8]) -> Result<Vec<u8>, (u8, u64)> {
    let mut out = vec![PATTERN; 8 * input.len() + 100];
    let answer = call(input, &mut out);
    let end = answer.length as usize;
    assert!(out[end..].iter().all(|&byte| byte == PATTERN));
    out.truncate(end);
    if answer.number == 0 {
        assert_eq!(answer.place, 0);
        Ok(out)
    } else {
        assert_eq!(answer.length, 0);
        Err((answer.number, answer.place))
    }
}

fn read(file: impl AsRef<[u8]>) -> Result<Vec<u8>, (u8, u64)> {
    written(read_prices, file.as_ref())
}

/// The file of a book, read as Latin-1.
fn file_of(book: &[u8]) -> Result<String, (u8, u64)> {
    Ok(written(write_prices, book)?.iter().map(|&byte| char::from(byte)).collect())
}

fn bad_line(line: u64) -> Result<Vec<u8>, (u8, u64)> {
    Err((13, line))
}

fn hex(bytes: &[u8]) -> String {
    bytes.iter().map(|byte| format!("{byte:02x}")).collect()
}

fn joined(parts: &[&str]) -> String {
    parts.concat().replace(' ', "")
}

fn records<const N: usize>(rows: [Price; N]) -> Vec<u8> {
    rows.into_iter().flat_map(|row| Record::from(row).bytes()).collect()
}

fn book<const N: usize>(records: [Record; N]) -> Vec<u8> {
    make::book(&records)
}

/// A book of the records that a file is read into.
fn book_around(records: &[u8]) -> Vec<u8> {
    let length = records.len() as u32 + 5;
    [&length.to_be_bytes()[..], &[1], records].concat()
}

/// What `LINE` says.
fn row() -> Price {
    Price::fixed("A1", b'B', 10000)
}

const FIELDS: [&str; 13] = ["A1", "", "S", "B", "1", "", "100.00", "1", "EUR", "20240101", "20241231", "0", ""];

const LINE: &str = "A1;;S;B;1;;100.00;1;EUR;20240101;20241231;0;";

/// The line with one field as given, in Latin-1.
fn with(place: usize, field: &str) -> Vec<u8> {
    let mut fields = FIELDS;
    fields[place] = field;
    latin1(&fields.join(";"))
}

/// The record of the line with one field as given.
fn read_with(place: usize, field: &str) -> Result<Vec<u8>, (u8, u64)> {
    read(with(place, field))
}

// The reader: files.

#[test]
fn a_good_file() {
    let file = "# Prices of 2024\n\
        A1;;S;B;1;base;100.00;1;EUR;20240101;20240630;0;\n\
        \n\
        A1;OAK;S;X;1;oak;12.5;0;EUR;20240101;20241231;9;\n\
        A1;;P;D;2;base;-3.33;0;USD;;20241231;4294967295;\n";
    let first = "0022 02 02 4131 00 53 42 01 00000001 01 00002710 455552 0134d6e5 0134d8f6 00000000 0000";
    let second = "0025 02 02 4131 03 4f414b 53 58 01 00000002 00 000004e2 455552 0134d6e5 0134db4f 00000009 0000";
    let third = "0022 02 02 4131 00 50 44 02 00000001 00 fffffeb3 555344 00000000 0134db4f ffffffff 0000";
    let bytes = read(file).unwrap();
    assert_eq!(hex(&bytes), joined(&[first, second, third]));
    assert!(book_ok(&book_around(&bytes)));
}

#[test]
fn the_plain_line() {
    assert_eq!(LINE, FIELDS.join(";"));
    assert_eq!(read(LINE), Ok(records([row()])));
}

#[test]
fn files_without_a_row() {
    for file in ["", "\n", "\n\n\n", " ", "\t", " \t \n\t\n", "#", "#\n", "##", "# A1;;S\n#", "#\r\n", "#\0\u{9f}\n \n", "\n#\"\n"]
    {
        assert_eq!(read(latin1(file)), Ok(Vec::new()), "{file:?}");
    }
}

#[test]
fn comments_and_blank_lines_between_rows() {
    let expected = Ok(records([row(), row()]));
    for between in ["", "\n", " \n", "\t\n \t \n\n", "#\n", "#;\"\n", "#\n\n#\n"] {
        assert_eq!(read(format!("{LINE}\n{between}{LINE}\n")), expected, "{between:?}");
        assert_eq!(read(format!("{between}{LINE}\n{LINE}\n{between}")), expected, "{between:?}");
    }
    // Only the very first byte makes a comment.
    assert_eq!(read(format!(" #\n{LINE}\n")), bad_line(1));
    assert_eq!(read(format!("{LINE}\n\t#\n")), bad_line(2));
    assert_eq!(read(format!(" #{LINE}\n")), Ok(records([Price { article: latin1(" #A1"), ..row() }])));
    assert_eq!(read(format!("#{LINE}\n")), Ok(Vec::new()));
    assert_eq!(read(with(ARTICLE, "\"#A1\"")), Ok(records([Price { article: latin1("#A1"), ..row() }])));
    assert_eq!(read(with(ARTICLE, "A#1")), Ok(records([Price { article: latin1("A#1"), ..row() }])));
}

#[test]
fn a_last_line_without_line_end_is_a_line() {
    assert_eq!(read(LINE), read(format!("{LINE}\n")));
    assert_eq!(read(format!("{LINE}\n{LINE}")), Ok(records([row(), row()])));
    assert_eq!(read(format!("{LINE}\n ")), Ok(records([row()])));
    assert_eq!(read(format!("{LINE}\nA1")), bad_line(2));
    assert_eq!(read(format!("{LINE}\n\"")), bad_line(2));
    assert_eq!(read(format!("{LINE}\n;")), bad_line(2));
}

#[test]
fn carriage_returns_and_zero_bytes_are_bad() {
    assert_eq!(read(format!("{LINE}\r\n{LINE}\r\n")), bad_line(1));
    assert_eq!(read(format!("# comment\r\n{LINE}\r\n")), bad_line(2));
    // A blank line has no such byte, so this is a line of one field.
    assert_eq!(read(format!("{LINE}\n\r\n")), bad_line(2));
    assert_eq!(read("\0"), bad_line(1));
    assert_eq!(read(format!("{LINE}\n\0")), bad_line(2));
    for place in 0..LINE.len() {
        for byte in [0, b'\r', b'\t', 127, 159] {
            let mut file = LINE.as_bytes().to_vec();
            file.insert(place, byte);
            assert_eq!(read(&file), bad_line(1), "{place} {byte}");
        }
    }
    // A row cut in two is bad at its first half.
    assert_eq!(read(LINE.replace("EUR", "E\nUR")), bad_line(1));
}

#[test]
fn thirteen_fields() {
    let line = |count: usize| (0..count).map(|place| FIELDS.get(place).copied().unwrap_or("")).collect::<Vec<_>>().join(";");
    for count in [1, 2, 11, 12, 14, 15, 26] {
        assert_eq!(read(line(count)), bad_line(1), "{count}");
    }
    assert_eq!(read(line(13)), Ok(records([row()])));
    assert_eq!(read(format!("{LINE};")), bad_line(1));
    assert_eq!(read(format!("{LINE}\"\";\"\"")), bad_line(1));
    assert_eq!(read(format!("{LINE}{LINE}")), bad_line(1));
    assert_eq!(read(";".repeat(12)), bad_line(1));
}

#[test]
fn the_number_of_the_first_bad_line() {
    assert_eq!(read("bad"), bad_line(1));
    assert_eq!(read("bad\nbad"), bad_line(1));
    assert_eq!(read("#\n\n \t\nbad\n"), bad_line(4));
    assert_eq!(read(format!("#\n\n{LINE}\n#\nbad\n\nbad\n{LINE}\n")), bad_line(5));
    let many = format!("{LINE}\n#\n").repeat(40_000);
    assert_eq!(read(format!("{many}bad")), bad_line(80_001));
}

// The reader: quotes.

#[test]
fn every_field_may_be_quoted() {
    for (place, field) in FIELDS.into_iter().enumerate() {
        for spaces in ["", " ", "     "] {
            assert_eq!(read_with(place, &format!("\"{field}\"{spaces}")), Ok(records([row()])), "{place}");
        }
    }
    let all = FIELDS.map(|field| format!("\"{field}\" "));
    assert_eq!(read(all.join(";")), Ok(records([row()])));
    // Spaces without quotes stay, and are no part of anything but a name.
    for place in [SORT, LEVEL, RULE, VALUE, FLAG, CURRENCY, FROM, TO, QUANTITY, ROUNDING] {
        for field in [format!("{} ", FIELDS[place]), format!(" {}", FIELDS[place]), format!("\"{} \"", FIELDS[place])] {
            assert_eq!(read_with(place, &field), bad_line(1), "{place}");
        }
    }
}

// The reader: each field.

#[test]
fn names() {
    let forty = "N".repeat(40);
    let twenty = "N".repeat(20);
    for article in ["A", " ", "*", "~", "\u{a0}", "\u{ff}", &forty] {
        let expected = Price { article: latin1(article), ..row() };
        assert_eq!(read_with(ARTICLE, article), Ok(records([expected])), "{article:?}");
    }
    for condition in ["", "A", " ", "oak", "\u{a0}", &twenty] {
        assert_eq!(read_with(CONDITION, condition), Ok(records([row().condition(condition)])), "{condition:?}");
    }
    for bad in ["", "\"\"", "A\t", "A\u{1f}", "A\u{7f}", "A\u{80}", "\u{9f}", &format!("{forty}N")] {
        assert_eq!(read_with(ARTICLE, bad), bad_line(1), "{bad:?}");
    }
    for bad in ["A\t", "A\u{1f}", "A\u{7f}", "A\u{80}", "\u{9f}", &format!("{twenty}N")] {
        assert_eq!(read_with(CONDITION, bad), bad_line(1), "{bad:?}");
    }
    // Doubled quotes count once.
    let quotes = format!("\"{}\"", "\"\"".repeat(20));
    assert_eq!(read_with(CONDITION, &quotes), Ok(records([row().condition(&"\"".repeat(20))])));
}

#[test]
fn letters_and_flags() {
    assert_eq!(read_with(SORT, "P"), Ok(records([row().sort(b'P')])));
    for level in [b'B', b'X', b'D'] {
        let field = char::from(level).to_string();
        assert_eq!(read_with(LEVEL, &field), Ok(records([Price::fixed("A1", level, 10000)])));
    }
    assert_eq!(read_with(RULE, "2"), Ok(records([Price { rule: 2, ..row() }])));
    assert_eq!(read_with(FLAG, "0"), Ok(records([Price { fixed: 0, ..row() }])));
    assert_eq!(read_with(CURRENCY, "XYZ"), Ok(records([row().currency(b"XYZ")])));
}

#[test]
fn text_names_are_numbered_as_they_appear() {
    let names = ["b", "", "a", "b", "B", " ", "\"a\" ", "\"b;\"", "a ", "b", "\"\"", "1", "01", "\u{e4}", "\u{c4}"];
    let numbers = [1, 0, 2, 1, 3, 4, 2, 5, 6, 1, 0, 7, 8, 9, 10];
    let file: Vec<u8> = names.iter().flat_map(|name| [with(TEXT, name), latin1("\n")].concat()).collect();
    let expected: Vec<u8> = numbers.iter().flat_map(|&number| records([row().text(number)])).collect();
    assert_eq!(read(file), Ok(expected));
}

#[test]
fn text_names_of_any_length() {
    let long = "t".repeat(70_000);
    let file = [&long[..], &long[1..], &long].map(|name| String::from_utf8(with(TEXT, name)).unwrap()).join("\n");
    assert_eq!(read(file), Ok(records([row().text(1), row().text(2), row().text(1)])));
    for bad in ["\t", "a\u{1f}", "\u{7f}b", "\u{80}", "\u{9f}"] {
        assert_eq!(read_with(TEXT, bad), bad_line(1));
    }
    assert_eq!(read_with(TEXT, " ~\u{a0}\u{ff}"), Ok(records([row().text(1)])));
    // More names than a byte or two can count.
    let file: String = (0..300).map(|n| LINE.replace(";;100", &format!(";n{n};100")) + "\n").collect();
    let expected: Vec<u8> = (1..=300).flat_map(|number| records([row().text(number)])).collect();
    assert_eq!(read(file), Ok(expected));
}

#[test]
fn room_of_the_reader() {
    let file = format!("{LINE}\n{LINE}\n");
    let needed = 2 * 36;
    for room in [0, 1, 36, needed - 1] {
        let mut out = vec![PATTERN; room];
        assert_eq!(read_prices(file.as_bytes(), &mut out), Placed { length: 0, place: 0, number: 7 });
        assert!(out.iter().all(|&byte| byte == PATTERN));
    }
    for room in [needed, needed + 1, needed + 50] {
        let mut out = vec![PATTERN; room];
        assert_eq!(read_prices(file.as_bytes(), &mut out), Placed { length: needed as u64, place: 0, number: 0 });
        assert_eq!(out[..needed], records([row(), row()]));
        assert!(out[needed..].iter().all(|&byte| byte == PATTERN));
    }
    // A bad line goes before the room, however little there is.
    assert_eq!(read_prices(format!("{file}bad").as_bytes(), &mut []), Placed { length: 0, place: 3, number: 13 });
    assert_eq!(read_prices(b"#\n", &mut []), Placed { length: 0, place: 0, number: 0 });
}

// The writer.

#[test]
fn a_written_file() {
    let b = book([
        Article::new("A1", "").into(),
        row().dates(20240101, 20240630).text(1).into(),
        Price::percent("A1", b'X', 1, 1250).condition("OAK").text(2).up_to(9).into(),
        Rounding::new(1, 0, 5).into(),
        Price::percent("\u{c4}", b'D', 2, -333).text(1).sort(b'P').currency(b"USD").dates(0, 10101).up_to(u32::MAX).into(),
    ]);
    let expected = "A1;;S;B;1;1;100.00;1;EUR;20240101;20240630;0;\n\
        A1;OAK;S;X;1;2;12.50;0;EUR;20240101;20241231;9;\n\
        \u{c4};;P;D;2;1;-3.33;0;USD;;00010101;4294967295;\n";
    assert_eq!(file_of(&b), Ok(expected.to_string()));
    assert_eq!(file_of(&book([row().into()])), Ok(format!("{LINE}\n")));
}

#[test]
fn a_book_without_price_records() {
    for b in [book([]), book([Article::new("A1", "").into(), Scheme::new("S", "", "").into()])] {
        assert_eq!(write_prices(&b, &mut []), Placed { length: 0, place: 0, number: 0 });
    }
}

/// The file of one row.
fn line_of(row: Price) -> String {
    file_of(&book([row.into()])).unwrap()
}

#[test]
fn written_numbers() {
    let values = [
        (0, "0.00"),
        (1, "0.01"),
        (-1, "-0.01"),
        (-5, "-0.05"),
        (10, "0.10"),
        (-99, "-0.99"),
        (100, "1.00"),
        (-100, "-1.00"),
        (1205, "12.05"),
        (-100_000, "-1000.00"),
        (100_000, "1000.00"),
    ];
    for (value, expected) in values {
        assert_eq!(line_of(Price { value, ..row() }), LINE.replace("100.00", expected) + "\n");
        assert_eq!(line_of(Price { value, fixed: 0, ..row() }), LINE.replace("100.00;1", &format!("{expected};0")) + "\n");
    }
    assert_eq!(line_of(Price { value: 100_000_000, ..row() }), LINE.replace("100.00", "1000000.00") + "\n");
    assert_eq!(line_of(Price { value: -99_999_999, ..row() }), LINE.replace("100.00", "-999999.99") + "\n");
    for text in [1, 7, 10, u32::MAX] {
        assert_eq!(line_of(row().text(text)), LINE.replace(";;100", &format!(";{text};100")) + "\n");
    }
    for (date, expected) in [(0, ""), (1, "00000001"), (10101, "00010101"), (20230229, "20230229"), (99_999_999, "99999999")] {
        assert_eq!(line_of(row().dates(date, 20241231)), LINE.replace("20240101", expected) + "\n");
        assert_eq!(line_of(row().dates(20240101, date)), LINE.replace("20241231", expected) + "\n");
    }
}

#[test]
fn quotes_only_where_reading_needs_them() {
    let cases = [
        ("OAK", "OAK"),
        ("O;K", "\"O;K\""),
        (";", "\";\""),
        ("\"", "\"\"\"\""),
        ("\"OAK", "\"\"\"OAK\""),
        ("\"\"", "\"\"\"\"\"\""),
        ("O\"K", "O\"K"),
        ("OAK\"", "OAK\""),
        ("O\";K", "\"O\"\";K\""),
        (" \"", " \""),
        (" ", " "),
        ("OAK ", "OAK "),
        (" OAK", " OAK"),
        ("A#", "A#"),
        ("'", "'"),
        ("\u{a0}", "\u{a0}"),
    ];
    for (name, field) in cases {
        assert_eq!(line_of(Price { article: latin1(name), ..row() }), format!("{field}{}\n", &LINE[2..]), "{name}");
        assert_eq!(line_of(row().condition(name)), format!("A1;{field}{}\n", &LINE[3..]), "{name}");
    }
    // A sign that would begin a comment does so in front of the line only.
    for (name, field) in [("#", "\"#\""), ("#A", "\"#A\""), ("##\"", "\"##\"\"\""), (" #", " #")] {
        assert_eq!(line_of(Price { article: latin1(name), ..row() }), format!("{field}{}\n", &LINE[2..]), "{name}");
    }
    assert_eq!(line_of(row().condition("#")), format!("A1;#{}\n", &LINE[3..]));
}

#[test]
fn records_that_make_no_line() {
    // Five bytes of head, so the first record begins at byte 6; it takes 36 bytes, and a short article record takes 7.
    let cases = [row().rounding(1), row().rounding(u16::MAX), row().dates(100_000_000, 0), row().dates(0, u32::MAX)];
    for bad in cases {
        let bad = Record::from(bad);
        assert_eq!(file_of(&book([bad.clone()])), Err((13, 6)));
        assert_eq!(file_of(&book([row().into(), bad.clone()])), Err((13, 42)));
        assert_eq!(file_of(&book([bad.clone(), bad.clone()])), Err((13, 6)));
        assert_eq!(file_of(&book([Article::new("A1", "").into(), bad.clone(), row().into()])), Err((13, 13)));
        assert_eq!(file_of(&book([row().condition("OAK").into(), Article::new("A1", "").into(), bad])), Err((13, 52)));
    }
    // Other kinds of record may have rounding numbers, and a row without any may stand beside a rounding record.
    let others = [Rounding::new(7, 1, 5).into(), Packaging::new("A1", "").into(), row().into()];
    assert_eq!(file_of(&book(others)), Ok(format!("{LINE}\n")));
    // That the book has the rounding record does not help.
    assert_eq!(file_of(&book([Rounding::new(7, 1, 5).into(), row().rounding(7).into()])), Err((13, 24)));
}

#[test]
fn broken_books() {
    let good = book([row().into(), Article::new("A1", "").into()]);
    for end in 0..good.len() {
        assert_eq!(file_of(&good[..end]), Err((1, 0)), "{end}");
    }
    // What is broken goes before what makes no line, wherever it stands.
    let mut both = book([row().rounding(1).into(), Record::Raw(vec![9])]);
    assert_eq!(file_of(&both), Err((1, 0)));
    both = book([row().rounding(1).into()]);
    both.push(0);
    assert_eq!(file_of(&both), Err((1, 0)));
    assert_eq!(file_of(&book([Price { value: 100_000_001, ..row() }.into()])), Err((1, 0)));
}

#[test]
fn room_of_the_writer() {
    let b = book([row().into(), row().into()]);
    let needed = 2 * (LINE.len() + 1);
    for room in [0, 1, LINE.len() + 1, needed - 1] {
        let mut out = vec![PATTERN; room];
        assert_eq!(write_prices(&b, &mut out), Placed { length: 0, place: 0, number: 7 });
        assert!(out.iter().all(|&byte| byte == PATTERN));
    }
    for room in [needed, needed + 1, needed + 50] {
        let mut out = vec![PATTERN; room];
        assert_eq!(write_prices(&b, &mut out), Placed { length: needed as u64, place: 0, number: 0 });
        assert_eq!(out[..needed], *format!("{LINE}\n{LINE}\n").as_bytes());
        assert!(out[needed..].iter().all(|&byte| byte == PATTERN));
    }
    let refused = book([row().into(), row().rounding(1).into()]);
    assert_eq!(write_prices(&refused, &mut []), Placed { length: 0, place: 42, number: 13 });
    assert_eq!(write_prices(&b[1..], &mut []), Placed { length: 0, place: 0, number: 1 });
}

// There and back.

fn read_back(book: &[u8]) -> Vec<u8> {
    read(written(write_prices, book).unwrap()).unwrap()
}

#[test]
fn what_is_written_reads_as_the_same_records() {
    let rows = [
        row().text(1),
        row().text(0).condition(";\""),
        row().text(2).condition("\";").dates(0, 0),
        Price { article: latin1("#\";"), ..row().text(1) },
        Price::percent(" ", b'D', 2, -100_000).text(3).sort(b'P').currency(b"AZA"),
        Price { value: -100_000_000, ..row().text(2).up_to(u32::MAX).dates(99_999_999, 1) },
        row().text(4).condition("#").dates(20230229, 7),
    ];
    let expected = records(rows.clone());
    assert_eq!(read_back(&make::book(&rows.map(Record::from))), expected);
    assert_eq!(read_back(&book_around(&expected)), expected);
}

#[test]
fn other_text_numbers_come_back_in_order() {
    let rows = [9, 0, 3, 9, 1, 0, 3, u32::MAX].map(|number| row().text(number).into());
    let expected = [1, 0, 2, 1, 3, 0, 2, 4].map(|number| row().text(number));
    assert_eq!(read_back(&make::book(&rows)), records(expected));
}

#[test]
fn a_file_read_and_written_again() {
    let file = "# oak and ash\n\
        \"A1\" ;;S;B;1;base;0100;1;EUR;20240101;00000000;007;\n\
        \n\
        \"#;\"\"\" ;\"O\"\"K\"; \"S\";B;1;;-.5;1;EUR;;;0;\"\"\n";
    assert_eq!(read(file), bad_line(4));
    let mended = file.replace("; \"S\"", ";\"S\" ");
    let expected = "A1;;S;B;1;1;100.00;1;EUR;20240101;;7;\n\
        \"#;\"\"\";O\"K;S;B;1;;-0.50;1;EUR;;;0;\n";
    let again = file_of(&book_around(&read(&mended).unwrap()));
    assert_eq!(again, Ok(expected.to_string()));
    assert_eq!(read(expected), read(&mended));
}

#[test]
fn no_byte_can_make_a_call_panic() {
    let file = format!("#\n{LINE}\n{}\n", FIELDS.map(|field| format!("\"{field}\" ")).join(";"));
    let b = book([row().into(), Article::new("A1", "").into(), row().condition(";").into()]);
    for (call, input) in [(read_prices as Call, file.into_bytes()), (write_prices, b)] {
        for place in 0..input.len() {
            for value in 0..=255 {
                let mut changed = input.clone();
                changed[place] = value;
                call(&changed, &mut [0; 300]);
            }
            call(&input[..place], &mut [0; 300]);
            call(&input[place..], &mut [0; 300]);
        }
    }
}
