//! What relations derive: the comparisons and tables worked by hand, the list of properties, the bytes of the question with its
//! names, and what is refused, in order.

use second::make::{self, latin1, Article, Granted, Listed, ListedValue, Price, Question, Record};
use second::price::LINE_LENGTH;
use second::relation::{Properties, Relation, Truth};
use second::{derive, price, price_derived, question_ok, DerivedAnswer, Placed};

const PATTERN: u8 = 0xA5;

const DAY: u32 = 20240630;

fn ask() -> Question {
    Question::new("A1", DAY)
}

fn list(listed: &[Listed]) -> Vec<u8> {
    make::properties(listed)
}

fn no_properties() -> Vec<u8> {
    list(&[])
}

/// The question that is written into ample room, the bytes behind it being untouched; else number and place of the refusal.
fn written(question: &Question, properties: &[u8], relation: &[u8]) -> Result<Vec<u8>, (u8, u64)> {
    let mut out = vec![PATTERN; 3_000];
    let Placed { length, place, number } = derive(&question.bytes(), properties, relation, &mut out);
    assert!(out[length as usize..].iter().all(|&byte| byte == PATTERN));
    out.truncate(length as usize);
    if number == 0 {
        assert_eq!(place, 0);
        Ok(out)
    } else {
        assert_eq!(length, 0);
        Err((number, place))
    }
}

/// Whether the condition grants its name.
fn granted(condition: &str, properties: &[Listed]) -> bool {
    let relation = latin1(&format!("$VARCOND='X' IF {condition}"));
    let bytes = written(&ask(), &list(properties), &relation).unwrap();
    let with_name = ask().granted(&["X"]).bytes();
    assert!(bytes == with_name || bytes == ask().bytes());
    bytes == with_name
}

/// What is true of a condition; beside `truth` itself, that it is so all the way through the call.
fn truth(condition: &str, properties: &[Listed]) -> Truth {
    let relation = Relation::read(&latin1(&format!("$VARCOND='X' IF {condition}"))).unwrap();
    let listed = Properties::read(&list(properties)).unwrap();
    let truth = relation.assignments[0].condition.as_ref().unwrap().truth(&listed);
    assert_eq!(granted(condition, properties), truth == Truth::True, "{condition}");
    assert_eq!(granted(&format!("NOT({condition})"), properties), truth == Truth::False, "{condition}");
    truth
}

fn assert_true(condition: &str, properties: &[Listed]) {
    assert_eq!(truth(condition, properties), Truth::True, "{condition}");
}

fn assert_false(condition: &str, properties: &[Listed]) {
    assert_eq!(truth(condition, properties), Truth::False, "{condition}");
}

fn assert_undefined(condition: &str, properties: &[Listed]) {
    assert_eq!(truth(condition, properties), Truth::Undefined, "{condition}");
}

// Comparisons.

#[test]
fn the_comparisons_of_the_document() {
    assert_true("'A' < 'a'", &[]);
    assert_true("900 < 1000", &[]);
    assert_true("'900' > '1000'", &[]);
}

#[test]
fn every_comparison_of_numbers_and_of_strings() {
    for (sign, word, less, equal, greater) in [
        ("<", "LT", true, false, false),
        ("<=", "LE", true, true, false),
        ("=", "EQ", false, true, false),
        ("<>", "NE", true, false, true),
        ("=>", "GE", false, true, true),
        (">=", "GE", false, true, true),
        (">", "GT", false, false, true),
    ] {
        for sign in [sign, word] {
            for (left, right, expected) in [("-3", "2", less), ("2", "2", equal), ("2", "-3", greater)] {
                assert_eq!(granted(&format!("{left} {sign} {right}"), &[]), expected);
                let (one, other) = (left.parse().unwrap(), right.parse().unwrap());
                let listed = [Listed::number("A", one), Listed::number("B", other)];
                assert_eq!(granted(&format!("A {sign} b"), &listed), expected);
                assert_eq!(granted(&format!("A {sign} {right}"), &listed), expected);
                assert_eq!(granted(&format!("{left} {sign} B"), &listed), expected);
            }
            for (left, right, expected) in [("AB", "B", less), ("AB", "AB", equal), ("AB", "A", greater), ("", "A", less)] {
                assert_eq!(granted(&format!("'{left}' {sign} '{right}'"), &[]), expected);
                let listed = [Listed::text("A", left), Listed::text("B", right)];
                assert_eq!(granted(&format!("a {sign} B"), &listed), expected);
            }
        }
    }
}

#[test]
fn the_ends_of_numbers() {
    let listed = [Listed::number("LEAST", i64::MIN), Listed::number("MOST", i64::MAX), Listed::number("ZERO", 0)];
    for condition in [
        "LEAST < MOST",
        "LEAST < -999999999999999999",
        "MOST > 999999999999999999",
        "ZERO = -0",
        "ZERO = 000000000000000000",
        "-1 < ZERO",
        "LEAST = LEAST",
    ] {
        assert_true(condition, &listed);
    }
}

#[test]
fn the_case_of_a_property_does_not_count() {
    let listed = [Listed::text("WOOD", "oak"), Listed::text("other", "OAK"), Listed::text("mark", "_")];
    for condition in [
        "Wood = 'OAK'",
        "'oAk' = wood",
        "WOOD = OTHER",
        "wood <= 'OAK'",
        "wood >= 'oak'",
        "wood IN ('ASH', 'Oak')",
        "Wood < 'OAKS'",
        // Letters are raised, so `_` (95) is greater than every letter.
        "mark > 'z'",
        "mark > wood",
        "NOT 'OAK' = 'oak'",
        "'_' < 'z'",
        "'_' > 'Z'",
    ] {
        assert_true(condition, &listed);
    }
}

#[test]
fn letters_of_latin_1_are_raised() {
    let listed = [Listed::text("A", "gr\u{fc}n"), Listed::text("B", "GR\u{dc}N")];
    assert_true("A = B", &listed);
    assert_true("A IN ('GR\u{dc}N') AND 'Gr\u{fc}n' = B", &listed);
    assert_false("'gr\u{fc}n' = 'GR\u{dc}N'", &listed);
    // What stays as it is has another byte 32 before it.
    for (byte, before) in [("{", "["), ("\u{df}", "\u{bf}"), ("\u{f7}", "\u{d7}"), ("\u{ff}", "\u{df}")] {
        let listed = [Listed::text("A", byte), Listed::text("B", before)];
        assert_false("A = B", &listed);
        assert_true("A > B", &listed);
        assert_true(&format!("A = '{byte}'"), &listed);
    }
}

#[test]
fn a_string_against_a_number_is_undefined() {
    let listed = [Listed::text("T", "5"), Listed::number("N", 5)];
    for sign in ["<", "<=", "=", "<>", "=>", ">=", ">"] {
        for (left, right) in [("T", "5"), ("N", "'5'"), ("T", "N"), ("N", "T"), ("5", "'5'"), ("'5'", "5")] {
            assert_undefined(&format!("{left} {sign} {right}"), &listed);
        }
    }
}

#[test]
fn a_property_without_a_value_is_undefined() {
    let listed = [Listed::none("EMPTY"), Listed::number("N", 5)];
    for name in ["EMPTY", "MISSING"] {
        for sign in ["<", "<=", "=", "<>", "=>", ">=", ">"] {
            assert_undefined(&format!("{name} {sign} 5"), &listed);
            assert_undefined(&format!("'X' {sign} {name}"), &listed);
            assert_undefined(&format!("{name} {sign} {name}"), &listed);
            assert_undefined(&format!("{name} {sign} N"), &listed);
        }
    }
}

#[test]
fn specified_is_never_undefined() {
    let listed = [Listed::none("EMPTY"), Listed::number("N", 0), Listed::text("T", "")];
    assert_true("SPECIFIED N", &listed);
    assert_true("specified t", &listed);
    assert_false("SPECIFIED EMPTY", &listed);
    assert_false("SPECIFIED MISSING", &listed);
    assert_true("NOT SPECIFIED MISSING AND NOT SPECIFIED empty", &listed);
}

#[test]
fn in_is_the_or_of_its_equalities() {
    let listed = [Listed::none("EMPTY"), Listed::number("N", 5), Listed::text("T", "x")];
    assert_true("N IN (5)", &listed);
    assert_true("N IN (4, 5, 6)", &listed);
    assert_true("N IN ('x', 5)", &listed);
    assert_true("N IN (5, 'x')", &listed);
    assert_false("N IN (4, -5)", &listed);
    assert_undefined("N IN (4, 'x')", &listed);
    assert_undefined("N IN ('5')", &listed);
    assert_true("T IN ('X')", &listed);
    assert_true("T IN (1, 'X')", &listed);
    assert_undefined("T IN (1, 'Y')", &listed);
    assert_false("T IN ('', 'Y')", &listed);
    assert_undefined("EMPTY IN (5, 'x')", &listed);
    assert_undefined("MISSING IN (5, 'x')", &listed);
}

// AND, OR and NOT.

/// A condition for each truth, with no property at hand.
const SAMPLES: [(&str, Truth); 3] = [("1=1", Truth::True), ("1=2", Truth::False), ("A=1", Truth::Undefined)];

#[test]
fn the_table_of_the_document() {
    use Truth::{False, True, Undefined};
    let and = [[True, False, Undefined], [False, False, False], [Undefined, False, Undefined]];
    let or = [[True, True, True], [True, False, Undefined], [True, Undefined, Undefined]];
    for (row, (left, _)) in SAMPLES.iter().enumerate() {
        for (column, (right, _)) in SAMPLES.iter().enumerate() {
            assert_eq!(truth(&format!("{left} AND {right}"), &[]), and[row][column], "{left} AND {right}");
            assert_eq!(truth(&format!("{left} OR {right}"), &[]), or[row][column], "{left} OR {right}");
        }
    }
}

#[test]
fn not_of_undefined_is_undefined() {
    assert_undefined("NOT A=1", &[]);
    assert_undefined("NOT NOT A=1", &[]);
    assert_undefined("NOT (A=1 AND 1=1)", &[]);
    assert_false("NOT 1=1", &[]);
    assert_true("NOT 1=2", &[]);
    assert_true("NOT NOT 1=1", &[]);
    assert_false("NOT NOT NOT 1=1", &[]);
}

#[test]
fn and_binds_before_or() {
    assert_true("1=1 OR 1=1 AND 1=2", &[]);
    assert_false("(1=1 OR 1=1) AND 1=2", &[]);
    assert_true("1=2 AND 1=2 OR 1=1", &[]);
    assert_false("1=2 AND (1=2 OR 1=1)", &[]);
    assert_true("1=1 OR A=1 AND 1=1", &[]);
    assert_undefined("(1=1 OR A=1) AND A=1", &[]);
}

#[test]
fn not_binds_before_and() {
    assert_false("NOT 1=2 AND 1=2", &[]);
    assert_true("NOT (1=2 AND 1=2)", &[]);
    assert_true("NOT 1=1 OR 1=1", &[]);
    assert_false("NOT (1=1 OR 1=1)", &[]);
}

#[test]
fn long_chains() {
    let falses = ["1=2"; 500].join(" OR ");
    assert_false(&falses, &[]);
    assert_true(&format!("{falses} OR 1=1"), &[]);
    assert_undefined(&format!("{falses} OR A=1"), &[]);
    let trues = ["1=1"; 500].join(" AND ");
    assert_true(&trues, &[]);
    assert_false(&format!("A=1 AND {trues} AND 1=2"), &[]);
}

// The list of properties.

fn accepted(properties: &[u8]) -> bool {
    match written(&ask(), properties, b"$VARCOND='X'") {
        Ok(bytes) => bytes == ask().granted(&["X"]).bytes(),
        refused => {
            assert_eq!(refused, Err((2, 0)));
            false
        }
    }
}

#[test]
fn good_lists() {
    let longest = "N".repeat(255);
    for listed in [
        vec![],
        vec![Listed::none("")],
        vec![Listed::none("A"), Listed::text("", ""), Listed::number("A b\u{a0}\u{ff}", -1)],
        vec![Listed::text(&longest, &longest); 64],
        vec![Listed::number("A", 1), Listed::number("a", 2)],
    ] {
        assert!(accepted(&list(&listed)), "{listed:?}");
    }
}

#[test]
fn broken_lists() {
    let raw = |value: &[u8]| list(&[Listed { name: b"A".to_vec(), value: ListedValue::Raw(value.to_vec()) }]);
    let with_name = |name: &[u8]| list(&[Listed { name: name.to_vec(), value: ListedValue::None }]);
    let broken = [
        vec![],
        vec![1],
        vec![0, 0],
        vec![1, 1],
        vec![65],
        vec![255],
        list(&vec![Listed::none(""); 65]),
        raw(&[]),
        raw(&[3]),
        raw(&[b'1', 0]),
        raw(&[0, 0]),
        raw(&[1]),
        raw(&[1, 1]),
        raw(&[1, 1, b'X', 0]),
        raw(&[1, 1, 31]),
        raw(&[1, 2, b'X', 159]),
        raw(&[2]),
        raw(&[2, 0, 0, 0, 0, 0, 0, 0]),
        raw(&[2, 0, 0, 0, 0, 0, 0, 0, 0, 0]),
        with_name(&[0]),
        with_name(&[b'A', 127]),
        with_name(&[128]),
    ];
    for properties in broken {
        assert!(!accepted(&properties), "{properties:?}");
    }
    assert!(accepted(&raw(&[2, 0, 0, 0, 0, 0, 0, 0, 5])));
}

#[test]
fn the_first_of_a_name_counts() {
    let listed = [Listed::number("wood", 1), Listed::number("WOOD", 2), Listed::none("bare"), Listed::text("Bare", "X")];
    assert_true("Wood = 1", &listed);
    assert_false("SPECIFIED BARE", &listed);
    assert_undefined("bare = 'X'", &listed);
}

// The names.

fn names(count: usize) -> Vec<String> {
    (0..count).map(|number| format!("$VARCOND='N{number}'")).collect()
}

#[test]
fn names_go_into_the_question_in_order() {
    let relation = b"$VARCOND='oak',$VARCOND='no' IF 1=2,$VARCOND='Ash' IF WOOD='x', $VARCOND='OAK'";
    let properties = list(&[Listed::text("Wood", "X")]);
    let question = ask().quantity(7).valued(3, "V").hidden(2);
    let plain = written(&question, &properties, relation).unwrap();
    assert_eq!(plain, question.clone().granted(&["oak", "Ash", "OAK"]).bytes());
    let factored = written(&question.clone().version(2), &properties, relation).unwrap();
    assert_eq!(factored, question.factored(&[("oak", 1_000), ("Ash", 1_000), ("OAK", 1_000)]).bytes());
    assert!(question_ok(&plain) && question_ok(&factored));
}

#[test]
fn nothing_derived_is_the_question_itself() {
    for question in [ask(), ask().version(2), Question::new(&"N".repeat(40), 10101).unselected(30)] {
        let bytes = written(&question, &no_properties(), b"$VARCOND='' IF A=1").unwrap();
        assert_eq!(bytes, question.bytes());
    }
}

#[test]
fn thirty_two_names_and_no_more() {
    let thirty_two = names(32);
    let bytes = written(&ask(), &no_properties(), thirty_two.join(",").as_bytes()).unwrap();
    assert_eq!(bytes, Question { granted: (0..32).map(|n| Granted::new(latin1(&format!("N{n}")))).collect(), ..ask() }.bytes());
    // The place is that of the `$`, behind a comma and a blank.
    let longer = [thirty_two.join(","), ", $VARCOND='N32'".to_string()].concat();
    let place = thirty_two.join(",").len() as u64 + 3;
    assert_eq!(written(&ask(), &no_properties(), longer.as_bytes()), Err((16, place)));
    // A repeat counts like any other, and what is not granted does not.
    let repeats = ["$VARCOND='A'"; 33].join(",");
    assert_eq!(written(&ask(), &no_properties(), repeats.as_bytes()), Err((16, 32 * 13 + 1)));
    let not_granted = [&thirty_two.join(","), ",$VARCOND='A' IF 1=2,$VARCOND='' IF A=1"].concat();
    assert_eq!(written(&ask(), &no_properties(), not_granted.as_bytes()), Ok(bytes));
}

#[test]
fn names_of_1_to_20_name_bytes() {
    let derived = |name: &[u8]| written(&ask(), &no_properties(), &[b" $VARCOND = '", name, b"'"].concat()).map(|_| ());
    for good in ["A", " ", "ABCDEFGHIJKLMNOPQRST", "\u{a0}\u{ff}~", "\"", "$VARCOND="] {
        assert_eq!(derived(&latin1(good)), Ok(()), "{good}");
    }
    for bad in ["", "ABCDEFGHIJKLMNOPQRSTU", "A\n", "\0", "\u{1f}", "\u{7f}", "\u{80}", "\u{9f}"] {
        assert_eq!(derived(&latin1(bad)), Err((16, 2)), "{bad}");
    }
}

#[test]
fn the_first_assignment_that_cannot_go_on_counts() {
    let properties = no_properties();
    assert_eq!(written(&ask(), &properties, b"$VARCOND='A',$VARCOND='' IF 1=2,$VARCOND='',$VARCOND=''"), Err((16, 33)));
    assert_eq!(written(&ask(), &properties, b"$VARCOND='' IF A=1,$VARCOND=''"), Err((16, 20)));
    let many = [names(32).join(","), ",$VARCOND='',$VARCOND='A'".to_string()].concat();
    assert_eq!(written(&ask(), &properties, many.as_bytes()), Err((16, names(32).join(",").len() as u64 + 2)));
}

#[test]
fn the_whole_text_is_read_first() {
    let properties = no_properties();
    assert_eq!(written(&ask(), &properties, b"$VARCOND='',"), Err((14, 13)));
    let deep = format!("$VARCOND='',$VARCOND='A' IF {}", "(".repeat(17));
    assert_eq!(written(&ask(), &properties, deep.as_bytes()), Err((15, deep.len() as u64)));
    let many = [names(40).join(","), " IF".to_string()].concat();
    assert_eq!(written(&ask(), &properties, many.as_bytes()), Err((14, many.len() as u64 + 1)));
}

// Refusals of both calls.

fn book(records: &[Record]) -> Vec<u8> {
    make::book(records)
}

fn book_k() -> Vec<u8> {
    book(&[
        Article::new("A1", "").into(),
        Price::fixed("A1", b'B', 10000).dates(20240101, 20240630).into(),
        Price::fixed("A1", b'B', 10500).dates(20240701, 20241231).into(),
        Price::percent("A1", b'X', 1, 1250).condition("OAK").into(),
        Price::percent("A1", b'D', 2, -333).into(),
    ])
}

const OAK: &[u8] = b"$VARCOND = 'oak' IF WOOD = 'Oak', $VARCOND = 'ash' IF WOOD = 'Ash', $VARCOND = 'elm'";

fn of_oak() -> Vec<u8> {
    list(&[Listed::text("wood", "OAK")])
}

fn priced(book: &[u8], question: &Question, properties: &[u8], relation: &[u8]) -> (DerivedAnswer, Vec<u8>) {
    let mut out = vec![PATTERN; 99 * LINE_LENGTH + 5];
    let answer = price_derived(book, &question.bytes(), properties, relation, &mut out);
    let end = answer.lines as usize * LINE_LENGTH;
    assert!(out[end..].iter().all(|&byte| byte == PATTERN));
    out.truncate(end);
    (answer, out)
}

#[test]
fn a_price_with_derived_names_is_that_of_the_question_with_them() {
    let (answer, lines) = priced(&book_k(), &ask().quantity(3), &of_oak(), OAK);
    let expected = DerivedAnswer {
        unit: 10875,
        total: 32625,
        lines: 3,
        place: 0,
        unused: 0b10,
        unused_count: 1,
        number: 0,
        currency: *b"EUR",
    };
    assert_eq!(answer, expected);
    let mut out = [0; 3 * LINE_LENGTH];
    for question in [ask().quantity(3), ask().quantity(3).version(2)] {
        let derived = written(&question, &of_oak(), OAK).unwrap();
        assert_eq!(DerivedAnswer::from(price(&book_k(), &derived, &mut out)), expected);
        assert_eq!(lines, out);
        assert_eq!(priced(&book_k(), &question, &of_oak(), OAK), (expected, lines.clone()));
    }
    // Without the property the base price and the discount are left, and elm.
    let (answer, _) = priced(&book_k(), &ask(), &no_properties(), OAK);
    assert_eq!((answer.unit, answer.lines, answer.unused, answer.unused_count), (9667, 2, 1, 1));
}

#[test]
fn the_three_forms_of_2() {
    let broken = ask().quantity(0);
    let granting = ask().granted(&["oak"]);
    for question in [broken, granting.clone(), granting.version(2)] {
        assert_eq!(written(&question, &of_oak(), OAK), Err((2, 0)));
        assert_eq!(priced(&book_k(), &question, &of_oak(), OAK).0, DerivedAnswer::refused_at(2, 0));
    }
    for properties in [vec![], vec![1], vec![0, 0]] {
        assert_eq!(written(&ask(), &properties, OAK), Err((2, 0)));
        assert_eq!(priced(&book_k(), &ask(), &properties, OAK).0, DerivedAnswer::refused_at(2, 0));
    }
}

#[test]
fn refusals_in_order() {
    let k = book_k();
    let deep = [b"$VARCOND='A' IF ", &[b'('; 17][..]].concat();
    let refused = |book: &[u8], question: Question, properties: &[u8], relation: &[u8]| {
        let (answer, lines) = priced(book, &question, properties, relation);
        assert!(lines.is_empty());
        assert_eq!(answer, DerivedAnswer::refused_at(answer.number, answer.place));
        (answer.number, answer.place)
    };
    let foreign = book(&[
        Article::new("A1", "").into(),
        Price::fixed("A1", b'B', 5).into(),
        Price::fixed("A1", b'X', 5).condition("OAK").currency(b"USD").into(),
    ]);
    let great = book(&[
        Article::new("A1", "").into(),
        Price::fixed("A1", b'B', 100_000_000).into(),
        Price::percent("A1", b'X', 1, 100_000).condition("OAK").into(),
    ]);
    let empty = book(&[]);
    let bare = book(&[Article::new("A1", "").into()]);
    let broken = ask().quantity(0);
    assert_eq!(refused(b"", broken.clone(), b"", b""), (1, 0));
    assert_eq!(refused(&empty, broken, b"\0", OAK), (2, 0));
    assert_eq!(refused(&empty, ask().granted(&["A"]), b"\0", OAK), (2, 0));
    assert_eq!(refused(&empty, ask(), b"", b""), (2, 0));
    assert_eq!(refused(&empty, ask(), b"\0", b""), (14, 1));
    assert_eq!(refused(&empty, ask(), b"\0", &deep), (15, 33));
    assert_eq!(refused(&empty, ask(), b"\0", b"$VARCOND=''"), (16, 1));
    assert_eq!(refused(&empty, ask(), b"\0", OAK), (3, 0));
    assert_eq!(refused(&bare, ask(), b"\0", OAK), (4, 0));
    assert_eq!(refused(&foreign, ask(), &of_oak(), OAK), (5, 0));
    assert_eq!(refused(&great, ask(), &of_oak(), OAK), (6, 0));
    assert_eq!(refused(&foreign, ask(), b"\0", b"$VARCOND='OAK' IF A=1,$VARCOND=|"), (14, 32));
    let without = priced(&foreign, &ask(), b"\0", OAK).0;
    assert_eq!((without.number, without.unit), (0, 5));
    let needed = 3 * LINE_LENGTH;
    let mut out = vec![PATTERN; needed];
    let answer = price_derived(&k, &ask().bytes(), &of_oak(), OAK, &mut out[..needed - 1]);
    assert_eq!(answer, DerivedAnswer::refused_at(7, 0));
    assert!(out.iter().all(|&byte| byte == PATTERN));
    assert_eq!(price_derived(&k, &ask().bytes(), &of_oak(), OAK, &mut out).number, 0);
}

#[test]
fn the_room_of_the_question() {
    let question = ask().bytes();
    let needed = ask().granted(&["oak", "elm"]).bytes().len();
    let mut out = vec![PATTERN; needed];
    assert_eq!(derive(&question, &of_oak(), OAK, &mut out[..needed - 1]), Placed::refused(7));
    assert!(out.iter().all(|&byte| byte == PATTERN));
    assert_eq!(derive(&question, &of_oak(), OAK, &mut out), Placed { length: needed as u64, place: 0, number: 0 });
    assert_eq!(derive(&question, &of_oak(), b"$VARCOND=''", &mut []), Placed::refused_at(16, 1));
    assert_eq!(derive(&question, &of_oak(), b"", &mut []), Placed::refused_at(14, 1));
}
