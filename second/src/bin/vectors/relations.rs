//! Relations worked by hand: every construct, every refusal of both calls, questions of both versions.

use second::make::{self, latin1, Article, Listed, ListedValue, Price, Question};
use second::price::LINE_LENGTH;
use second::relation_compare::RelationCall;

use crate::vector::{Asked, Vector};
use crate::worked::{ask, base, book, book_k};

const DAY: u32 = 20240630;

pub fn vectors() -> Vec<Vector> {
    let mut vectors: Vec<Vector> = CONDITIONS.iter().enumerate().map(|(place, condition)| granting(place, condition)).collect();
    vectors.extend(names());
    vectors.extend(unreadable());
    vectors.extend(bad_names());
    vectors.extend(questions_and_lists());
    vectors.extend(prices());
    vectors
}

fn list() -> Vec<u8> {
    make::properties(&[
        Listed::text("Wood", "Oak"),
        Listed::number("SIZE", 900),
        Listed::none("bare"),
        Listed::text("WOOD", "ash"),
        Listed::text("mark", "_"),
        Listed::text("BARE", "x"),
        Listed::number("least", i64::MIN),
        Listed::text("stain", "Gr\u{fc}n"),
        Listed::text("signs", "\u{df}\u{f7}\u{ff}"),
    ])
}

fn derive(question: Question, relation: &[u8]) -> Vector {
    let two_parts = Vector::new(Asked::Relation(RelationCall::Derive), Vec::new(), question.bytes());
    Vector { room: 60, properties: list(), relation: relation.to_vec(), ..two_parts }
}

fn price(book: &[u8], question: Question, relation: &[u8]) -> Vector {
    let two_parts = Vector::new(Asked::Relation(RelationCall::PriceDerived), book.to_vec(), question.bytes());
    Vector { room: 60, properties: list(), relation: relation.to_vec(), ..two_parts }
}

/// Comparisons and what joins them, of the properties above; then what is undefined of them.
const CONDITIONS: [&str; 40] = [
    "wood='OAK'",
    "wood<>'ASH'",
    "'oaks'>WOOD",
    "'A'<'a'",
    "'OAK'='oak'",
    "900<1000",
    "'900'>'1000'",
    "size<=900",
    "size=>900",
    "size>=901",
    "-900 LT SIZE",
    "SIZE LE -1",
    "size EQ 000000000000000900",
    "size NE 900",
    "size GE 900",
    "least GT -999999999999999999",
    "mark>'z'",
    "mark>'Z'AND'_'<'z'",
    "stain='GR\u{dc}N'",
    "stain IN ('blau','gr\u{dc}n')",
    "'gr\u{fc}n'='GR\u{dc}N'",
    "signs='\u{df}\u{f7}\u{ff}'",
    "signs='\u{df}\u{d7}\u{ff}'",
    "signs IN('\u{bf}\u{f7}\u{ff}','\u{df}\u{f7}\u{df}')",
    "wood IN ('ash','oAK')",
    "size IN(1,'x',900)",
    "size IN ('x',1)",
    "NOT size IN (1,2)",
    "SPECIFIED wood AND NOT SPECIFIED bare",
    "specified missing OR NOT NOT specified SIZE",
    "1=1 OR 1=1 AND 1=2",
    "(1=1 OR 1=1)AND 1=2",
    "NOT 1=2 AND 1=2",
    "((((((((((((((((size=900))))))))))))))))",
    "bare='x'",
    "NOT bare='x'",
    "bare=1 OR 1=1",
    "NOT(missing=1 AND 1=2)",
    "size<>'900'",
    "missing IN ('x')",
];

/// One name if the condition is true, in questions of either version by turns.
fn granting(place: usize, condition: &str) -> Vector {
    let version = place as u8 % 2 + 1;
    derive(ask(DAY).version(version), &latin1(&format!("$VARCOND='oak' IF {condition}")))
}

/// Names in order and with repeats, blanks and small letters, room that is exact and one byte short, and as many names as may be.
fn names() -> Vec<Vector> {
    let spelled = b"\t$varcond='oak' ,\r\n$VarCond = 'no' if size=1 , $VARCOND='OAK'if size=900,$VARCOND=' \xc4'";
    let properties = |question: Question| question.quantity(9).valued(2, "V").hidden(3);
    let all: Vec<String> = (0..32).map(|number| format!("$VARCOND='N{number}'")).collect();
    let mut vectors = Vec::new();
    for version in [1, 2] {
        let question = || properties(ask(DAY)).version(version);
        let needed = question().granted(&["oak", "OAK", " \u{c4}"]).bytes().len();
        vectors.extend([needed, needed - 1, 0].map(|room| Vector { room, ..derive(question(), spelled) }));
        vectors.push(Vector { room: 300, ..derive(question(), all.join(",").as_bytes()) });
    }
    vectors
}

/// Texts that go wrong, each at another byte, or are cut off.
const UNREADABLE: [&str; 30] = [
    "",
    " ",
    ",",
    "VARCOND='A'",
    "$VARCONDX='A'",
    "$BAN='A'",
    "$VARCOND=A",
    "$VARCOND='A",
    "$VARCOND='A',",
    "$VARCOND='A';$VARCOND='B'",
    "$VARCOND='A' IFA=1",
    "$VARCOND='A' IF AND =1",
    "$VARCOND='A' IF A=NE",
    "$VARCOND='A' IF A=1 ANB B=1",
    "$VARCOND='A' IF A=1 AN",
    "$VARCOND='A' IF A=1AND1=1",
    "$VARCOND='A' IF A=<1",
    "$VARCOND='A' IF A< =1",
    "$VARCOND='A' IF A=1234567890123456789",
    "$VARCOND='A' IF A=- 1",
    "$VARCOND='A' IF A=1.5",
    "$VARCOND='A' IF 1 IN (1)",
    "$VARCOND='A' IF A IN ()",
    "$VARCOND='A' IF A IN (B)",
    "$VARCOND='A' IF A IN (1",
    "$VARCOND='A' IF SPECIFIED (A)",
    "$VARCOND='A' IF SPECIFIED NOT",
    "$VARCOND='A' IF (A=1",
    "$VARCOND='A' IF A=1)",
    "$VARCOND='A' IF \u{c4}=1",
];

/// 14, then 15, alone and where the other would come later.
fn unreadable() -> Vec<Vector> {
    let mut vectors: Vec<Vector> = UNREADABLE.iter().map(|text| derive(ask(DAY), &latin1(text))).collect();
    let deep = |count: usize| format!("$VARCOND='' IF NOT A IN (1) OR {}", "(".repeat(count));
    for text in [deep(16), deep(17), deep(18), deep(16) + "A IN((", deep(16) + "A)("] {
        vectors.push(derive(ask(DAY), text.as_bytes()));
    }
    vectors.push(price(&book_k(), ask(DAY), b"$VARCOND='oak' IF AND "));
    vectors.push(price(&book_k(), ask(DAY), deep(17).as_bytes()));
    vectors
}

/// 16: what is no name, a name too many, and neither where nothing is granted.
fn bad_names() -> Vec<Vector> {
    let many = |count: usize| ["$VARCOND='A'"].repeat(count).join(",");
    let texts = [
        "$VARCOND=''".to_string(),
        " $VARCOND='ABCDEFGHIJKLMNOPQRSTU'".to_string(),
        "$VARCOND='ABCDEFGHIJKLMNOPQRST'".to_string(),
        "$VARCOND='A',$VARCOND='' IF 1=2, $VARCOND='\n',$VARCOND=''".to_string(),
        many(33),
        many(32) + ",$VARCOND='' IF bare=1",
    ];
    let mut vectors: Vec<Vector> = texts.iter().map(|text| Vector { room: 140, ..derive(ask(DAY), text.as_bytes()) }).collect();
    vectors.push(price(&book_k(), ask(DAY), many(33).as_bytes()));
    vectors.push(price(&book(&[]), ask(DAY), b"$VARCOND='oak',$VARCOND='\x7f'"));
    vectors
}

/// 2 in its three forms, and lists of properties that are just good.
fn questions_and_lists() -> Vec<Vector> {
    let text = b"$VARCOND='oak'";
    let raw = |value: &[u8]| make::properties(&[Listed { name: b"A".to_vec(), value: ListedValue::Raw(value.to_vec()) }]);
    let lists = [
        Vec::new(),
        vec![0],
        vec![0, 0],
        vec![1, 0],
        raw(&[3]),
        raw(&[1, 1]),
        raw(&[1, 1, 127]),
        raw(&[2, 0, 0, 0, 0, 0, 0, 0]),
        raw(&[2, 0, 0, 0, 0, 0, 0, 0, 0]),
        make::properties(&vec![Listed::none(""); 64]),
        make::properties(&vec![Listed::none(""); 65]),
    ];
    let mut vectors: Vec<Vector> = lists.into_iter().map(|properties| Vector { properties, ..derive(ask(DAY), text) }).collect();
    for question in [ask(20240631), ask(DAY).granted(&["oak"]), ask(DAY).factored(&[("oak", 1_000)])] {
        vectors.push(derive(question.clone(), b""));
        vectors.push(price(&book_k(), question, text));
    }
    vectors.push(Vector { properties: vec![65], ..price(&book_k(), ask(DAY), b"") });
    vectors
}

/// P1 and P3 by a relation, room that is exact and one byte short, then 1 and 3 to 6, and an umlaut.
fn prices() -> Vec<Vector> {
    let text = b"$VARCOND='oak' IF wood='OAK',$VARCOND='ash' IF wood='ASH',$VARCOND='elm'";
    let without = b"$VARCOND='oak' IF wood='ASH'";
    let k = book_k();
    let with_room = |room| Vector { room, ..price(&k, ask(DAY), text) };
    let foreign = book(&[base(5).into(), Price::fixed("A1", b'X', 5).condition("OAK").currency(b"USD").into()]);
    let great = book(&[base(100_000_000).into(), Price::percent("A1", b'X', 1, 100_000).condition("OAK").into()]);
    let bare = make::book(&[Article::new("A1", "").into()]);
    let green = book(&[base(5).into(), Price::fixed("A1", b'X', 2).condition("GR\u{dc}N").into()]);
    vec![
        price(&k, ask(DAY).quantity(3), text),
        price(&k, ask(DAY).version(2), text),
        price(&k, ask(DAY), without),
        with_room(3 * LINE_LENGTH),
        with_room(3 * LINE_LENGTH - 1),
        price(&[], ask(DAY), b""),
        price(&make::book(&[]), ask(DAY), text),
        price(&bare, ask(DAY), text),
        price(&foreign, ask(DAY), text),
        price(&foreign, ask(DAY), without),
        price(&great, ask(DAY), text),
        price(&green, ask(DAY), b"$VARCOND='gr\xfcn' IF stain='GR\xdcN'"),
    ]
}
