//! The sums worked by hand, and the traps.

use second::compare::Call;
use second::file_compare::FileCall;
use second::make::{self, Article, Packaging, Price, Question, Record, Rounding, Scheme, TextRecord};
use second::price::LINE_LENGTH;

use crate::vector::{Asked, Vector};

pub fn vectors() -> Vec<Vector> {
    let mut vectors = sums_of_k();
    vectors.extend(rounded_and_scaled());
    vectors.extend(traps());
    vectors.extend(umlauts());
    vectors.extend(factors());
    vectors.extend(factors_out_of_range());
    vectors.extend(order_and_cartons());
    vectors.extend(texts());
    vectors.extend(baskets());
    vectors.extend(read_files());
    vectors.extend(bad_files());
    vectors.extend(written_files());
    vectors
}

pub fn book(records: &[Record]) -> Vec<u8> {
    make::book(&[&[Article::new("A1", "").into()], records].concat())
}

fn price(book: &[u8], question: Question) -> Vector {
    Vector { room: 50, ..Vector::new(Asked::Call(Call::Price), book.to_vec(), question.bytes()) }
}

fn calendar(book: &[u8], question: Question, end: u32) -> Vector {
    Vector { call: Asked::Call(Call::Calendar), number: end, room: 70, ..price(book, question) }
}

fn other(call: Call, book: &[u8], question: Question) -> Vector {
    Vector { call: Asked::Call(call), ..price(book, question) }
}

pub fn base(cents: i32) -> Price {
    Price::fixed("A1", b'B', cents)
}

pub fn ask(date: u32) -> Question {
    Question::new("A1", date)
}

pub fn book_k() -> Vec<u8> {
    book(&[
        base(10_000).dates(20240101, 20240630).into(),
        base(10_500).dates(20240701, 20241231).into(),
        Price::percent("A1", b'X', 1, 1250).condition("OAK").into(),
        Price::percent("A1", b'D', 2, -333).into(),
    ])
}

/// P1 to P4, the calendar, and the same with room that is exact and one byte short.
fn sums_of_k() -> Vec<Vector> {
    let k = book_k();
    let oak = |date| ask(date).granted(&["oak"]);
    let with_room = |vector: Vector, room| Vector { room, ..vector };
    vec![
        price(&k, oak(20240630)),
        price(&k, oak(20240701)),
        price(&k, ask(20240630)),
        price(&k, oak(20250101)),
        with_room(price(&k, oak(20240630)), 3 * LINE_LENGTH),
        with_room(price(&k, oak(20240630)), 3 * LINE_LENGTH - 1),
        calendar(&k, oak(20240629), 20250102),
        with_room(calendar(&k, oak(20240629), 20250102), 60),
        with_room(calendar(&k, oak(20240629), 20250102), 59),
        calendar(&k, oak(20240101), 20261231),
        calendar(&k, oak(20240101), 20270101),
    ]
}

/// P5 to P7, and halves like that of P5.
fn rounded_and_scaled() -> Vec<Vector> {
    let day = 20240615;
    let half_a_cent = book(&[base(50).into(), Price::percent("A1", b'D', 2, -100).into()]);
    let mut vectors = vec![price(&half_a_cent, ask(day))];
    for (way, step) in [(2, 5), (1, 100), (0, 100)] {
        let surcharge = Price::percent("A1", b'X', 1, 1250).rounding(1);
        let rounding = Rounding::new(1, way, step);
        let rounded = book(&[base(10_500).into(), surcharge.into(), rounding.into()]);
        vectors.push(price(&rounded, ask(day)));
    }
    // Halves of a step on either side of zero, with and without "add before".
    for (value, add_before) in [(-5, 0), (5, 0), (-15, 0), (5, -10), (-5, 10), (-4, 0), (-6, 0)] {
        let discount = Price::fixed("A1", b'D', value).rounding(1);
        let rounding = Rounding::new(1, 2, 10).adds(add_before, 0);
        vectors.push(price(&book(&[base(100).into(), discount.into(), rounding.into()]), ask(day)));
    }
    let scaled = book(&[base(900).up_to(9).into(), base(800).into()]);
    vectors.extend([9, 10].map(|quantity| price(&scaled, ask(day).quantity(quantity))));
    vectors
}

fn traps() -> Vec<Vector> {
    let day = 20240615;
    let last_day = book(&[base(100).dates(20240101, day).into()]);
    let too_few = book(&[base(100).up_to(1).into(), base(90).currency(b"USD").into()]);
    let share = Price::percent("A1", b'B', 1, 100);
    let no_euros = book(&[share.into(), base(90).currency(b"USD").into()]);
    let with_a_gap = book(&[base(100).dates(20240601, 20240610).into(), base(100).dates(20240612, 20240620).into()]);
    let surcharges = book(&[
        base(1_000).into(),
        Price::fixed("A1", b'X', 500).into(),
        Price::percent("A1", b'X', 1, 1_000).condition("OAK").into(),
    ]);
    vec![
        price(&last_day, ask(day)),
        calendar(&last_day, ask(20240614), 20240616),
        price(&too_few, ask(day).quantity(2)),
        price(&no_euros, ask(day)),
        calendar(&with_a_gap, ask(20240609), 20240613),
        price(&surcharges, ask(day).granted(&["Oak", "OAK", "ash"])),
    ]
}

/// Letters of Latin-1 raised, in prices, repeats, the unused set and cartons; what stands 32 behind another byte and is no letter; and
/// rows in small letters.
fn umlauts() -> Vec<Vector> {
    let day = 20240615;
    let green = book(&[
        base(100).into(),
        Price::fixed("A1", b'X', 1).condition("GR\u{dc}N").into(),
        Price::fixed("A1", b'X', 2).condition("gr\u{fc}n").into(),
        Price::fixed("A1", b'X', 4).condition("\u{c0}\u{d6}\u{d8}\u{de}").into(),
        Packaging::new("A1", "").value(0, 7).into(),
        Packaging::new("*", "GR\u{dc}N").value(0, 5).into(),
    ]);
    let mut vectors = vec![
        price(&green, ask(day).granted(&["gr\u{fc}n"])),
        price(&green, ask(day).granted(&["blau", "Gr\u{fc}n", "GR\u{dc}N", "gr\u{dc}n"])),
        price(&green, ask(day).factored(&[("gr\u{fc}n", 3_000), ("GR\u{dc}N", 7_000)])),
        price(&green, ask(day).granted(&["\u{e0}\u{f6}\u{f8}\u{fe}"])),
        calendar(&green, ask(day).granted(&["gr\u{fc}n"]), day),
        other(Call::Packaging, &green, ask(day).granted(&["gr\u{fc}n", "GR\u{dc}N"])),
        basket(&green, &[ask(day), ask(day).granted(&["GR\u{fc}N"])], 2 * 33 + 3 * LINE_LENGTH),
    ];
    for (byte, before) in [("\u{df}", "\u{bf}"), ("\u{f7}", "\u{d7}"), ("\u{ff}", "\u{df}")] {
        for row in [byte, before] {
            let marked = book(&[base(100).into(), Price::fixed("A1", b'X', 1).condition(row).into()]);
            vectors.push(price(&marked, ask(day).granted(&[byte])));
        }
    }
    vectors
}

/// Questions of version 2: K by each factor at an end or next to one, rows of all levels with rounding, repeats, and the calls
/// in whose answer no factor shows.
fn factors() -> Vec<Vector> {
    let day = 20240615;
    let k = book_k();
    let mut vectors: Vec<Vector> =
        [0, 1, 999, 1_000, 1_001, 10_000].iter().map(|factor| price(&k, ask(20240630).factored(&[("oak", *factor)]))).collect();
    let levels = book(&[
        base(1_000).into(),
        base(333).condition("OAK").rounding(1).into(),
        Price::percent("A1", b'X', 1, 1_250).condition("OAK").into(),
        Price::fixed("A1", b'X', -75).condition("ASH").rounding(1).into(),
        Price::percent("A1", b'D', 2, -1_000).condition("ASH").rounding(2).into(),
        Rounding::new(1, 0, 10).adds(4, -1).into(),
        Rounding::new(2, 1, 5).adds(-3, 0).into(),
        Packaging::new("A1", "").value(0, 7).into(),
        Packaging::new("*", "ASH").value(0, 5).into(),
    ]);
    let both = || ask(day).factored(&[("oak", 1_500), ("Oak", 9), ("ash", 500), ("OAK", 10_000), ("elm", 0)]);
    let with_room = |vector: Vector, room| Vector { room, ..vector };
    let needed = 5 * LINE_LENGTH;
    vectors.extend([
        with_room(price(&levels, both()), needed + 3),
        with_room(price(&levels, both()), needed),
        with_room(price(&levels, both()), needed - 1),
        calendar(&levels, both(), day),
        calendar(&k, ask(20240629).factored(&[("oak", 2_000)]), 20250102),
        other(Call::FinalNumber, &levels, both().valued(3, "V")),
        other(Call::Packaging, &levels, both()),
        basket(&levels, &[both(), ask(day).granted(&["oak"]), ask(day).version(2)], 3 * 33 + 9 * LINE_LENGTH),
    ]);
    vectors
}

/// A factor out of range refuses every call, also behind a repeat.
fn factors_out_of_range() -> Vec<Vector> {
    let k = book_k();
    let over = || ask(20240630).factored(&[("oak", 1_000), ("ash", 10_001)]);
    let repeat = || ask(20240630).factored(&[("oak", 1_000), ("Oak", 10_001)]);
    vec![
        price(&k, over()),
        price(&k, repeat()),
        price(&k, ask(20240630).factored(&[("oak", u16::MAX)])),
        price(&k, ask(20240630).granted(&["oak"]).version(3)),
        calendar(&k, over(), 20240630),
        other(Call::FinalNumber, &k, repeat()),
        other(Call::Packaging, &k, over()),
        basket(&k, &[ask(20240630), repeat()], 100),
    ]
}

/// P8 and P9.
fn order_and_cartons() -> Vec<Vector> {
    let mut vectors = Vec::new();
    for trim in [0, 1] {
        let scheme = Scheme::new("S1", "", "_").trim(trim);
        let numbered = make::book(&[Article::new("T100", "S1").into(), scheme.into()]);
        let question = Question::new("T100", 20240615).valued(4, "OAK").hidden(2).unselected(3);
        vectors.push(other(Call::FinalNumber, &numbered, question));
    }
    let own = Packaging::new("A1", "").value(4, 2_000).value(5, 15_000).value(6, 2);
    let any = Packaging::new("*", "OAK").value(5, 3_000);
    let packed = book(&[own.into(), any.into()]);
    for granted in [&[][..], &["oak"][..]] {
        let question = ask(20240615).granted(granted);
        vectors.push(other(Call::Packaging, &packed, question));
    }
    vectors
}

fn texts() -> Vec<Vector> {
    let asked = make::text_book(&[TextRecord::new(7, b"Eiche"), TextRecord::new(7, b"oak")]);
    let fallback = make::text_book(&[TextRecord::new(8, b""), TextRecord::new(9, b"ash")]);
    let text = |number| Vector { number, ..Vector::new(Asked::Call(Call::Text), asked.clone(), fallback.clone()) };
    (6..10).map(text).collect()
}

fn basket(book: &[u8], questions: &[Question], room: usize) -> Vector {
    Vector { room, ..Vector::new(Asked::Call(Call::Basket), book.to_vec(), make::basket(questions)) }
}

/// None, P1, P1 to P4 with a missing article among them, too little room and a broken question, then as many as may be and one
/// more.
fn baskets() -> Vec<Vector> {
    let k = book_k();
    let oak = |date| ask(date).granted(&["oak"]);
    let several = [oak(20240630), oak(20250101), Question::new("A2", 20240630), ask(20240630), oak(20240701).quantity(3)];
    // Five answers, and eight lines of the three that have a price.
    let needed = 5 * 33 + 8 * LINE_LENGTH;
    let with_a_broken_one = [oak(20240630), oak(20240631)];
    let mut cut = basket(&k, &several, needed);
    cut.second.pop();
    let many = |count| vec![Question::new("A", 20240630); count];
    vec![
        basket(&k, &[], 4),
        basket(&k, &several[..1], 90),
        basket(&k, &several, needed + 5),
        basket(&k, &several, needed),
        basket(&k, &several, needed - 1),
        basket(&k, &with_a_broken_one, 200),
        cut,
        basket(&k, &many(60), 60 * 33),
        // Longer answers than the program lends room for: the room is missed only after the questions were counted.
        basket(&k, &many(200), 0),
        basket(&k, &many(201), 0),
    ]
}

fn read(file: &str, room: usize) -> Vector {
    Vector { room, ..Vector::new(Asked::File(FileCall::Read), make::latin1(file), Vec::new()) }
}

/// Book K as its manufacturer has it; three records of 36 bytes and one of 39.
const FILE_K: &str = "# Prices of 2024\n\
    A1;;S;B;1;base;100.00;1;EUR;20240101;20240630;0;\n\
    A1;;S;B;1;base;105.00;1;EUR;20240701;20241231;0;\n\
    \n\
    A1;OAK;S;X;1;oak;12.50;0;EUR;20240101;20241231;0;\n\
    A1;;S;D;2;;-3.33;0;EUR;20240101;20241231;0;\n";
const RECORDS_K: usize = 3 * 36 + 39;

/// Files without a row, K with room that is exact and one byte short, quotes and spaces, forms of numbers, blank dates, and a last
/// line without an end.
fn read_files() -> Vec<Vector> {
    let quoted = "\"#1\" ;\"O;K\";\"S\";\"B\"  ;\"1\";\"t\"\"\";\".5\";\"1\";\"EUR\";\"\";\"\"   ;\"007\";\"\"\n\
        A\"1;\u{c4};P;D;2;t\";-0.00;0;USD;;00000000;4294967295;";
    let numbers = "A;;S;B;1;;5.;1;EUR;;;0;\nA;;S;B;1;;12.3400;1;EUR;;;0;\nA;;S;B;1;;-1000000.00;1;EUR;99999999;20230229;1;\n";
    vec![
        read("", 0),
        read("#\r\n \t\n\n#\"", 4),
        read(FILE_K, RECORDS_K + 5),
        read(FILE_K, RECORDS_K),
        read(FILE_K, RECORDS_K - 1),
        read(quoted, 90),
        read(numbers, 120),
    ]
}

/// K with a row in line 6 spoilt, each in another way; then what is bad comes before too little room, and the first bad line counts.
fn bad_files() -> Vec<Vector> {
    let last = "A1;;S;D;2;;-3.33;0;EUR;20240101;20241231;0;";
    let spoilt = |from: &str, to: &str| read(&FILE_K.replace(last, &last.replace(from, to)), RECORDS_K);
    vec![
        spoilt("-3.33", "-3.331"),
        spoilt("-3.33", "+3.33"),
        spoilt("-3.33", "-3,33"),
        spoilt("-3.33", "-1000.01"),
        spoilt("20241231", "2024123"),
        spoilt(";0;", ";0;;"),
        spoilt(";0;", ";0;R"),
        spoilt(";0;", ";0;\r"),
        spoilt("A1;;", "A1;\";"),
        spoilt("A1;;", "A1;\"\"x;"),
        spoilt("EUR", "eur"),
        spoilt("EUR", "E\0R"),
        spoilt("EUR", ""),
        spoilt(last, "A1"),
        read(&FILE_K.replace('\n', "\r\n"), RECORDS_K),
        read(&format!("{FILE_K}bad\nbad"), 0),
    ]
}

fn write(records: &[Record], room: usize) -> Vector {
    Vector { room, ..Vector::new(Asked::File(FileCall::Write), make::book(records), Vec::new()) }
}

/// K with room that is enough, exact and one byte short, no price record at all, quotes, the ends of numbers, records that make no
/// line, and a broken book.
fn written_files() -> Vec<Vector> {
    let with_room = |room| Vector { room, ..Vector::new(Asked::File(FileCall::Write), book_k(), Vec::new()) };
    let needed = 2 * 45 + 47 + 44;
    let named =
        |article: &str, condition: &str| Record::from(Price { article: make::latin1(article), ..base(5).condition(condition) });
    let quotes = [named("#", "#"), named("\"", ";"), named("A\"1", " \""), named("#;\"", "\"\"")];
    let ends = [
        base(-100_000_000).text(u32::MAX).dates(0, 0).up_to(u32::MAX).into(),
        Price::percent("A1", b'D', 2, -5).text(7).dates(1, 99_999_999).sort(b'P').currency(b"USD").into(),
        base(0).dates(10_101, 20_230_229).into(),
    ];
    let article = || Record::from(Article::new("A1", ""));
    let mut cut = with_room(needed);
    cut.first.pop();
    vec![
        with_room(needed),
        with_room(needed - 1),
        cut,
        write(&[article()], 0),
        write(&quotes, 300),
        write(&ends, 300),
        write(&[article(), base(5).into(), base(5).rounding(1).into(), base(5).dates(100_000_000, 0).into()], 100),
        write(&[base(5).into(), Rounding::new(1, 2, 5).into(), base(5).dates(0, 100_000_000).into()], 0),
        with_room(200),
    ]
}
