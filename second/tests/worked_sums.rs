//! The sums worked by hand, the traps, and the edges of the layouts.

mod lines;

use lines::{amounts, lines_of, refused, unit, PATTERN};
use second::make::{self, latin1, Article, Packaging, Price, Question, Record, Rounding, Scheme, TextRecord};
use second::{
    book_ok, calendar, calendar_list, final_number, packaging, price, program, question_ok, text, text_book_ok, CalendarAnswer,
    PackagingAnswer, PriceAnswer, Stretch, TextAnswer, Written,
};

fn book<const N: usize>(records: [Record; N]) -> Vec<u8> {
    make::book(&records)
}

fn article(number: &str) -> Record {
    Article::new(number, "").into()
}

fn base(cents: i32) -> Price {
    Price::fixed("A1", b'B', cents)
}

fn surcharge(cents: i32) -> Price {
    Price::fixed("A1", b'X', cents)
}

fn ask(date: u32) -> Question {
    Question::new("A1", date)
}

const DAY: u32 = 20240615;

fn book_k() -> Vec<u8> {
    book([
        article("A1"),
        base(10000).dates(20240101, 20240630).text(11).into(),
        base(10500).dates(20240701, 20241231).text(12).into(),
        Price::percent("A1", b'X', 1, 1250).condition("OAK").text(13).into(),
        Price::percent("A1", b'D', 2, -333).text(14).into(),
    ])
}

// The worked sums.

#[test]
fn p1_to_p4_book_k() {
    let k = book_k();
    let (answer, lines) = lines_of(&k, &ask(20240630).granted(&["oak"]).quantity(3));
    assert_eq!(lines, [(11, 'B', 0, 10000, 1000), (13, 'X', 1, 1250, 1000), (14, 'D', 0, -375, 1000)]);
    assert_eq!(
        answer,
        PriceAnswer { unit: 10875, total: 32625, lines: 3, unused: 0, unused_count: 0, number: 0, currency: *b"EUR" }
    );
    let (answer, lines) = lines_of(&k, &ask(20240701).granted(&["oak"]));
    assert_eq!(lines, [(12, 'B', 0, 10500, 1000), (13, 'X', 1, 1313, 1000), (14, 'D', 0, -393, 1000)]);
    assert_eq!(answer.unit, 11420);
    let (answer, lines) = lines_of(&k, &ask(20240630));
    assert_eq!(lines, [(11, 'B', 0, 10000, 1000), (14, 'D', 0, -333, 1000)]);
    assert_eq!(answer.unit, 9667);
    assert_eq!(unit(&k, &ask(20250101)), Err(4));
    assert_eq!(unit(&k, &ask(20250101).granted(&["oak"])), Err(4));
}

#[test]
fn p5_half_a_cent_of_discount() {
    let b = book([article("A1"), base(50).into(), Price::percent("A1", b'D', 2, -100).into()]);
    assert_eq!(amounts(&b, &ask(DAY)), [50, -1]);
    assert_eq!(unit(&b, &ask(DAY)), Ok(49));
}

#[test]
fn p6_steps() {
    for (way, step, expected) in [(2, 5, 1315), (1, 100, 1400), (0, 100, 1300)] {
        let b = book([
            article("A1"),
            base(10500).into(),
            Price::percent("A1", b'X', 1, 1250).rounding(7).into(),
            Rounding::new(7, way, step).into(),
        ]);
        assert_eq!(amounts(&b, &ask(DAY)), [10500, expected]);
    }
}

#[test]
fn p7_up_to_quantity() {
    let b = book([article("A1"), base(1).up_to(9).into(), base(2).up_to(0).into()]);
    assert_eq!(unit(&b, &ask(DAY).quantity(9)), Ok(1));
    assert_eq!(unit(&b, &ask(DAY).quantity(10)), Ok(2));
}

#[test]
fn p8_final_number() {
    let question = Question::new("T100", DAY).valued(4, "OAK").hidden(2).unselected(3);
    let scheme = Scheme::new("LIST", "", "_");
    let plain = [Article::new("T100", "LIST").into(), scheme.clone().trim(0).into()];
    assert_eq!(number(&make::book(&plain), &question), "T100 OAK _--_XXX");
    let trimmed = [Article::new("T100", "LIST").into(), scheme.trim(1).into()];
    assert_eq!(number(&make::book(&trimmed), &question), "T100 OAK_--_XXX");
}

#[test]
fn p9_gross() {
    let own = Packaging::new("A1", "").value(4, 2000).value(5, 15000).value(6, 2);
    let star = Packaging::new("*", "OAK").value(5, 3000);
    let b = book([article("A1"), own.into(), star.into()]);
    let answer = packaging(&b, &ask(DAY).bytes());
    assert_eq!((answer.number, answer.gross), (0, 32000));
    assert_eq!(
        packaging(&b, &ask(DAY).granted(&["oak"]).bytes()),
        PackagingAnswer {
            gross: 38000,
            values: [0, 0, 0, 0, 2000, 18000, 2, 0],
            number: 0,
            present: 0b0111_0000,
            units: *b"MMTLTRKGM",
        }
    );
}

const CALENDAR_OF_K: &str = "\
20240629 20240630 0 EUR 10875
20240701 20241231 0 EUR 11420
20250101 20250102 4 --- 0
";

fn input(book: &[u8], question: &Question, end: u32) -> Vec<u8> {
    [book, &question.bytes(), &end.to_be_bytes()].concat()
}

#[test]
fn calendar_of_k() {
    let question = ask(20240629).granted(&["oak"]);
    let input = input(&book_k(), &question, 20250102);
    assert_eq!(String::from_utf8(program(&input)).unwrap(), CALENDAR_OF_K);

    let stretches = [
        Stretch { first: 20240629, last: 20240630, unit: 10875, refusal: 0, currency: *b"EUR" },
        Stretch { first: 20240701, last: 20241231, unit: 11420, refusal: 0, currency: *b"EUR" },
        Stretch { first: 20250101, last: 20250102, unit: 0, refusal: 4, currency: [0; 3] },
    ];
    let filled = Stretch { first: 1, last: 2, unit: 3, refusal: 4, currency: *b"abc" };
    let mut list = [filled; 5];
    let written = calendar_list(&book_k(), &question.bytes(), 20250102, &mut list);
    assert_eq!((written.length, written.number), (3, 0));
    assert_eq!(list[..3], stretches);
    assert_eq!(list[3..], [filled; 2]);

    let mut bytes = [PATTERN; 67];
    let written = calendar(&book_k(), &question.bytes(), 20250102, &mut bytes);
    assert_eq!((written.length, written.number), (60, 0));
    let hex: String = bytes[..20].iter().map(|b| format!("{b:02x}")).collect();
    assert_eq!(hex, "0134d8f50134d8f6004555520000000000002a7b");
    let hex: String = bytes[40..60].iter().map(|b| format!("{b:02x}")).collect();
    assert_eq!(hex, "0134fdf50134fdf6040000000000000000000000");
    assert_eq!(bytes[60..], [PATTERN; 7]);

    for room in [0, 59] {
        let mut bytes = vec![PATTERN; room];
        let written = calendar(&book_k(), &question.bytes(), 20250102, &mut bytes);
        assert_eq!((written.length, written.number), (0, 7));
        assert!(bytes.iter().all(|&byte| byte == PATTERN));
    }
    let mut list = [filled; 2];
    let written = calendar_list(&book_k(), &question.bytes(), 20250102, &mut list);
    assert_eq!((written.length, written.number), (0, 7));
    assert_eq!(list, [filled; 2]);
}

// The traps.

#[test]
fn a_row_still_holds_on_its_to_date() {
    let b = book([article("A1"), base(5).dates(20240601, 20240615).into()]);
    assert_eq!(unit(&b, &ask(20240531)), Err(4));
    assert_eq!(unit(&b, &ask(20240601)), Ok(5));
    assert_eq!(unit(&b, &ask(20240615)), Ok(5));
    assert_eq!(unit(&b, &ask(20240616)), Err(4));
}

#[test]
fn currency_is_decided_before_quantity() {
    let b = book([article("A1"), base(100).up_to(5).into(), base(200).currency(b"USD").into()]);
    assert_eq!(unit(&b, &ask(DAY).quantity(6)), Err(4));
    assert_eq!(unit(&b, &ask(DAY).quantity(5)), Ok(100));
    assert_eq!(unit(&b, &ask(DAY).quantity(6).currency(b"USD")), Ok(200));
    assert_eq!(unit(&b, &ask(DAY).quantity(6).currency(b"CHF")), Ok(200));
    assert_eq!(unit(&b, &ask(DAY).quantity(6).currency(&[0; 3])), Ok(200));
    assert_eq!(unit(&b, &ask(DAY).quantity(5).currency(&[0; 3])), Ok(100));
}

#[test]
fn a_percentage_base_row_decides_nothing() {
    let b = book([article("A1"), Price::percent("A1", b'B', 1, 100).into(), base(200).currency(b"USD").into()]);
    let (answer, lines) = lines_of(&b, &ask(DAY));
    assert_eq!((answer.unit, answer.currency), (200, *b"USD"));
    assert_eq!(lines.len(), 1);
}

#[test]
fn rows_of_other_days_do_not_decide_the_currency() {
    let b = book([
        article("A1"),
        base(100).dates(20230101, 20231231).into(),
        base(200).currency(b"USD").into(),
        base(300).dates(20240101, 20240230).into(),
    ]);
    assert_eq!(unit(&b, &ask(DAY)), Ok(200));
}

#[test]
fn percentages_decide_the_currency_of_their_component() {
    let b =
        book([article("A1"), base(100).into(), Price::percent("A1", b'X', 1, 5000).currency(b"USD").into(), surcharge(7).into()]);
    assert_eq!(amounts(&b, &ask(DAY)), [100, 7]);
    // With dollars asked the base stays in euros and the percentage is taken all the same.
    assert_eq!(amounts(&b, &ask(DAY).currency(b"USD")), [100, 50]);
}

#[test]
fn equal_prices_around_a_refused_day_stay_apart() {
    let b = book([article("A1"), base(5).dates(20240228, 20240228).into(), base(5).dates(20240301, 20240302).into()]);
    assert_eq!(
        String::from_utf8(program(&input(&b, &ask(20240228), 20240303))).unwrap(),
        "20240228 20240228 0 EUR 5\n20240229 20240229 4 --- 0\n\
         20240301 20240302 0 EUR 5\n20240303 20240303 4 --- 0\n"
    );
}

#[test]
fn refused_days_are_told_apart_by_their_number() {
    let b = book([
        article("A1"),
        base(100_000_000).dates(20240101, 20240103).into(),
        Price::percent("A1", b'X', 2, 100_000).dates(20240102, 20240102).into(),
        surcharge(1).currency(b"USD").dates(20240103, 20240103).into(),
    ]);
    assert_eq!(
        String::from_utf8(program(&input(&b, &ask(20240101), 20240104))).unwrap(),
        "20240101 20240101 0 EUR 100000000\n20240102 20240102 6 --- 0\n\
         20240103 20240103 5 --- 0\n20240104 20240104 4 --- 0\n"
    );
}

#[test]
fn rule_1_is_of_the_base_lines_only() {
    let b = book([
        article("A1"),
        base(1000).into(),
        base(500).condition("OAK").into(),
        surcharge(9000).into(),
        Price::percent("A1", b'X', 1, 1000).condition("OAK").into(),
        Price::percent("A1", b'D', 1, -1000).into(),
        Price::percent("A1", b'D', 2, -1000).condition("OAK").into(),
    ]);
    assert_eq!(amounts(&b, &ask(DAY).granted(&["OAK"])), [1000, 500, 9000, 150, -150, -1050]);
}

#[test]
fn rule_1_takes_the_base_amounts_as_rounded() {
    let b = book([
        article("A1"),
        base(1049).rounding(1).into(),
        Price::percent("A1", b'X', 1, 10_000).into(),
        Rounding::new(1, 2, 100).adds(2, -1).into(),
    ]);
    assert_eq!(amounts(&b, &ask(DAY)), [1099, 1099]);
}

// Choosing and summing.

#[test]
fn ties_between_rows() {
    let rows = |first: Price, second: Price| book([article("A1"), first.into(), second.into()]);
    // The lesser quantity beats the later start.
    let b = rows(base(1).up_to(10).dates(20240101, 20241231), base(2).up_to(11).dates(20240201, 20241231));
    assert_eq!(unit(&b, &ask(DAY)), Ok(1));
    // Zero is beaten even by the greatest quantity.
    let b = rows(base(1), base(2).up_to(u32::MAX));
    assert_eq!(unit(&b, &ask(DAY)), Ok(2));
    // The later start beats the place in the book.
    let b = rows(base(1), base(2).dates(20240102, 20240615));
    assert_eq!(unit(&b, &ask(DAY)), Ok(2));
    let b = rows(base(1), base(2));
    assert_eq!(unit(&b, &ask(DAY)), Ok(1));
}

#[test]
fn rows_without_days_are_never_chosen() {
    for (from, to) in [
        (20240101, 20241301),
        (20240101, 20240931),
        (20240100, 20241231),
        (0, 99991231),
        (10101, 99991232),
        (20230229, 20241231),
        (20240616, 20240614),
        (1, u32::MAX),
    ] {
        let b = book([article("A1"), base(1).dates(from, to).into()]);
        assert!(book_ok(&b));
        assert_eq!(unit(&b, &ask(DAY)), Err(4), "{from} {to}");
    }
    let b = book([article("A1"), base(1).dates(10101, 99991231).into()]);
    for date in [10101, 20240229, 99991231] {
        assert_eq!(unit(&b, &ask(date)), Ok(1));
    }
}

#[test]
fn rounding_below_zero() {
    // -12.5 in steps of 5, and -11.5 in steps of 1, with a neighbour to each side.
    for (way, step, value, expected) in [
        (0, 5, -1250, -15),
        (1, 5, -1250, -10),
        (2, 5, -1249, -10),
        (2, 5, -1250, -15),
        (2, 5, -1251, -15),
        (0, 1, -1150, -12),
        (1, 1, -1150, -11),
        (2, 1, -1149, -11),
        (2, 1, -1150, -12),
        (2, 1, -1151, -12),
    ] {
        let b = book([
            article("A1"),
            base(100).into(),
            Price::percent("A1", b'D', 1, value).rounding(9).into(),
            Rounding::new(9, way, step).into(),
        ]);
        assert_eq!(amounts(&b, &ask(DAY)), [100, expected], "{way} {step} {value}");
    }
}

#[test]
fn halves_go_to_the_multiple_farther_from_zero() {
    let rounded = |value: i32, rounding: Rounding| {
        let b = book([article("A1"), base(1000).into(), surcharge(value).rounding(3).into(), rounding.into()]);
        amounts(&b, &ask(DAY))[1]
    };
    let commercial = |step| Rounding::new(3, 2, step);
    for (value, step, expected) in [(5, 10, 10), (15, 10, 20), (25, 10, 30), (50, 100, 100), (150, 100, 200), (1, 2, 2), (3, 2, 4)]
    {
        assert_eq!(rounded(value, commercial(step)), expected);
        assert_eq!(rounded(-value, commercial(step)), -expected);
        // A cent nearer to zero, where a cent is less than the half of a step, there is no half.
        if step > 2 {
            let nearer = expected - i64::from(step);
            assert_eq!(rounded(value - 1, commercial(step)), nearer);
            assert_eq!(rounded(1 - value, commercial(step)), -nearer);
        }
    }
    // An odd step has no half of whole cents.
    assert_eq!(rounded(-7, commercial(5)), -5);
    assert_eq!(rounded(-8, commercial(5)), -10);
    // Between zero and the first multiple the latter is the farther; nothing at all stays nothing.
    assert_eq!(rounded(-500_000, commercial(1_000_000)), -1_000_000);
    assert_eq!(rounded(0, commercial(10)), 0);
    // What is rounded is the amount with "add before", whatever its own sign; "add after" comes later.
    assert_eq!(rounded(5, commercial(10).adds(-10, 0)), -10);
    assert_eq!(rounded(-5, commercial(10).adds(10, 0)), 10);
    assert_eq!(rounded(0, commercial(10).adds(-5, 0)), -10);
    assert_eq!(rounded(-5, commercial(10).adds(0, 7)), -3);
    assert_eq!(rounded(-15, commercial(10).adds(0, 1000)), 980);
    // The other ways know no halves.
    assert_eq!(rounded(-5, Rounding::new(3, 0, 10)), -10);
    assert_eq!(rounded(-5, Rounding::new(3, 1, 10)), 0);
}

#[test]
fn halves_of_percentages() {
    // 1 % of -50 and of 50, of the base lines and of the total so far; -50 % of an odd number of cents.
    for (of, hundredths, expected) in [(50, -100, -1), (-50, 100, -1), (50, 100, 1), (-50, -100, 1), (7, -5000, -4), (-7, 5000, -4)]
    {
        for rule in [1, 2] {
            for level in *b"XD" {
                let b = book([article("A1"), base(of).into(), Price::percent("A1", level, rule, hundredths).into()]);
                assert_eq!(amounts(&b, &ask(DAY)), [i64::from(of), expected]);
            }
        }
    }
}

#[test]
fn the_first_rounding_of_a_number_counts() {
    let b = book([
        article("A1"),
        base(149).rounding(3).into(),
        surcharge(149).rounding(4).into(),
        Rounding::new(3, 0, 100).adds(0, 1).into(),
        Rounding::new(3, 1, 100).into(),
    ]);
    assert_eq!(amounts(&b, &ask(DAY)), [101, 149]);
}

#[test]
fn granted_names_are_raised_and_counted_once() {
    let b = book([
        article("A1"),
        base(100).into(),
        surcharge(1).condition("OAK").into(),
        surcharge(2).condition("oak").into(),
        surcharge(3).condition("ASH").into(),
        Price::fixed("A2", b'X', 4).condition("ELM").into(),
        surcharge(5).condition("\u{c4}").into(),
        surcharge(0).condition("NIL").into(),
        surcharge(6).condition("\u{e4}").into(),
    ]);
    let names = ["elm", "oak", "OAK", "Oak", "Ash", "elm", "\u{e4}", "\u{c4}", "nil"];
    let (answer, lines) = lines_of(&b, &ask(DAY).granted(&names));
    let shown: Vec<_> = lines.iter().map(|line| (line.1, line.2, line.3)).collect();
    assert_eq!(shown, [('B', 0, 100), ('X', 2, 1), ('X', 5, 3), ('X', 7, 5), ('X', 9, 0)]);
    assert_eq!((answer.unused, answer.unused_count), (1, 1));
}

/// Of every byte of a name: it is granted in a row with the letter's capital, and in no other.
#[test]
fn letters_of_latin_1_are_raised() {
    let names = (32..=126).chain(160..=255).filter_map(char::from_u32);
    for letter in names {
        let mut capital = letter.to_uppercase();
        let capital = match (capital.next(), capital.next()) {
            // Two letters for sharp s, and of micro and y with two dots none in Latin-1.
            (Some(capital), None) if u32::from(capital) < 256 => capital,
            _ => letter,
        };
        let granted = ask(DAY).granted(&[&letter.to_string()]);
        for row in (32..=126).chain(160..=255).filter_map(char::from_u32) {
            let b = book([article("A1"), base(100).into(), surcharge(5).condition(&row.to_string()).into()]);
            let expected = if row == capital { 105 } else { 100 };
            assert_eq!(unit(&b, &granted), Ok(expected), "{letter} {row}");
        }
    }
}

#[test]
fn umlauts_are_raised_in_every_call() {
    let own = Packaging::new("A1", "").value(0, 7);
    let b = book([
        article("A1"),
        base(100).into(),
        surcharge(5).condition("GR\u{dc}N").into(),
        own.into(),
        Packaging::new("*", "GR\u{dc}N").value(0, 3).into(),
    ]);
    let (answer, lines) = lines_of(&b, &ask(DAY).granted(&["blau", "gr\u{fc}n", "Gr\u{dc}n"]));
    assert_eq!((answer.unit, answer.unused, answer.unused_count), (105, 1, 1));
    assert_eq!((lines[1].1, lines[1].2), ('X', 2));
    let packed = packaging(&b, &ask(DAY).granted(&["gr\u{fc}n", "GR\u{dc}N"]).bytes());
    assert_eq!((packed.number, packed.values[0]), (0, 10));
}

#[test]
fn all_32_places_can_be_unused() {
    let b = book([article("A1"), base(100).into()]);
    let names: Vec<String> = (0..32).map(|n| format!("N{n}")).collect();
    let names: Vec<&str> = names.iter().map(String::as_str).collect();
    let (answer, _) = lines_of(&b, &ask(DAY).granted(&names));
    assert_eq!((answer.unused, answer.unused_count), (u32::MAX, 32));
}

#[test]
fn a_conditioned_base_line_can_be_the_first() {
    let b = book([article("A1"), base(100).condition("OAK").currency(b"USD").into(), surcharge(10).into()]);
    assert_eq!(unit(&b, &ask(DAY)), Err(4));
    assert_eq!(unit(&b, &ask(DAY).granted(&["oak"])), Err(5));
    let b = book([article("A1"), base(100).condition("OAK").currency(b"USD").into(), Price::percent("A1", b'X', 1, 1000).into()]);
    assert_eq!(unit(&b, &ask(DAY).granted(&["oak"])), Ok(110));
}

#[test]
fn a_foreign_line_beats_a_total_out_of_range() {
    let b = book([
        article("A1"),
        base(100_000_000).into(),
        Price::percent("A1", b'X', 1, 100_000).into(),
        Price::fixed("A1", b'D', -1).currency(b"USD").into(),
    ]);
    assert_eq!(unit(&b, &ask(DAY)), Err(5));
    assert_eq!(unit(&b, &ask(DAY).currency(b"USD")), Err(5));
}

#[test]
fn totals_at_the_bound() {
    for sign in [1, -1] {
        let b = |last: Price| {
            book([article("A1"), base(sign * 100_000_000).into(), Price::percent("A1", b'X', 1, 90_000).into(), last.into()])
        };
        let total = i64::from(sign) * 1_000_000_000;
        let zero = b(Price::fixed("A1", b'D', 0));
        assert_eq!(unit(&zero, &ask(DAY)), Ok(total));
        assert_eq!(lines_of(&zero, &ask(DAY).quantity(100_000)).0.total, total * 100_000);
        let back = b(Price::fixed("A1", b'D', -sign));
        assert_eq!(unit(&back, &ask(DAY)), Ok(total - i64::from(sign)));
        let over = b(Price::fixed("A1", b'D', sign));
        assert_eq!(unit(&over, &ask(DAY)), Err(6));
    }
}

#[test]
fn a_total_that_comes_back_is_refused_all_the_same() {
    let b = book([
        article("A1"),
        base(100_000_000).into(),
        Price::percent("A1", b'X', 1, 90_001).into(),
        Price::fixed("A1", b'D', -100_000_000).into(),
    ]);
    assert_eq!(unit(&b, &ask(DAY)), Err(6));
}

#[test]
fn many_percentages_do_not_overflow() {
    let mut records = vec![article("A1"), base(100_000_000).into()];
    let names: Vec<String> = (0..32).map(|n| format!("N{n}")).collect();
    for name in &names {
        for level in *b"XD" {
            let row = Price::percent("A1", level, 2, 100_000).condition(name);
            records.push(row.into());
        }
    }
    let names: Vec<&str> = names.iter().map(String::as_str).collect();
    let question = ask(DAY).granted(&names).currency(&[0; 3]);
    assert_eq!(unit(&make::book(&records), &question), Err(6));
    let foreign = Price::fixed("A1", b'D', 1).condition("N31").currency(b"USD");
    records.insert(1, foreign.into());
    assert_eq!(unit(&make::book(&records), &question), Err(5));
}

#[test]
fn sort_and_article_keep_rows_apart() {
    let b = book([
        article("A1"),
        article("*"),
        base(1).into(),
        base(2).sort(b'P').into(),
        Price::fixed("*", b'B', 3).into(),
        Price::fixed("a1", b'B', 4).into(),
    ]);
    assert_eq!(unit(&b, &ask(DAY)), Ok(1));
    assert_eq!(unit(&b, &ask(DAY).sort(b'P')), Ok(2));
    assert_eq!(unit(&b, &Question::new("*", DAY)), Ok(3));
    assert_eq!(unit(&b, &Question::new("a1", DAY)), Err(3));
}

#[test]
fn room_for_lines() {
    let k = book_k();
    let question = ask(20240630).granted(&["oak"]).bytes();
    for (room, number) in [(0, 7), (42, 7), (47, 7), (48, 0), (49, 0)] {
        let mut out = vec![PATTERN; room];
        let answer = price(&k, &question, &mut out);
        assert_eq!(answer.number, number);
        if number == 7 {
            assert_eq!(answer, refused(7));
            assert!(out.iter().all(|&byte| byte == PATTERN));
        }
    }
}

#[test]
fn order_of_refusals() {
    let bad = [0; 5];
    let empty = make::book(&[]);
    let question = ask(DAY).bytes();
    let number = |book: &[u8], question: &[u8]| price(book, question, &mut []).number;
    assert_eq!(number(&bad, &bad), 1);
    assert_eq!(number(&empty, &bad), 2);
    assert_eq!(number(&empty, &question), 3);
    let rows = make::book(&[base(1).into()]);
    assert_eq!(number(&rows, &question), 3);
    let b = book([article("A1"), surcharge(1).currency(b"USD").into()]);
    assert_eq!(number(&b, &question), 4);

    let number = |book: &[u8], question: &[u8], end| calendar(book, question, end, &mut []).number;
    assert_eq!(number(&bad, &bad, 0), 1);
    assert_eq!(number(&empty, &bad, 0), 2);
    assert_eq!(number(&empty, &question, 0), 9);
    assert_eq!(number(&empty, &question, DAY), 3);
    assert_eq!(number(&b, &question, DAY), 7);

    let number = |book: &[u8], question: &[u8]| final_number(book, question, &mut []).number;
    assert_eq!(number(&bad, &bad), 1);
    assert_eq!(number(&empty, &bad), 2);
    assert_eq!(number(&empty, &question), 3);
    assert_eq!(number(&b, &question), 7);

    let number = |book: &[u8], question: &[u8]| packaging(book, question).number;
    assert_eq!(number(&bad, &bad), 1);
    assert_eq!(number(&empty, &bad), 2);
    assert_eq!(number(&empty, &question), 3);
    assert_eq!(number(&b, &question), 8);
}

// The calendar and its program.

fn calendar_length(book: &[u8], question: &Question, end: u32) -> CalendarAnswer {
    calendar(book, &question.bytes(), end, &mut [0; 1200 * 20])
}

#[test]
fn periods() {
    let b = book([article("A1"), base(1).dates(10101, 99991231).into()]);
    let number = |start, end| calendar_length(&b, &ask(start), end).number;
    // Two years of 365 days and one of 366.
    assert_eq!(number(20230101, 20251231), 0);
    assert_eq!(number(20230101, 20260101), 9);
    assert_eq!(number(20240615, 20240615), 0);
    assert_eq!(number(20240615, 20240614), 9);
    for end in [0, 20240631, 20250229, 99991232, 100000101, u32::MAX] {
        assert_eq!(number(20240615, end), 9, "{end}");
    }
    assert_eq!(number(10101, 10101), 0);
    assert_eq!(number(10101, 40101), 0);
    assert_eq!(number(10101, 40102), 9);
    assert_eq!(number(99991231, 99991231), 0);
    assert_eq!(number(99970101, 99991231), 0);
    assert_eq!(number(99961231, 99991231), 0);
    assert_eq!(number(99961230, 99991231), 9);
}

#[test]
fn one_stretch_per_day_at_most() {
    let mut records = vec![article("A1"), base(1).dates(10101, 99991231).into()];
    let mut day = 20230101;
    for n in 0.. {
        if n % 2 == 1 {
            records.push(base(2).dates(day, day).into());
        }
        if day == 20251231 {
            break;
        }
        day = second::days::next_day(day).unwrap();
    }
    let b = make::book(&records);
    let written = calendar_length(&b, &ask(20230101), 20251231);
    assert_eq!((written.length, written.number), (1096 * 20, 0));
}

#[test]
fn a_change_of_currency_splits_and_a_change_of_lines_does_not() {
    let b = book([
        article("A1"),
        base(7).dates(20240101, 20240101).into(),
        base(3).dates(20240102, 20240102).into(),
        surcharge(4).dates(20240102, 20240102).into(),
        base(7).dates(20240103, 20240103).currency(b"USD").into(),
    ]);
    assert_eq!(
        String::from_utf8(program(&input(&b, &ask(20240101), 20240103))).unwrap(),
        "20240101 20240102 0 EUR 7\n20240103 20240103 0 USD 7\n"
    );
}

#[test]
fn early_days_print_without_zeros_in_front() {
    let b = book([article("A1"), base(-5).dates(10102, 10102).into()]);
    assert_eq!(String::from_utf8(program(&input(&b, &ask(10101), 10102))).unwrap(), "10101 10101 4 --- 0\n10102 10102 0 EUR -5\n");
}

#[test]
fn cut_program_input() {
    let k = book_k();
    let question = ask(20240629).granted(&["oak"]);
    let whole = input(&k, &question, 20250102);
    let question_end = whole.len() - 4;
    for length in 0..whole.len() {
        let expected = if length < k.len() {
            "refusal 1\n"
        } else if length < question_end {
            "refusal 2\n"
        } else {
            "refusal 9\n"
        };
        assert_eq!(program(&whole[..length]), expected.as_bytes(), "{length}");
    }
    let longer = [&whole[..], &[0]].concat();
    assert_eq!(program(&longer), b"refusal 9\n");
    assert_eq!(program(&input(&k, &question, 20250229)), b"refusal 9\n");
    assert_eq!(program(&input(&k, &Question::new("A2", DAY), DAY)), b"refusal 3\n");

    // A broken part is told before a later one that is cut.
    let mut broken = whole.clone();
    broken[4] = 2;
    assert_eq!(program(&broken[..k.len() + 2]), b"refusal 1\n");
    let mut broken = whole.clone();
    broken[k.len() + 4] = 3;
    assert_eq!(program(&broken[..question_end + 1]), b"refusal 2\n");
    let mut short = whole.clone();
    short[k.len()..k.len() + 4].copy_from_slice(&4u32.to_be_bytes());
    assert_eq!(program(&short), b"refusal 2\n");
    let mut short = whole;
    short[..4].copy_from_slice(&0u32.to_be_bytes());
    assert_eq!(program(&short), b"refusal 1\n");
}

#[test]
fn program_input_of_65536_bytes() {
    let question = ask(DAY);
    let mut records = vec![article("A1"), base(3).into()];
    let others = question.bytes().len() + 4;
    let missing = |records: &[Record]| 65_536 - make::book(records).len() - others;
    while missing(&records) > 64 {
        records.push(article(&"F".repeat(40)));
    }
    let missing = missing(&records);
    // The last article is as long as the gap: two bytes of length, the kind, two name lengths.
    let number = "L".repeat(40.min(missing - 5));
    let scheme = "S".repeat(missing - 5 - number.len());
    assert!(scheme.len() < 20);
    records.push(Article::new(&number, &scheme).into());
    let full = input(&make::book(&records), &question, DAY);
    assert_eq!(full.len(), 65_536);
    assert_eq!(program(&full), b"20240615 20240615 0 EUR 3\n");
    records.push(Article::new("A", "").into());
    let over = input(&make::book(&records), &question, DAY);
    assert_eq!(program(&over), b"refusal 1\n");
}

// Final numbers.

fn number(book: &[u8], question: &Question) -> String {
    let mut out = [PATTERN; 2000];
    let written = final_number(book, &question.bytes(), &mut out);
    assert_eq!(written.number, 0);
    let end = written.length as usize;
    assert!(out[end..].iter().all(|&byte| byte == PATTERN));
    out[..end].iter().map(|&byte| char::from(byte)).collect()
}

#[test]
fn schemes_empty_missing_and_repeated() {
    let question = ask(DAY).valued(2, "V");
    let b = book([
        Article::new("A1", "S").into(),
        Article::new("A1", "").into(),
        Article::new("A2", "").into(),
        Article::new("A3", "s").into(),
        Scheme::new("S", "/", "").into(),
        Scheme::new("S", "?", "").into(),
    ]);
    assert_eq!(number(&b, &question), "A1/V ");
    assert_eq!(number(&b, &Question::new("A2", DAY).valued(2, "V")), "A2");
    assert_eq!(number(&b, &Question::new("A3", DAY).valued(2, "V")), "A3");
}

#[test]
fn hidden_and_unselected_values() {
    let b = |scheme: Scheme| book([Article::new("A1", "S").into(), scheme.into()]);
    let question = ask(DAY).hidden(2).valued(3, "V").hidden(1).unselected(2);
    let scheme = Scheme::new("S", "::", "; ");
    assert_eq!(number(&b(scheme.clone()), &question), "A1::--; V  ; -; XX");
    assert_eq!(number(&b(scheme.clone().visibility(0)), &question), "A1::V  ; XX");
    assert_eq!(number(&b(scheme.clone().characters(b'#', 0xff).trim(1)), &question), "A1::##; V; #; \u{ff}\u{ff}");
    let hidden = ask(DAY).hidden(2).hidden(30);
    assert_eq!(number(&b(scheme.clone().visibility(0)), &hidden), "A1");
    assert_eq!(number(&b(scheme.clone()), &ask(DAY)), "A1");
    // Without a separator the values stand close together.
    assert_eq!(number(&b(Scheme::new("S", "", "")), &question), "A1 --V  -XX");
}

#[test]
fn room_for_the_number() {
    let b = book([article("A1")]);
    let question = ask(DAY).bytes();
    for (room, length, number) in [(0, 0, 7), (1, 0, 7), (2, 2, 0), (3, 2, 0)] {
        let mut out = vec![PATTERN; room];
        let written = final_number(&b, &question, &mut out);
        assert_eq!(written, Written { length, number });
    }
}

// Packaging.

#[test]
fn own_packaging_before_that_of_the_star() {
    let b = book([
        article("A1"),
        Packaging::new("*", "OAK").value(0, 1).into(),
        Packaging::new("A1", "").value(0, 10).into(),
        Packaging::new("A1", "").value(0, 20).into(),
        Packaging::new("A1", "OAK").value(0, 100).into(),
        Packaging::new("A1", "OAK").value(0, 200).into(),
        Packaging::new("*", "ASH").value(1, 0).into(),
    ]);
    let answer = packaging(&b, &ask(DAY).granted(&["oak", "ash", "OAK", "elm"]).bytes());
    assert_eq!((answer.number, answer.values[0]), (0, 110));
    // A value of 0 is present all the same.
    assert_eq!(answer.present, 0b11);
    assert_eq!(answer.gross, 0);
}

#[test]
fn no_packaging() {
    let b = book([article("A1"), article("*"), Packaging::new("*", "OAK").into(), Packaging::new("A1", "OAK").into()]);
    let none = PackagingAnswer { number: 8, ..PackagingAnswer::default() };
    assert_eq!(packaging(&b, &ask(DAY).granted(&["oak"]).bytes()), none);
    assert_eq!(packaging(&b, &Question::new("*", DAY).bytes()), none);
}

#[test]
fn packaging_units() {
    let none = [0; 3];
    let b = |first: [[u8; 3]; 3], second: [[u8; 3]; 3]| {
        let units = |units: [[u8; 3]; 3]| Packaging { units, ..Packaging::new("A1", "") };
        book([article("A1"), units(first).into(), Packaging { condition: latin1("OAK"), ..units(second) }.into()])
    };
    let answer = |book: &[u8]| packaging(book, &ask(DAY).granted(&["oak"]).bytes());
    let given = answer(&b([none, none, *b"KGM"], [*b"MMT", none, none]));
    assert_eq!((given.number, given.units), (0, *b"MMT\0\0\0KGM"));
    // A unit counts though no value of it is there.
    let clash = answer(&b([none, none, *b"KGM"], [none, none, *b"LBR"]));
    assert_eq!(clash, PackagingAnswer { number: 11, ..PackagingAnswer::default() });
}

#[test]
fn packaging_signs() {
    let b = |place: usize, first: i32, second: i32| {
        book([
            article("A1"),
            Packaging::new("A1", "").value(place, first).into(),
            Packaging::new("*", "OAK").value(place, second).into(),
        ])
    };
    let question = ask(DAY).granted(&["oak"]).bytes();
    for place in 0..8 {
        let answer = packaging(&b(place, -5, 5), &question);
        assert_eq!((answer.number, answer.present), (0, 1 << place));
        assert_eq!(packaging(&b(place, 5, -6), &question).number, 11);
        assert_eq!(packaging(&b(place, -5, 6), &question).values[place], 1);
    }
}

// Texts.

#[test]
fn texts() {
    let asked = make::text_book(&[TextRecord::new(7, b"seven"), TextRecord::new(7, b"again"), TextRecord::new(0, b"")]);
    let fallback =
        make::text_book(&[TextRecord::new(9, &[0, 255, 10]), TextRecord::new(7, b"other"), TextRecord::new(u32::MAX, b"m")]);
    let found = |place, length, book| TextAnswer { place, length, number: 0, book };
    assert_eq!(text(&asked, &fallback, 7), found(11, 5, 1));
    assert_eq!(text(&asked, &fallback, 0), found(33, 0, 1));
    assert_eq!(text(&asked, &fallback, 9), found(11, 3, 2));
    assert_eq!(text(&asked, &fallback, u32::MAX), found(31, 1, 2));
    assert_eq!(text(&fallback, &asked, 7), found(20, 5, 1));
    let refused = |number| TextAnswer { number, ..TextAnswer::default() };
    assert_eq!(text(&asked, &fallback, 8), refused(12));
    assert_eq!(text(&asked, &fallback[1..], 7), refused(1));
    assert_eq!(text(&[], &fallback, 7), refused(1));
    let empty = [0, 0, 0, 5, 1];
    assert_eq!(text(&empty, &empty, 7), refused(12));
}

// Edges of the layouts.

#[test]
fn the_smallest_books() {
    assert!(book_ok(&[0, 0, 0, 5, 1]));
    assert!(text_book_ok(&[0, 0, 0, 5, 1]));
    for bad in [
        &[][..],
        &[0],
        &[0, 0, 0, 4],
        &[0, 0, 0, 5],
        &[0, 0, 0, 5, 0],
        &[0, 0, 0, 5, 2],
        &[0, 0, 0, 4, 1],
        &[0, 0, 0, 6, 1],
        &[0, 0, 0, 5, 1, 0],
        &[0, 0, 0, 6, 1, 0],
        &[0, 0, 0, 7, 1, 0, 0],
        &[0, 0, 0, 8, 1, 0, 1, 6],
        &[255, 255, 255, 255, 1],
        &[5, 0, 0, 0, 1],
    ] {
        assert!(!book_ok(bad), "{bad:?}");
        assert!(!text_book_ok(bad), "{bad:?}");
        assert!(!question_ok(bad), "{bad:?}");
    }
    // A record with an empty text.
    let one = [0, 0, 0, 11, 1, 0, 0, 0, 1, 0, 0];
    assert!(text_book_ok(&one));
    assert!(!book_ok(&one));
}

#[test]
fn an_article_record_byte_by_byte() {
    let good = [0, 0, 0, 13, 1, 0, 6, 1, 2, b'A', b'1', 1, b'S'];
    assert!(book_ok(&good));
    assert_eq!(make::book(&[Article::new("A1", "S").into()]), good);
    let with = |place: usize, byte: u8| {
        let mut changed = good;
        changed[place] = byte;
        book_ok(&changed)
    };
    for byte in 0..=255 {
        let named = (32..=126).contains(&byte) || byte >= 160;
        assert_eq!(with(9, byte), named, "{byte}");
        assert_eq!(with(12, byte), named, "{byte}");
        assert_eq!(with(7, byte), byte == 1, "{byte}");
        assert_eq!(with(6, byte), byte == 6, "{byte}");
        assert_eq!(with(8, byte), byte == 2, "{byte}");
    }
}

fn good(record: impl Into<Record>) -> bool {
    book_ok(&make::book(&[record.into()]))
}

#[test]
fn name_lengths() {
    let of = |length: usize| "N".repeat(length);
    for length in [0, 1, 8, 9, 20, 21, 40, 41] {
        let name = of(length);
        assert_eq!(good(Article::new(&name, "")), (1..=40).contains(&length));
        assert_eq!(good(Article::new("A", &name)), length <= 20);
        assert_eq!(good(Price::fixed(&name, b'B', 1)), (1..=40).contains(&length));
        assert_eq!(good(base(1).condition(&name)), length <= 20);
        assert_eq!(good(Packaging::new(&name, "")), (1..=40).contains(&length));
        assert_eq!(good(Packaging::new("A", &name)), length <= 20);
        assert_eq!(good(Scheme::new(&name, "", "")), (1..=20).contains(&length));
        assert_eq!(good(Scheme::new("S", &name, "")), length <= 8);
        assert_eq!(good(Scheme::new("S", "", &name)), length <= 8);
        assert_eq!(question_ok(&Question::new(&name, DAY).bytes()), (1..=40).contains(&length));
        assert_eq!(question_ok(&ask(DAY).granted(&[&name]).bytes()), (1..=20).contains(&length));
    }
}

#[test]
fn price_rows() {
    let fields = |change: &dyn Fn(&mut Price)| {
        let mut row = base(1);
        change(&mut row);
        good(row)
    };
    for byte in 0..=255u8 {
        assert_eq!(fields(&|row| row.sort = byte), b"SP".contains(&byte));
        assert_eq!(fields(&|row| row.level = byte), b"BXD".contains(&byte));
        assert_eq!(fields(&|row| row.rule = byte), [1, 2].contains(&byte));
        assert_eq!(fields(&|row| row.fixed = byte), byte < 2);
        let capital = byte.is_ascii_uppercase();
        for place in 0..3 {
            assert_eq!(fields(&|row| row.currency[place] = byte), capital);
        }
    }
    for (fixed, bound) in [(1, 100_000_000), (0, 100_000)] {
        for value in [-bound, 0, bound] {
            assert!(fields(&|row| (row.fixed, row.value) = (fixed, value)));
        }
        for value in [-bound - 1, bound + 1, i32::MIN, i32::MAX] {
            assert!(!fields(&|row| (row.fixed, row.value) = (fixed, value)));
        }
    }
    assert!(fields(&|row| (row.from, row.to) = (u32::MAX, 0)));
    assert!(fields(&|row| (row.up_to, row.text) = (u32::MAX, u32::MAX)));
    assert!(fields(&|row| row.rounding = u16::MAX));
    assert!(fields(&|row| row.currency = *b"AZZ"));
}

#[test]
fn rounding_records() {
    for (number, expected) in [(0, false), (1, true), (u16::MAX, true)] {
        assert_eq!(good(Rounding::new(number, 0, 1)), expected);
    }
    for (way, expected) in [(0, true), (1, true), (2, true), (3, false), (255, false)] {
        assert_eq!(good(Rounding::new(1, way, 1)), expected);
    }
    for (step, expected) in [(0, false), (1, true), (1_000_000, true), (1_000_001, false), (u32::MAX, false)] {
        assert_eq!(good(Rounding::new(1, 2, step)), expected);
    }
    for (add, expected) in [(-1_000_000, true), (1_000_000, true), (-1_000_001, false), (1_000_001, false), (i32::MIN, false)] {
        assert_eq!(good(Rounding::new(1, 2, 1).adds(add, 0)), expected);
        assert_eq!(good(Rounding::new(1, 2, 1).adds(0, add)), expected);
    }
}

#[test]
fn packaging_records() {
    let plain = || Packaging::new("A1", "");
    for place in 0..8 {
        let bound = if place < 6 { 10_000_000 } else { 10_000 };
        for value in [-bound, 0, bound] {
            assert!(good(plain().value(place, value)));
        }
        for value in [-bound - 1, bound + 1, i32::MIN, i32::MAX] {
            assert!(!good(plain().value(place, value)));
        }
        let mut absent = plain().value(place, 1);
        absent.present = 0;
        assert!(!good(absent));
    }
    let none = [0; 3];
    // Which unit each value needs; items and packs need none.
    for (place, unit) in [Some(0), Some(0), Some(0), Some(1), Some(2), Some(2), None, None].into_iter().enumerate() {
        for left_out in 0..3 {
            let mut record = plain().value(place, 0);
            record.units[left_out] = none;
            assert_eq!(good(record), unit != Some(left_out));
        }
    }
    assert!(good(plain().units(&none, &none, &none)));
    let groups: [&[&[u8; 3]]; 3] =
        [&[b"CMT", b"FOT", b"INH", b"MMT", b"MTR"], &[b"INQ", b"LTR", b"MTQ"], &[b"KGM", b"LBR", b"MGM"]];
    for place in 0..3 {
        for (group, units) in groups.iter().enumerate() {
            for unit in *units {
                let mut record = plain();
                record.units[place] = **unit;
                assert_eq!(good(record), group == place);
            }
        }
        for unit in [b"mmt", b"kgm", b"ltr", b"MM\0", b"\0\0M", b"   "] {
            let mut record = plain();
            record.units[place] = *unit;
            assert!(!good(record));
        }
    }
    assert!(!good(Packaging::new("*", "")));
    assert!(good(Packaging::new("*", "OAK")));
    assert!(good(Packaging::new("**", "")));
    assert!(good(Article::new("*", "")));
    assert!(good(Price::fixed("*", b'B', 1)));
}

#[test]
fn scheme_records() {
    let plain = || Scheme::new("S", "", "");
    for byte in 0..=255u8 {
        let named = byte == 0 || (32..=126).contains(&byte) || byte >= 160;
        assert_eq!(good(plain().characters(byte, 0)), named);
        assert_eq!(good(plain().characters(0, byte)), named);
        assert_eq!(good(plain().visibility(byte)), byte < 2);
        assert_eq!(good(Scheme::new("S", "", "_").trim(byte)), byte < 2);
    }
    for (separator, hidden, unselected, expected) in [
        ("", 0, 0, false),
        ("_", 0, 0, true),
        ("-", 0, 0, false),
        ("X", 0, 0, false),
        ("-", b'#', 0, true),
        ("X", 0, b'#', true),
        ("#", b'#', 0, false),
        ("#", 0, b'#', false),
        ("X", b'#', b'-', true),
        ("-", b'#', b'-', false),
        ("--", 0, 0, true),
        ("X-", 0, 0, true),
        ("XX", 0, 0, true),
    ] {
        for visibility in [0, 1] {
            let scheme = Scheme::new("S", "", separator).visibility(visibility).characters(hidden, unselected);
            assert!(good(scheme.clone().trim(0)));
            assert_eq!(good(scheme.trim(1)), expected, "{separator}");
        }
    }
}

#[test]
fn a_body_fills_its_record() {
    for record in [
        Record::from(Article::new("A1", "S")),
        base(1).into(),
        Rounding::new(1, 2, 1).into(),
        Packaging::new("A1", "").into(),
        Scheme::new("S", "", "").into(),
    ] {
        let body = record.bytes()[2..].to_vec();
        assert!(good(Record::Raw(body.clone())));
        assert!(!good(Record::Raw([&body[..], &[0]].concat())));
        for length in 0..body.len() {
            assert!(!good(Record::Raw(body[..length].to_vec())));
        }
    }
    assert!(!good(Record::Raw(vec![0])));
    assert!(!good(Record::Raw(vec![6])));
    assert!(!good(Record::Raw(vec![0; 65_535])));
}

#[test]
fn a_question_byte_by_byte() {
    let mut good = [
        0, 0, 0, 31, 1, // length, version
        1, b'A', b'S', 0, 0, 0, // article, sort, no currency
        0, 0, 0, 0, 0, 1, 134, 160, // the date comes below; quantity 100,000
        1, 1, b'o', // one granted name
        2, 30, 1, 0, 2, 0, 2, b'V', b'w', // a hidden and a valued property
    ];
    good[11..15].copy_from_slice(&20240229u32.to_be_bytes());
    assert!(question_ok(&good));
    let question = Question { article: latin1("A"), currency: [0; 3], quantity: 100_000, ..ask(20240229) }
        .granted(&["o"])
        .hidden(30)
        .valued(2, "Vw");
    assert_eq!(question.bytes(), good);
    for length in 0..good.len() {
        assert!(!question_ok(&good[..length]));
        let mut cut = good[..length].to_vec();
        if length >= 4 {
            cut[..4].copy_from_slice(&(length as u32).to_be_bytes());
            assert!(!question_ok(&cut));
        }
    }
    let mut longer = [&good[..], &[0]].concat();
    assert!(!question_ok(&longer));
    longer[3] += 1;
    assert!(!question_ok(&longer));
}

#[test]
fn question_fields() {
    let with = |change: &dyn Fn(&mut Question)| {
        let mut question = ask(DAY);
        change(&mut question);
        question_ok(&question.bytes())
    };
    for byte in 0..=255u8 {
        assert_eq!(with(&|q| q.sort = byte), b"SP".contains(&byte));
        for place in 0..3 {
            let capital = byte.is_ascii_uppercase();
            assert_eq!(with(&|q| q.currency[place] = byte), capital);
        }
    }
    assert!(with(&|q| q.currency = [0; 3]));
    for (quantity, expected) in [(0, false), (1, true), (100_000, true), (100_001, false)] {
        assert_eq!(with(&|q| q.quantity = quantity), expected);
    }
    for (date, expected) in [
        (0, false),
        (101, false),
        (10101, true),
        (10100, false),
        (99991231, true),
        (100000101, false),
        (20240229, true),
        (20230229, false),
        (19000229, false),
        (20000229, true),
        (20240431, false),
        (20240001, false),
        (20241301, false),
        (u32::MAX, false),
    ] {
        assert_eq!(with(&|q| q.date = date), expected, "{date}");
    }
    for (count, expected) in [(32, true), (33, false), (255, false)] {
        assert_eq!(with(&|q| q.granted = vec![make::Granted::new(latin1("N")); count]), expected);
        let property = make::Property { width: 1, state: 1, value: Vec::new() };
        assert_eq!(with(&|q| q.properties = vec![property.clone(); count]), expected);
    }
}

#[test]
fn question_properties() {
    let good = |width, state, value: &str| question_ok(&ask(DAY).property(width, state, value).bytes());
    for (width, expected) in [(0, false), (1, true), (30, true), (31, false)] {
        assert_eq!(good(width, 0, "V"), expected);
        assert_eq!(good(width, 1, ""), expected);
        assert_eq!(good(width, 2, ""), expected);
    }
    for state in 0..=255 {
        assert_eq!(good(3, state, "V"), state == 0);
        assert_eq!(good(3, state, ""), state == 1 || state == 2);
    }
    assert!(good(3, 0, "abc"));
    assert!(!good(3, 0, "abcd"));
    assert!(good(30, 0, &"v".repeat(30)));
    for byte in 0..=255u8 {
        let allowed = (33..=126).contains(&byte) && byte != b'\\' || byte >= 161;
        let value = String::from(char::from(byte));
        assert_eq!(good(3, 0, &value), allowed, "{byte}");
    }
}

#[test]
fn book_size_limit() {
    const LIMIT: usize = 4_194_304;
    let texts = |lengths: &[usize]| {
        let records: Vec<TextRecord> = lengths.iter().map(|&length| TextRecord::new(1, &vec![0; length])).collect();
        make::text_book(&records)
    };
    let mut lengths = vec![65_535; 63];
    let used = texts(&lengths).len() + 6;
    lengths.push(LIMIT - used);
    let full = texts(&lengths);
    assert_eq!(full.len(), LIMIT);
    assert!(text_book_ok(&full));
    lengths[63] += 1;
    assert!(!text_book_ok(&texts(&lengths)));

    // A record of one article takes 45 bytes with its longest number.
    let mut records: Vec<Record> = vec![article(&"N".repeat(40)); (LIMIT - 5) / 45 - 1];
    let missing = LIMIT - make::book(&records).len();
    let (first, second) = (missing / 2, missing - missing / 2);
    records.push(Article::new(&"N".repeat(first - 5), "").into());
    records.push(Article::new(&"N".repeat(second - 5), "").into());
    let full = make::book(&records);
    assert_eq!(full.len(), LIMIT);
    assert!(book_ok(&full));
    records.pop();
    records.push(Article::new(&"N".repeat(second - 4), "").into());
    let over = make::book(&records);
    assert_eq!(over.len(), LIMIT + 1);
    assert!(!book_ok(&over));
}

#[test]
fn struct_layouts() {
    use std::mem::{offset_of, size_of};
    assert_eq!(size_of::<PriceAnswer>(), 40);
    assert_eq!(offset_of!(PriceAnswer, unused), 24);
    assert_eq!(offset_of!(PriceAnswer, unused_count), 28);
    assert_eq!(offset_of!(PriceAnswer, number), 29);
    assert_eq!(offset_of!(PriceAnswer, currency), 30);
    assert_eq!(size_of::<CalendarAnswer>(), 16);
    assert_eq!(offset_of!(CalendarAnswer, number), 8);
    assert_eq!(size_of::<Written>(), 16);
    assert_eq!(offset_of!(Written, number), 8);
    assert_eq!(size_of::<Stretch>(), 24);
    assert_eq!(offset_of!(Stretch, unit), 8);
    assert_eq!(offset_of!(Stretch, refusal), 16);
    assert_eq!(offset_of!(Stretch, currency), 17);
    assert_eq!(size_of::<PackagingAnswer>(), 88);
    assert_eq!(offset_of!(PackagingAnswer, number), 72);
    assert_eq!(offset_of!(PackagingAnswer, present), 73);
    assert_eq!(offset_of!(PackagingAnswer, units), 74);
    assert_eq!(size_of::<TextAnswer>(), 24);
    assert_eq!(offset_of!(TextAnswer, number), 16);
    assert_eq!(offset_of!(TextAnswer, book), 17);
}

#[test]
fn no_byte_of_k_can_make_a_call_panic() {
    let k = book_k();
    let question = ask(20240629).granted(&["oak"]).valued(3, "V").bytes();
    let run = |book: &[u8], question: &[u8]| {
        let mut out = [0; 100];
        price(book, question, &mut out);
        calendar(book, question, 20240702, &mut out);
        final_number(book, question, &mut out);
        packaging(book, question);
        text(book, question, 1);
        program(&[book, question, &20240702u32.to_be_bytes()].concat());
    };
    for place in 0..k.len() {
        for bit in 0..8 {
            let mut changed = k.clone();
            changed[place] ^= 1 << bit;
            run(&changed, &question);
            run(&changed[..place], &question);
        }
    }
    for place in 0..question.len() {
        for bit in 0..8 {
            let mut changed = question.clone();
            changed[place] ^= 1 << bit;
            run(&k, &changed);
            run(&k, &changed[..place]);
        }
    }
}
