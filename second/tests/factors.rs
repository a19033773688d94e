//! Factors behind granted names: the sums worked by hand, the bytes of a question and of a line, and what is refused.

mod lines;

use lines::{amounts, lines_of, refused, unit, Line, PATTERN};
use second::make::{self, Article, Packaging, Price, Question, Record, Rounding, Scheme};
use second::{
    basket, calendar, calendar_list, final_number, packaging, price, program, question_ok, CalendarAnswer, PackagingAnswer,
    Stretch, Written,
};

const DAY: u32 = 20240615;

fn book(records: &[Record]) -> Vec<u8> {
    make::book(&[&[Article::new("A1", "").into()], records].concat())
}

fn base(cents: i32) -> Price {
    Price::fixed("A1", b'B', cents)
}

fn surcharge(cents: i32) -> Price {
    Price::fixed("A1", b'X', cents)
}

fn ask(date: u32) -> Question {
    Question::new("A1", date)
}

fn oak(date: u32, factor: u16) -> Question {
    ask(date).factored(&[("oak", factor)])
}

fn book_k() -> Vec<u8> {
    book(&[
        base(10000).dates(20240101, 20240630).text(11).into(),
        base(10500).dates(20240701, 20241231).text(12).into(),
        Price::percent("A1", b'X', 1, 1250).condition("OAK").text(13).into(),
        Price::percent("A1", b'D', 2, -333).text(14).into(),
    ])
}

// What a factor does to an amount.

#[test]
fn book_k_by_each_factor() {
    let k = book_k();
    // 12.5 % of 100.00 are 12.50, times the factor; then 3.33 % off the sum so far.
    for (factor, surcharge, discount) in [
        (0, 0, -333),
        (1, 1, -333),
        (999, 1249, -375),
        (1_000, 1250, -375),
        (1_001, 1251, -375),
        (2_000, 2500, -416),
        (10_000, 12500, -749),
    ] {
        let (answer, lines) = lines_of(&k, &oak(20240630, factor).quantity(3));
        let expected: [Line; 3] = [(11, 'B', 0, 10000, 1000), (13, 'X', 1, surcharge, factor), (14, 'D', 0, discount, 1000)];
        assert_eq!(lines, expected);
        let unit = 10000 + surcharge + discount;
        assert_eq!((answer.unit, answer.total, answer.unused, answer.unused_count), (unit, 3 * unit, 0, 0));
    }
    // 12.5 % of 105.00 are 13.125: doubled before they are rounded.
    assert_eq!(amounts(&k, &oak(20240701, 500)), [10500, 656, -371]);
    assert_eq!(amounts(&k, &oak(20240701, 1_000)), [10500, 1313, -393]);
    assert_eq!(amounts(&k, &oak(20240701, 2_000)), [10500, 2625, -437]);
}

#[test]
fn a_base_row_of_a_granted_name() {
    let b = book(&[base(1000).into(), base(333).condition("OAK").into(), Price::percent("A1", b'X', 1, 1000).into()]);
    // What is listed counts for the percentage of the base lines: 3.33 times 1.5 makes 5.00.
    assert_eq!(amounts(&b, &oak(DAY, 1_500)), [1000, 500, 150]);
    assert_eq!(amounts(&b, &oak(DAY, 0)), [1000, 0, 100]);
    assert_eq!(amounts(&b, &oak(DAY, 10_000)), [1000, 3330, 433]);
    // Nothing is still a price.
    let alone = book(&[base(333).condition("OAK").into()]);
    assert_eq!(lines_of(&alone, &oak(DAY, 0)).1, [(0, 'B', 1, 0, 0)]);
    assert_eq!(unit(&alone, &oak(DAY, 0)), Ok(0));
    assert_eq!(unit(&alone, &ask(DAY).factored(&[("ash", 1_000)])), Err(4));
}

#[test]
fn percentages_of_both_rules() {
    let b = book(&[
        base(1000).into(),
        surcharge(500).into(),
        Price::percent("A1", b'X', 1, 1000).condition("OAK").into(),
        Price::percent("A1", b'X', 2, 1000).condition("ASH").into(),
        Price::percent("A1", b'D', 1, -1000).condition("OAK").into(),
        Price::percent("A1", b'D', 2, -1000).condition("ASH").into(),
    ]);
    // 10 % of 1000, times 2.5; 10 % of 1750, times 0.4; then the same below zero, 10 % of 1570 the last.
    let both = ask(DAY).factored(&[("oak", 2_500), ("ash", 400)]);
    assert_eq!(amounts(&b, &both), [1000, 500, 250, 70, -250, -63]);
    // 100 times 0.001 is a tenth of a cent; 10 % of 1500 times 10.
    let ends = ask(DAY).factored(&[("oak", 1), ("ash", 10_000)]);
    assert_eq!(amounts(&b, &ends), [1000, 500, 0, 1500, 0, -3000]);
}

#[test]
fn amounts_below_zero() {
    for (factor, expected) in [(0, 0), (1, 0), (999, -75), (1_000, -75), (1_001, -75), (9_999, -750), (10_000, -750)] {
        let b = book(&[base(1000).into(), Price::fixed("A1", b'D', -75).condition("OAK").into()]);
        assert_eq!(amounts(&b, &oak(DAY, factor)), [1000, expected], "{factor}");
    }
    // -3.33 % of 100.00.
    for (factor, expected) in [(0, 0), (1, 0), (999, -333), (1_001, -333), (1_100, -366), (10_000, -3330)] {
        for rule in [1, 2] {
            let b = book(&[base(10000).into(), Price::percent("A1", b'D', rule, -333).condition("OAK").into()]);
            assert_eq!(amounts(&b, &oak(DAY, factor)), [10000, expected], "{factor}");
        }
    }
}

#[test]
fn halves_that_a_factor_makes() {
    for (value, factor, expected) in
        [(1, 500, 1), (1, 1_500, 2), (3, 2_500, 8), (75, 500, 38), (333, 1_500, 500), (333, 2_500, 833)]
    {
        let with = |value: i32| book(&[base(1000).into(), surcharge(value).condition("OAK").into()]);
        assert_eq!(amounts(&with(value), &oak(DAY, factor)), [1000, expected]);
        assert_eq!(amounts(&with(-value), &oak(DAY, factor)), [1000, -expected]);
    }
    // 10 % of 175 off, half of it: 8.75; of 150: 7.5.
    for (of, expected) in [(175, -9), (150, -8), (130, -7), (128, -6)] {
        let b = book(&[base(of).into(), Price::percent("A1", b'D', 2, -1000).condition("OAK").into()]);
        assert_eq!(amounts(&b, &oak(DAY, 500)), [i64::from(of), expected]);
    }
}

#[test]
fn the_factor_comes_before_add_before() {
    let rounded = |value: i32, rounding: Rounding, factor: u16| {
        let b = book(&[base(10_000).into(), surcharge(value).condition("OAK").rounding(1).into(), rounding.into()]);
        amounts(&b, &oak(DAY, factor))[1]
    };
    // 3.33 times 3 are 9.99; with 0.04 more 10.03, down to 10.00, a cent less.
    assert_eq!(rounded(333, Rounding::new(1, 0, 10).adds(4, -1), 3_000), 999);
    assert_eq!(rounded(333, Rounding::new(1, 0, 10).adds(4, -1), 0), -1);
    assert_eq!(rounded(101, Rounding::new(1, 1, 5), 100), 15);
    assert_eq!(rounded(-101, Rounding::new(1, 1, 5), 100), -10);
    assert_eq!(rounded(-101, Rounding::new(1, 0, 5), 100), -15);
    // Nothing of a part of a cent is lost before: 0.999 of a cent, then 1.001 of it.
    for (way, below, above) in [(0, 0, 1), (1, 1, 2), (2, 1, 1)] {
        assert_eq!(rounded(1, Rounding::new(1, way, 1), 999), below);
        assert_eq!(rounded(1, Rounding::new(1, way, 1), 1_001), above);
    }
}

#[test]
fn a_hair_above_nothing() {
    // A hundredth of a percent of a cent, times 0.001.
    for (way, expected) in [(0, 0), (1, 1), (2, 0)] {
        let b = book(&[
            base(1).into(),
            Price::percent("A1", b'X', 1, 1).condition("OAK").rounding(1).into(),
            Rounding::new(1, way, 1).into(),
        ]);
        assert_eq!(amounts(&b, &oak(DAY, 1)), [1, expected]);
        assert_eq!(amounts(&b, &oak(DAY, 0)), [1, 0]);
    }
}

#[test]
fn one_factor_for_all_lines_of_a_name() {
    let b = book(&[
        base(100).into(),
        base(100).condition("OAK").into(),
        surcharge(100).into(),
        surcharge(100).condition("OAK").into(),
        surcharge(100).condition("ASH").into(),
        Price::fixed("A1", b'D', -100).condition("OAK").into(),
    ]);
    let (answer, lines) = lines_of(&b, &ask(DAY).factored(&[("ash", 20), ("oak", 1_230)]));
    let expected: [Line; 6] = [
        (0, 'B', 0, 100, 1000),
        (0, 'B', 2, 123, 1230),
        (0, 'X', 0, 100, 1000),
        (0, 'X', 1, 2, 20),
        (0, 'X', 2, 123, 1230),
        (0, 'D', 2, -123, 1230),
    ];
    assert_eq!(lines, expected);
    assert_eq!(answer.unit, 325);
}

#[test]
fn a_repeat_keeps_the_first_factor() {
    let b = book(&[base(100).into(), surcharge(100).condition("OAK").into(), surcharge(70).condition("ASH").into()]);
    let names = [("oak", 1_500), ("OAK", 200), ("ash", 0), ("Oak", 10_000), ("Ash", 1_000), ("elm", 5)];
    let (answer, lines) = lines_of(&b, &ask(DAY).factored(&names));
    assert_eq!(lines, [(0, 'B', 0, 100, 1000), (0, 'X', 1, 150, 1500), (0, 'X', 3, 0, 0)]);
    assert_eq!((answer.unused, answer.unused_count), (0b10_0000, 1));
}

#[test]
fn totals_at_the_bound() {
    for sign in [1, -1] {
        let b = |last: i32| book(&[base(sign * 100_000_000).condition("OAK").into(), surcharge(last).into()]);
        let bound = i64::from(sign) * 1_000_000_000;
        assert_eq!(unit(&b(0), &oak(DAY, 10_000)), Ok(bound));
        assert_eq!(unit(&b(-sign), &oak(DAY, 10_000)), Ok(bound - i64::from(sign)));
        assert_eq!(unit(&b(sign), &oak(DAY, 10_000)), Err(6));
        assert_eq!(unit(&b(sign), &oak(DAY, 9_999)), Ok(i64::from(sign) * 999_900_001));
    }
    // A total that comes back was out of range all the same.
    let back = book(&[base(100_000_000).condition("OAK").into(), base(1).condition("PIN").into(), surcharge(-1).into()]);
    assert_eq!(unit(&back, &ask(DAY).factored(&[("oak", 10_000), ("pin", 1_000)])), Err(6));
    assert_eq!(unit(&back, &ask(DAY).factored(&[("oak", 10_000), ("pin", 0)])), Ok(999_999_999));
}

#[test]
fn a_factor_of_nothing_does_not_hide_a_foreign_line() {
    let b = book(&[base(100).into(), surcharge(5).condition("OAK").currency(b"USD").into()]);
    assert_eq!(unit(&b, &oak(DAY, 0)), Err(5));
}

#[test]
fn many_great_factors_do_not_overflow() {
    let names: Vec<String> = (0..32).map(|n| format!("N{n}")).collect();
    let mut rows: Vec<Record> = vec![base(100_000_000).into()];
    for name in &names {
        rows.extend(b"XD".map(|level| Price::percent("A1", level, 2, 100_000).condition(name).into()));
    }
    let names: Vec<(&str, u16)> = names.iter().map(|name| (name.as_str(), 10_000)).collect();
    let question = ask(DAY).factored(&names).currency(&[0; 3]);
    assert_eq!(unit(&book(&rows), &question), Err(6));
    rows.push(Price::fixed("A1", b'D', 1).currency(b"USD").into());
    assert_eq!(unit(&book(&rows), &question), Err(5));
}

// Bytes.

fn hex(bytes: &[u8]) -> String {
    bytes.iter().map(|byte| format!("{byte:02x}")).collect()
}

fn line_bytes(question: &Question) -> String {
    let mut out = [PATTERN; 48];
    assert_eq!(price(&book_k(), &question.bytes(), &mut out).number, 0);
    hex(&out)
}

#[test]
fn lines_have_16_bytes_in_both_versions() {
    let lines = |factor: &str, surcharge: &str| {
        format!("0000000b 42 00 0000000000002710 03e8 0000000d 58 01 {surcharge} {factor} 0000000e 44 00 fffffffffffffe89 03e8")
            .replace(' ', "")
    };
    let plain = lines("03e8", "00000000000004e2");
    assert_eq!(line_bytes(&ask(20240630).granted(&["oak"])), plain);
    assert_eq!(line_bytes(&oak(20240630, 1_000)), plain);
    assert_eq!(line_bytes(&oak(20240630, 1_001)), lines("03e9", "00000000000004e3"));
    for question in [ask(20240630).granted(&["oak"]), oak(20240630, 7)] {
        let mut out = [PATTERN; 47];
        assert_eq!(price(&book_k(), &question.bytes(), &mut out), refused(7));
        assert_eq!(out, [PATTERN; 47]);
    }
}

#[test]
fn a_question_byte_by_byte() {
    let mut good = [
        0, 0, 0, 35, 2, // length, version
        1, b'A', b'S', 0, 0, 0, // article, sort, no currency
        0, 0, 0, 0, 0, 0, 0, 9, // the date comes below; quantity 9
        2, 1, b'o', 0x03, 0xE9, 2, b'e', b'l', 0x27, 0x10, // two granted names with 1,001 and 10,000
        1, 3, 0, 2, b'V', b'w', // a valued property
    ];
    good[11..15].copy_from_slice(&20240229u32.to_be_bytes());
    assert!(question_ok(&good));
    let question = Question { article: make::latin1("A"), currency: [0; 3], quantity: 9, ..ask(20240229) }
        .factored(&[("o", 1_001), ("el", 10_000)])
        .valued(3, "Vw");
    assert_eq!(question.bytes(), good);
    for length in 0..good.len() {
        assert!(!question_ok(&good[..length]));
        let mut cut = good[..length].to_vec();
        if length >= 4 {
            cut[..4].copy_from_slice(&(length as u32).to_be_bytes());
            assert!(!question_ok(&cut), "{length}");
        }
    }
    let mut longer = [&good[..], &[0]].concat();
    longer[3] += 1;
    assert!(!question_ok(&longer));
    // Read as the other version its names end in the wrong places.
    for version in 0..=255 {
        let mut other = good;
        other[4] = version;
        assert_eq!(question_ok(&other), version == 2, "{version}");
    }
    let of_version_1 = ask(DAY).granted(&["o", "el"]).valued(3, "Vw");
    for version in 0..=255 {
        let mut other = of_version_1.bytes();
        other[4] = version;
        assert_eq!(question_ok(&other), version == 1, "{version}");
    }
}

#[test]
fn without_granted_names_both_versions_are_alike() {
    let k = book_k();
    for version in 0..=255 {
        let question = ask(20240630).hidden(1).version(version);
        assert_eq!(question_ok(&question.bytes()), version == 1 || version == 2);
    }
    assert_eq!(lines_of(&k, &ask(20240630).version(2)), lines_of(&k, &ask(20240630)));
}

#[test]
fn all_factors_up_to_10_000() {
    for factor in 0..=u16::MAX {
        assert_eq!(question_ok(&oak(DAY, factor).bytes()), factor <= 10_000, "{factor}");
    }
    for factor in [10_001, 10_240, 16_384, 32_767, 32_768, 65_535] {
        for place in 0..32 {
            let mut question = ask(DAY).factored(&[("oak", 1_000); 32]);
            assert!(question_ok(&question.bytes()));
            question.granted[place].factor = factor;
            assert!(!question_ok(&question.bytes()), "{place} {factor}");
        }
    }
    // A version 1 question has no factors that could be wrong.
    let mut plain = ask(DAY).granted(&["oak"]);
    plain.granted[0].factor = 10_001;
    assert!(question_ok(&plain.bytes()));
}

// Every call takes both versions.

fn packed_book() -> Vec<u8> {
    make::book(&[
        Article::new("A1", "S").into(),
        Scheme::new("S", "/", "_").into(),
        base(100).into(),
        surcharge(5).condition("OAK").dates(20240101, 20240630).into(),
        surcharge(7).condition("OAK").dates(20240701, 20241231).into(),
        Packaging::new("A1", "").value(0, 10).into(),
        Packaging::new("A1", "OAK").value(0, 3).into(),
        Packaging::new("*", "ASH").value(0, 2).into(),
    ])
}

#[test]
fn calendars() {
    let question = oak(20240629, 2_000);
    let input = [&book_k()[..], &question.bytes(), &20250102u32.to_be_bytes()].concat();
    let printed = "20240629 20240630 0 EUR 12084\n20240701 20241231 0 EUR 12688\n20250101 20250102 4 --- 0\n";
    assert_eq!(String::from_utf8(program(&input)).unwrap(), printed);

    let mut list = [Stretch::default(); 3];
    let answer = calendar_list(&book_k(), &question.bytes(), 20250102, &mut list);
    assert_eq!(answer, CalendarAnswer { length: 3, number: 0 });
    assert_eq!(list.map(|stretch| stretch.unit), [12084, 12688, 0]);
    let mut bytes = [PATTERN; 60];
    assert_eq!(calendar(&book_k(), &question.bytes(), 20250102, &mut bytes), CalendarAnswer { length: 60, number: 0 });
    assert_eq!(bytes.to_vec(), list.iter().flat_map(Stretch::bytes).collect::<Vec<u8>>());
}

#[test]
fn a_factor_can_join_stretches() {
    let stretches = |factor: u16| {
        let input = [&packed_book()[..], &oak(20240630, factor).bytes(), &20240701u32.to_be_bytes()].concat();
        String::from_utf8(program(&input)).unwrap()
    };
    assert_eq!(stretches(0), "20240630 20240701 0 EUR 100\n");
    assert_eq!(stretches(1_000), "20240630 20240630 0 EUR 105\n20240701 20240701 0 EUR 107\n");
    // 0.45 and 0.63 of a cent.
    assert_eq!(stretches(90), "20240630 20240630 0 EUR 100\n20240701 20240701 0 EUR 101\n");
}

#[test]
fn factors_are_nothing_to_packaging_and_numbers() {
    for factor in [0, 1_000, 10_000] {
        let question = ask(DAY).factored(&[("oak", factor), ("ash", 500), ("Oak", 3)]).valued(2, "V").bytes();
        let answer = packaging(&packed_book(), &question);
        assert_eq!((answer.number, answer.values), (0, [15, 0, 0, 0, 0, 0, 0, 0]));
        let mut out = [PATTERN; 6];
        assert_eq!(final_number(&packed_book(), &question, &mut out), Written { length: 5, number: 0 });
        assert_eq!(out, [b'A', b'1', b'/', b'V', b' ', PATTERN]);
    }
}

#[test]
fn a_basket_of_both_versions() {
    let questions = [ask(DAY).granted(&["oak"]), oak(DAY, 3_000), ask(DAY).version(2), oak(DAY, 0).quantity(2)];
    let mut out = [PATTERN; 4 * 33 + 7 * 16 + 1];
    let written = basket(&packed_book(), &make::basket(&questions), &mut out);
    assert_eq!(written, Written { length: 4 * 33 + 7 * 16, number: 0 });
    let answer = |unit: &str, total: &str, lines: &str| format!("00{unit:0>16}{total:0>16}455552{lines:0>16}0000000000");
    let base = "00000000 42 00 0000000000000064 03e8";
    let expected = [
        answer("69", "69", "2"),
        answer("73", "73", "2"),
        answer("64", "64", "1"),
        answer("64", "c8", "2"),
        format!("{base} 00000000 58 01 0000000000000005 03e8"),
        format!("{base} 00000000 58 01 000000000000000f 0bb8"),
        base.to_string(),
        format!("{base} 00000000 58 01 0000000000000000 0000"),
    ];
    assert_eq!(hex(&out), expected.concat().replace(' ', "") + "a5");
}

#[test]
fn a_factor_of_10_001_is_refused_by_every_call() {
    let b = packed_book();
    for names in [[("oak", 10_001), ("ash", 1_000)], [("oak", 1_000), ("Oak", 10_001)]] {
        let question = ask(DAY).factored(&names).bytes();
        let mut out = [PATTERN; 300];
        assert_eq!(price(&b, &question, &mut out), refused(2));
        assert_eq!(calendar(&b, &question, DAY, &mut out), CalendarAnswer { length: 0, number: 2 });
        assert_eq!(calendar_list(&b, &question, DAY, &mut [Stretch::default(); 2]), CalendarAnswer { length: 0, number: 2 });
        assert_eq!(final_number(&b, &question, &mut out), Written { length: 0, number: 2 });
        assert_eq!(packaging(&b, &question), PackagingAnswer { number: 2, ..PackagingAnswer::default() });
        let questions = [&ask(DAY).bytes()[..], &question].concat();
        assert_eq!(basket(&b, &questions, &mut out), Written { length: 0, number: 2 });
        assert_eq!(program(&[&b[..], &question, &DAY.to_be_bytes()].concat()), b"refusal 2\n");
        assert_eq!(out, [PATTERN; 300]);
        // Behind a broken book, before a missing article and a bad end.
        assert_eq!(price(&b[1..], &question, &mut out).number, 1);
        assert_eq!(price(&make::book(&[]), &question, &mut out).number, 2);
        assert_eq!(calendar(&b, &question, 0, &mut out).number, 2);
    }
}
