//! Answers: each question's is its own, in the order of the questions, and the lines stand behind them all.

use super::{answered, priced, priced_times, without, written, Part, Vector};
use crate::book;
use crate::parts::{ask, base, extra, hex, k, off, DAY};
use crate::price::Line;
use second::make::{self, Article, Granted, Price, Question, Record};

pub fn vectors() -> Vec<Vector> {
    [sums(), refused_between(), own_terms(), own_names(), own_factors(), lengths()].concat()
}

fn in_hex(shows: &str, questions: &[Question], bytes: &str) -> Vector {
    written(shows, &k(), questions, hex(bytes).expect("hex digits"))
}

/// P1 to P4 of book K, byte by byte: numbers, unit totals, totals, currencies, lines, unused sets and their counts; then lines.
fn sums() -> Vec<Vector> {
    let oak = |date| ask(date).granted(&["oak"]);
    let p1 = "01020304 42 00 0000000000002710 03e8 00000007 58 01 00000000000004e2 03e8 80000000 44 00 fffffffffffffe89 03e8";
    let p2 = "ffffffff 42 00 0000000000002904 03e8 00000007 58 01 0000000000000521 03e8 80000000 44 00 fffffffffffffe77 03e8";
    let p3 = "01020304 42 00 0000000000002710 03e8 80000000 44 00 fffffffffffffeb3 03e8";
    let one = "00 0000000000002a7b 0000000000002a7b 455552 0000000000000003 00000000 00";
    let three = "00 0000000000002a7b 0000000000007f71 455552 0000000000000003 00000000 00";
    let two = "00 0000000000002c9c 0000000000002c9c 455552 0000000000000003 00000000 00";
    let plain = "00 00000000000025c3 00000000000025c3 455552 0000000000000002 00000000 00";
    let none = "04 0000000000000000 0000000000000000 000000 0000000000000000 00000000 00";
    let all = [oak(20240630), oak(20240701), ask(20240630), ask(20250101)];
    let turned: Vec<Question> = all.iter().rev().cloned().collect();
    vec![
        in_hex("P1 alone", &all[..1], &[one, p1].concat()),
        in_hex("P1 three times over", &[oak(20240630).quantity(3)], &[three, p1].concat()),
        in_hex("P1 to P4", &all, &[one, two, plain, none, p1, p2, p3].concat()),
        in_hex("P4 to P1", &turned, &[none, plain, two, one, p3, p2, p1].concat()),
        in_hex("P4 alone", &all[3..], none),
        in_hex("P1 twice", &[oak(20240630), oak(20240630)], &[one, one, p1, p1].concat()),
    ]
}

/// Articles `A1`, `A4` without a base row, `A5` in two currencies, `A6` with too high a total; there is no `A3`.
fn refused_between() -> Vec<Vector> {
    let of = |article: &str, row: Price| Price { article: article.into(), ..row };
    let mut records: Vec<Record> = ["A1", "A4", "A5", "A6"].map(|name| Article::new(name, "").into()).to_vec();
    records.extend([
        base(1, 1_000).into(),
        of("A3", base(3, 1)).into(),
        of("A4", extra(4, 1)).into(),
        of("A5", base(5, 1)).into(),
        of("A5", extra(6, 1).currency(b"USD")).into(),
        of("A6", base(7, 100_000_000)).into(),
        of("A6", Price::percent("A6", b'X', 1, 100_000)).into(),
    ]);
    let book = make::book(&records);
    let good = (ask(DAY), priced(&[(1, 'B', 0, 1_000)], 1_000));
    let of_article = |name: &str, number| (Question::new(name, DAY), without(number));
    let [three, four, five, six] = [("A3", 3), ("A4", 4), ("A5", 5), ("A6", 6)].map(|(name, number)| of_article(name, number));
    let all = [three.clone(), good.clone(), four.clone(), good.clone(), five.clone(), good.clone(), six.clone(), good.clone()];
    let granting = (Question::new("A4", DAY).granted(&["oak"]).quantity(9), without(4));
    vec![
        answered("3, 4, 5 and 6, and a price behind each", &book, &all),
        answered("nothing but refusals", &book, &[six, five, four, three.clone(), three]),
        answered("zeros beside a refusal, whatever is granted", &book, &[granting, good]),
    ]
}

/// What one question asks for is nothing to the next: quantity, currency, sort, day.
fn own_terms() -> Vec<Vector> {
    let scale = book![base(1, 700).up_to(9), base(2, 600)];
    let few = |quantity: i64| (ask(DAY).quantity(quantity as u32), priced(&[(1, 'B', 0, 700)], 700).total(700 * quantity));
    let ten = (ask(DAY).quantity(10), priced(&[(2, 'B', 0, 600)], 600).total(6_000));
    let money = book![base(1, 10), base(2, 12).currency(b"USD"), base(3, 5).sort(b'P')];
    let euros = (ask(DAY), priced(&[(1, 'B', 0, 10)], 10));
    let dollars = (ask(DAY).currency(b"USD"), priced(&[(2, 'B', 0, 12)], 12).currency(b"USD"));
    let bought = (ask(DAY).sort(b'P'), priced(&[(3, 'B', 0, 5)], 5));
    let below = book![base(1, -100_000_000), off(2, -100_000_000)];
    let lines = [(1, 'B', 0, -100_000_000), (2, 'D', 0, -100_000_000)];
    let most = (ask(DAY).quantity(100_000), priced(&lines, -200_000_000).total(-20_000_000_000_000));
    vec![
        answered("pieces of two questions are not added up", &scale, &[few(5), few(5), ten.clone(), few(9)]),
        answered("each in the currency it asks for, at its own sort", &money, &[euros.clone(), dollars, bought, euros]),
        answered("a total of eight bytes, below zero", &below, &[most.clone(), most]),
    ]
}

/// The set of one question has no bit of another's names.
fn own_names() -> Vec<Vector> {
    let book = book![base(1, 1_000), extra(2, 10).condition("OAK")];
    let plain: Line = (1, 'B', 0, 1_000);
    let oak = (ask(DAY).granted(&["oak"]), priced(&[plain, (2, 'X', 1, 10)], 1_010));
    let ash = (ask(DAY).granted(&["ash"]), priced(&[plain], 1_000).unused(1, 1));
    let both = (ask(DAY).granted(&["ash", "Ash", "oak"]), priced(&[plain, (2, 'X', 3, 10)], 1_010).unused(1, 1));
    let none: (Question, Part) = (ask(DAY), priced(&[plain], 1_000));
    let names: Vec<String> = (1..=32).map(|place| format!("N{place}")).collect();
    let granted: Vec<&str> = names.iter().map(String::as_str).collect();
    let unused = (ask(DAY).granted(&granted), priced(&[plain], 1_000).unused(0xFFFF_FFFF, 32));
    vec![
        answered(
            "names of one question are not granted to the next",
            &book,
            &[oak.clone(), none.clone(), ash.clone(), oak.clone()],
        ),
        answered("places are those of the own list", &book, &[ash, both, oak]),
        answered("32 unused names, then none", &book, &[unused.clone(), none, unused]),
    ]
}

/// Questions of both versions, each with its own factors.
fn own_factors() -> Vec<Vector> {
    let book = book![base(1, 1_000), extra(2, 10).condition("OAK")];
    let plain: Line = (1, 'B', 0, 1_000);
    let oak = |factor, amount| {
        let lines = [(plain, 1_000), ((2, 'X', 1, amount), factor)];
        (ask(DAY).factored(&[("oak", factor)]), priced_times(&lines, 1_000 + amount))
    };
    let first = (ask(DAY).granted(&["oak"]), priced(&[plain, (2, 'X', 1, 10)], 1_010));
    let none = (ask(DAY).version(2), priced(&[plain], 1_000));
    let unused = (ask(DAY).factored(&[("ash", 0)]), priced(&[plain], 1_000).unused(1, 1));
    let missing = (Question::new("A2", DAY).factored(&[("oak", 500)]), without(3));
    vec![
        answered("both versions by turns", &book, &[oak(500, 5), first.clone(), oak(2_500, 25), none, first.clone()]),
        answered("without a price, and unused, between factors", &book, &[oak(0, 0), missing, unused, oak(10_000, 100), first]),
    ]
}

/// Questions of different lengths, and no question at all.
fn lengths() -> Vec<Vector> {
    let book = book![base(1, 1_000)];
    let part = priced(&[(1, 'B', 0, 1_000)], 1_000);
    let long = (0..32).fold(ask(DAY), |asked, _| asked.valued(30, &"V".repeat(30)));
    let of_version_2 = (longest_of_version_2(&long), part.clone().unused(1, 1));
    let longest = Question { granted: vec![Granted::new(vec![b'A'; 20]); 32], ..long.clone() };
    let few =
        [(ask(DAY), part.clone()), of_version_2, (long, part.clone()), (ask(DAY), part.clone()), (longest, part.unused(1, 1))];
    let none = answered("no question, and nothing is written", &book, &[]);
    vec![
        answered("the shortest and the longest questions", &book, &few),
        Vector { shows: "no question and no room".to_string(), ..none.clone().room(0) },
        none,
    ]
}

fn longest_of_version_2(long: &Question) -> Question {
    Question { granted: vec![Granted { name: vec![b'A'; 20], factor: 10_000 }; 32], ..long.clone().version(2) }
}
