//! Many questions at once: what stands where in the lent bytes, and what refuses the whole.

use second::make::{self, Article, Price, Question, Record};
use second::price::LINE_LENGTH;
use second::{basket, price, Written};

const PATTERN: u8 = 0xA5;

const DAY: u32 = 20240615;

/// A question of an article with one letter, without names and properties.
const SHORTEST: usize = 21;

/// What the greatest basket takes: as many questions as may be, each with as many lines as there are.
const GREATEST: usize = 200 * (33 + 99 * LINE_LENGTH);

fn book(records: &[Record]) -> Vec<u8> {
    make::book(records)
}

fn article(number: &str) -> Record {
    Article::new(number, "").into()
}

fn base(cents: i32) -> Price {
    Price::fixed("A1", b'B', cents)
}

fn ask(date: u32) -> Question {
    Question::new("A1", date)
}

fn book_k() -> Vec<u8> {
    book(&[
        article("A1"),
        base(10000).dates(20240101, 20240630).text(11).into(),
        base(10500).dates(20240701, 20241231).text(12).into(),
        Price::percent("A1", b'X', 1, 1250).condition("OAK").text(13).into(),
        Price::percent("A1", b'D', 2, -333).text(14).into(),
    ])
}

fn hex(bytes: &[u8]) -> String {
    bytes.iter().map(|byte| format!("{byte:02x}")).collect()
}

fn joined(parts: &[&str]) -> String {
    parts.concat().replace(' ', "")
}

/// What is written into ample room; the bytes behind it must be untouched.
fn written(book: &[u8], questions: &[u8]) -> Result<Vec<u8>, u8> {
    let mut out = vec![PATTERN; GREATEST + 5];
    let answer = basket(book, questions, &mut out);
    let end = answer.length as usize;
    assert!(out[end..].iter().all(|&byte| byte == PATTERN));
    out.truncate(end);
    if answer.number == 0 {
        Ok(out)
    } else {
        assert_eq!(answer, refused(answer.number));
        Err(answer.number)
    }
}

fn refused(number: u8) -> Written {
    Written { length: 0, number }
}

fn number(book: &[u8], questions: &[u8]) -> u8 {
    written(book, questions).err().unwrap_or(0)
}

// The bytes of P1 with quantity 3, of P2, P3 and P4.

const P1: &str = "00 0000000000002a7b 0000000000007f71 455552 0000000000000003 00000000 00";
const P1_LINES: &str =
    "0000000b 42 00 0000000000002710 03e8  0000000d 58 01 00000000000004e2 03e8  0000000e 44 00 fffffffffffffe89 03e8";

/// With `ash` in front of `oak`, so that place 1 is unused and the surcharge has place 2.
const P2: &str = "00 0000000000002c9c 0000000000002c9c 455552 0000000000000003 00000001 01";
const P2_LINES: &str =
    "0000000c 42 00 0000000000002904 03e8  0000000d 58 02 0000000000000521 03e8  0000000e 44 00 fffffffffffffe77 03e8";

const P3: &str = "00 00000000000025c3 00000000000025c3 455552 0000000000000002 00000000 00";
const P3_LINES: &str = "0000000b 42 00 0000000000002710 03e8  0000000e 44 00 fffffffffffffeb3 03e8";

const P4: &str = "04 0000000000000000 0000000000000000 000000 0000000000000000 00000000 00";

fn p1() -> Question {
    ask(20240630).granted(&["oak"]).quantity(3)
}

fn p2() -> Question {
    ask(20240701).granted(&["ash", "Oak"])
}

fn p3() -> Question {
    ask(20240630)
}

fn p4() -> Question {
    ask(20250101)
}

fn written_hex(questions: &[Question]) -> String {
    hex(&written(&book_k(), &make::basket(questions)).unwrap())
}

#[test]
fn no_question_at_all() {
    assert_eq!(written(&book_k(), &[]), Ok(Vec::new()));
    assert_eq!(basket(&book_k(), &[], &mut []), Written { length: 0, number: 0 });
    assert_eq!(written(&book(&[]), &[]), Ok(Vec::new()));
    assert_eq!(number(&[0, 0, 0, 5, 2], &[]), 1);
}

#[test]
fn one_question() {
    assert_eq!(written_hex(&[p1()]), joined(&[P1, P1_LINES]));
    assert_eq!(written_hex(&[p2()]), joined(&[P2, P2_LINES]));
    assert_eq!(written_hex(&[p3()]), joined(&[P3, P3_LINES]));
    assert_eq!(written_hex(&[p4()]), joined(&[P4]));
}

#[test]
fn all_answers_stand_before_all_lines() {
    assert_eq!(written_hex(&[p1(), p3()]), joined(&[P1, P3, P1_LINES, P3_LINES]));
    assert_eq!(written_hex(&[p3(), p1()]), joined(&[P3, P1, P3_LINES, P1_LINES]));
    assert_eq!(written_hex(&[p2(), p2(), p1()]), joined(&[P2, P2, P1, P2_LINES, P2_LINES, P1_LINES]));
}

#[test]
fn a_refused_question_adds_no_lines_and_the_next_goes_on() {
    assert_eq!(written_hex(&[p1(), p4(), p2()]), joined(&[P1, P4, P2, P1_LINES, P2_LINES]));
    assert_eq!(written_hex(&[p4(), p4(), p3(), p4()]), joined(&[P4, P4, P3, P4, P3_LINES]));
}

#[test]
fn every_refusal_that_a_question_can_have() {
    let b = book(&[
        article("A1"),
        base(100).text(1).into(),
        article("GAP"),
        Price::fixed("GAP", b'X', 1).into(),
        article("FAR"),
        Price::fixed("FAR", b'B', 1).into(),
        Price::fixed("FAR", b'X', 1).currency(b"USD").into(),
        article("BIG"),
        Price::fixed("BIG", b'B', 100_000_000).into(),
        Price::percent("BIG", b'X', 1, 90_001).into(),
    ]);
    let good = "00 0000000000000064 00000000000000c8 455552 0000000000000001 00000000 00";
    let line = "00000001 42 00 0000000000000064 03e8";
    let zeros = "00".repeat(32);
    for (asked, refusal) in [("NIL", "03"), ("GAP", "04"), ("FAR", "05"), ("BIG", "06")] {
        // A name that brings no line is not told beside a refusal.
        let between = Question::new(asked, DAY).granted(&["oak"]);
        let questions = make::basket(&[ask(DAY).quantity(2), between, ask(DAY).quantity(2)]);
        let bytes = written(&b, &questions).unwrap();
        assert_eq!(hex(&bytes), joined(&[good, refusal, &zeros, good, line, line]));
    }
    let all = ["NIL", "GAP", "FAR", "BIG"].map(|asked| Question::new(asked, DAY));
    let bytes = written(&b, &make::basket(&all)).unwrap();
    assert_eq!(hex(&bytes), joined(&["03", &zeros, "04", &zeros, "05", &zeros, "06", &zeros]));
}

#[test]
fn a_broken_question_refuses_the_whole() {
    let broken = [
        ask(20240631),
        ask(DAY).quantity(0),
        ask(DAY).sort(b's'),
        ask(DAY).granted(&[""]),
        ask(DAY).valued(1, "VV"),
        Question::new("", DAY),
    ];
    for one in broken {
        for place in 0..3 {
            let mut questions = vec![p1(), p4()];
            questions.insert(place, one.clone());
            assert_eq!(number(&book_k(), &make::basket(&questions)), 2);
        }
        assert_eq!(number(&book_k(), &one.bytes()), 2);
    }
}

/// The bytes of three shortest questions with another length in front of one.
fn with_length(place: usize, length: u32) -> Vec<u8> {
    let shortest = Question::new("A", DAY);
    let mut bytes = make::basket(&[shortest.clone(), shortest.clone(), shortest]);
    assert_eq!(bytes.len(), 3 * SHORTEST);
    let field = place * SHORTEST;
    bytes[field..field + 4].copy_from_slice(&length.to_be_bytes());
    bytes
}

#[test]
fn lengths_of_questions() {
    let k = book_k();
    for place in 0..3 {
        assert_eq!(number(&k, &with_length(place, SHORTEST as u32)), 0);
        // Below the least, over the next ones, and beyond the rest.
        for length in (0..SHORTEST as u32).chain(SHORTEST as u32 + 1..=4 * SHORTEST as u32) {
            assert_eq!(number(&k, &with_length(place, length)), 2, "{place} {length}");
        }
        for length in [1 << 24, 1 << 31, u32::MAX, u32::MAX - SHORTEST as u32 + 1] {
            assert_eq!(number(&k, &with_length(place, length)), 2, "{place} {length}");
        }
    }
}

#[test]
fn cut_questions_and_bytes_left_over() {
    let (first, second) = (p1().bytes(), p4().bytes());
    let whole = [&first[..], &second[..]].concat();
    for end in 0..whole.len() {
        let expected = if end == 0 || end == first.len() { 0 } else { 2 };
        assert_eq!(number(&book_k(), &whole[..end]), expected, "{end}");
    }
    for left_over in 1..=SHORTEST {
        for byte in [0, 1, 255] {
            let longer = [&whole[..], &vec![byte; left_over]].concat();
            assert_eq!(number(&book_k(), &longer), 2, "{left_over} {byte}");
        }
    }
}

#[test]
fn at_most_200_questions() {
    let k = book_k();
    for (count, expected) in [(199, 0), (200, 0), (201, 2), (255, 2), (256, 2), (257, 2), (456, 2)] {
        for question in [p3(), p4(), Question::new("A", DAY)] {
            assert_eq!(number(&k, &make::basket(&vec![question; count])), expected, "{count}");
        }
    }
    let mut questions = vec![p4(); 199];
    questions.push(p3());
    assert_eq!(written_hex(&questions), joined(&[&P4.repeat(199), P3, P3_LINES]));
    // The 201st is broken: 2 as well.
    questions.push(ask(0));
    assert_eq!(number(&k, &make::basket(&questions)), 2);
}

#[test]
fn the_greatest_basket() {
    let names: Vec<String> = (0..32).map(|n| format!("N{n}")).collect();
    let mut records = vec![article("A1")];
    for level in *b"BXD" {
        records.push(Price::fixed("A1", level, 1).into());
        records.extend(names.iter().map(|name| Price::fixed("A1", level, 1).condition(name).into()));
    }
    let names: Vec<&str> = names.iter().map(String::as_str).collect();
    let questions = vec![ask(DAY).granted(&names); 200];
    let bytes = written(&book(&records), &make::basket(&questions)).unwrap();
    assert_eq!(bytes.len(), GREATEST);
}

#[test]
fn room_for_all_answers_and_lines_together() {
    let k = book_k();
    // Three answers, one of them of a refused question, and lines of 48 and 32 bytes.
    let questions = make::basket(&[p1(), p4(), p3()]);
    let needed = 3 * 33 + 48 + 32;
    for room in [0, 1, 33, 99, 100, 147, needed - 1] {
        let mut out = vec![PATTERN; room];
        assert_eq!(basket(&k, &questions, &mut out), refused(7), "{room}");
        assert!(out.iter().all(|&byte| byte == PATTERN));
    }
    for room in [needed, needed + 1, needed + 50] {
        let mut out = vec![PATTERN; room];
        assert_eq!(basket(&k, &questions, &mut out), Written { length: needed as u64, number: 0 });
        assert_eq!(hex(&out[..needed]), joined(&[P1, P4, P3, P1_LINES, P3_LINES]));
        assert!(out[needed..].iter().all(|&byte| byte == PATTERN));
    }
    // Without any line the answers alone need the room.
    let refused_alone = p4().bytes();
    assert_eq!(basket(&k, &refused_alone, &mut [0; 32]), refused(7));
    assert_eq!(basket(&k, &refused_alone, &mut [0; 33]), Written { length: 33, number: 0 });
}

#[test]
fn order_of_refusals() {
    let bad = [0; 5];
    let too_many = make::basket(&vec![p4(); 201]);
    let number = |book: &[u8], questions: &[u8]| basket(book, questions, &mut []).number;
    assert_eq!(number(&bad, &bad), 1);
    assert_eq!(number(&bad, &too_many), 1);
    assert_eq!(number(&bad, &p1().bytes()), 1);
    assert_eq!(number(&book_k(), &bad), 2);
    assert_eq!(number(&book_k(), &too_many), 2);
    // A refused question in front does not hide that a later one is broken.
    assert_eq!(number(&book(&[]), &[&p4().bytes()[..], &bad].concat()), 2);
    assert_eq!(number(&book_k(), &p1().bytes()), 7);
    assert_eq!(number(&book(&[]), &p1().bytes()), 7);
}

#[test]
fn each_answer_is_that_of_the_single_call() {
    let questions = [p1(), Question::new("A2", DAY), p2().currency(b"USD"), p4(), p3().sort(b'P'), p3()];
    let bytes = written(&book_k(), &make::basket(&questions)).unwrap();
    let mut lines_at = questions.len() * 33;
    for (question, told) in questions.iter().zip(bytes.chunks_exact(33)) {
        let mut lines = [PATTERN; 99 * LINE_LENGTH];
        let alone = price(&book_k(), &question.bytes(), &mut lines);
        assert_eq!(told[0], alone.number);
        assert_eq!(told[1..9], alone.unit.to_be_bytes());
        assert_eq!(told[9..17], alone.total.to_be_bytes());
        assert_eq!(told[17..20], alone.currency);
        assert_eq!(told[20..28], alone.lines.to_be_bytes());
        assert_eq!(told[28..32], alone.unused.to_be_bytes());
        assert_eq!(told[32], alone.unused_count);
        let length = alone.lines as usize * LINE_LENGTH;
        assert_eq!(bytes[lines_at..lines_at + length], lines[..length]);
        lines_at += length;
    }
    assert_eq!(bytes.len(), lines_at);
}

#[test]
fn no_byte_can_make_the_call_panic() {
    let k = book_k();
    let questions = make::basket(&[p1(), p2().valued(3, "V"), p4()]);
    for place in 0..questions.len() {
        for bit in 0..8 {
            let mut changed = questions.clone();
            changed[place] ^= 1 << bit;
            basket(&k, &changed, &mut [0; 300]);
            basket(&k, &changed[..place], &mut [0; 300]);
            basket(&k, &changed[place..], &mut [0; 300]);
        }
    }
}
