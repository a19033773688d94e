//! What the comparison of the price file relies on: spellings that mean the same, cases of every sort, and a difference that is
//! noticed and made small.

use second::calls::{FileCalls, Second};
use second::file_cases::{file, plain_file_case, sweep_files, FileCase, FileScene, Row};
use second::file_compare::{compare_file, run_file, FileCall, FILE_CALLS};
use second::make::{self, Price, Record};
use second::price_file::{file_of, records, Refused};
use second::random::Random;
use second::shrink::shrunk_file;
use second::Placed;

/// The records of rows, their texts numbered by the place of the name among all names, each taken once.
fn records_of(rows: &[Row]) -> Vec<u8> {
    let mut names: Vec<&[u8]> = Vec::new();
    let mut bytes = Vec::new();
    for Row { price, text } in rows {
        if !text.is_empty() && !names.contains(&&text[..]) {
            names.push(text);
        }
        let number = names.iter().position(|name| name == text).map_or(0, |place| place + 1);
        bytes.extend(Record::from(price.clone().text(number as u32)).bytes());
    }
    bytes
}

#[test]
fn every_spelling_means_the_row() {
    for index in 0..3_000 {
        let mut scene = FileScene::new(Random::stream(11, index));
        let rows: Vec<Row> = (0..index % 6).map(|_| scene.row()).collect();
        let lines: Vec<_> = rows.iter().map(|row| scene.spelled(row)).collect();
        let bytes = file(&lines, index % 2 == 0);
        assert_eq!(records(&bytes), Ok(records_of(&rows)), "{}", String::from_utf8_lossy(&bytes));
    }
}

#[test]
fn both_calls_succeed_on_the_plain_case() {
    let case = plain_file_case();
    let inputs = case.inputs();
    for call in FILE_CALLS {
        let outcome = run_file(call, &Second, &inputs, call.size(&case, &inputs));
        assert_eq!(outcome.answer.number(), 0, "{}", call.name());
    }
}

#[test]
fn cases_repeat() {
    for index in 0..50 {
        let once = FileCase::generate(5, index).inputs();
        assert_eq!(once, FileCase::generate(5, index).inputs());
        assert_ne!(once, FileCase::generate(6, index).inputs());
    }
}

#[test]
fn every_number_comes_up() {
    for call in FILE_CALLS {
        let mut seen = [0u32; 14];
        for index in 0..1_500 {
            let (outcome, difference) = compare_file(call, &Second, &FileCase::generate_small(3, index));
            assert!(difference.is_none());
            seen[usize::from(outcome.answer.number())] += 1;
        }
        for (number, count) in (0u8..).zip(seen) {
            let possible = call.possible().contains(&number);
            assert_eq!(possible, count > 0, "{} {number}", call.name());
            assert!(!possible || count >= 100, "{} {number}: {count}", call.name());
        }
    }
}

#[test]
fn places_of_every_sort_come_up() {
    let mut lines = Vec::new();
    let mut bytes = Vec::new();
    for index in 0..1_500 {
        let inputs = FileCase::generate_small(3, index).inputs();
        if let Err(Refused::Row(line)) = records(&inputs.file) {
            lines.push(line);
        }
        if let Err(Refused::Row(place)) = file_of(&inputs.book) {
            bytes.push(place);
        }
    }
    assert!((1..=12).all(|line| lines.contains(&line)), "{lines:?}");
    assert!(bytes.contains(&6) && bytes.iter().any(|&place| place > 256), "{bytes:?}");
}

#[test]
fn very_big_cases() {
    for (index, call) in [(7, FileCall::Read), (507, FileCall::Read), (11, FileCall::Read), (13, FileCall::Write)] {
        let case = FileCase::generate(4, index);
        assert!(compare_file(call, &Second, &case).1.is_none());
        let length = call.input(&case.inputs()).len();
        assert!(length > 20_000, "{index}: {length}");
    }
}

#[test]
fn more_names_than_a_byte_can_count() {
    let counted_in_a_byte = Broken(|answer, _, out| {
        let mut place = 0;
        while place < answer.length as usize {
            let (article, length) = (usize::from(out[place + 3]), usize::from(out[place + 1]));
            let condition = usize::from(out[place + 4 + article]);
            // The text number stands behind both names and three bytes; its third byte goes.
            out[place + 8 + article + condition + 2] = 0;
            place += 2 + length;
        }
    });
    let case = (7..5_000).step_by(500).map(|index| FileCase::generate(4, index));
    assert!(case.into_iter().any(|case| compare_file(FileCall::Read, &counted_in_a_byte, &case).1.is_some()));
}

#[test]
fn the_sweep_meets_good_and_bad() {
    let mut done = [0; 2];
    let mut cases = 0;
    // Some bytes only, for time's sake.
    for case in sweep_files().step_by(7) {
        cases += 1;
        for (call, done) in FILE_CALLS.into_iter().zip(&mut done) {
            let (outcome, difference) = compare_file(call, &Second, &case);
            assert!(difference.is_none());
            *done += usize::from(outcome.answer.number() == 0);
        }
    }
    assert!(done.iter().all(|&done| done > cases / 10 && done < cases), "{done:?} of {cases}");
}

// There and back.

fn price_rows(records: &[Record]) -> Vec<Price> {
    records
        .iter()
        .filter_map(|record| match record {
            Record::Price(row) => Some(row.clone()),
            _ => None,
        })
        .collect()
}

/// Whether the nonzero text numbers run 1, 2, 3 and on by first appearance.
fn texts_run(rows: &[Price]) -> bool {
    let mut greatest = 0;
    rows.iter().all(|row| {
        let good = row.text <= greatest + 1;
        greatest = greatest.max(row.text);
        good
    })
}

#[test]
fn books_read_back_as_the_same_records() {
    let mut seen = 0;
    for index in 0..1_500 {
        let case = FileCase::generate_small(8, index);
        let rows = price_rows(&case.book);
        let (Ok(file), true) = (file_of(&make::book(&case.book)), texts_run(&rows)) else { continue };
        let expected: Vec<u8> = rows.into_iter().flat_map(|row| Record::from(row).bytes()).collect();
        assert_eq!(records(&file), Ok(expected));
        seen += 1;
    }
    assert!(seen > 500, "{seen}");
}

#[test]
fn files_written_again_read_the_same() {
    let mut seen = 0;
    for index in 0..1_500 {
        let Ok(read) = records(&FileCase::generate_small(8, index).inputs().file) else { continue };
        let length = read.len() as u32 + 5;
        let book = [&length.to_be_bytes()[..], &[1], &read].concat();
        let file = file_of(&book).expect("what is read can be written");
        assert_eq!(records(&file), Ok(read));
        seen += 1;
    }
    assert!(seen > 500, "{seen}");
}

// What is broken is noticed.

/// What is done to an answer, the input and the lent bytes being at hand.
struct Broken(fn(&mut Placed, &[u8], &mut [u8]));

impl FileCalls for Broken {
    fn read_prices(&self, file: &[u8], out: &mut [u8]) -> Placed {
        let mut answer = Second.read_prices(file, out);
        self.0(&mut answer, file, out);
        answer
    }

    fn write_prices(&self, book: &[u8], out: &mut [u8]) -> Placed {
        let mut answer = Second.write_prices(book, out);
        self.0(&mut answer, book, out);
        answer
    }
}

/// The first of many cases on which a broken call is noticed, made small.
fn noticed(call: FileCall, broken: &Broken) -> FileCase {
    let differs = |case: &FileCase| compare_file(call, broken, case).1.is_some();
    let case = (0..2_000).map(|index| FileCase::generate_small(9, index)).find(differs).expect("what is broken is noticed");
    shrunk_file(&case, &differs)
}

#[test]
fn a_place_next_to_the_right_one_is_noticed() {
    let broken = Broken(|answer, _, _| answer.place += u64::from(answer.place > 1));
    let small = noticed(FileCall::Read, &broken);
    assert_eq!(small.lines.len(), 2);
    assert!(small.book.is_empty());
    let small = noticed(FileCall::Write, &broken);
    assert_eq!(small.book.len(), 1);
    assert!(small.lines.is_empty());
}

#[test]
fn a_place_beside_another_refusal_is_noticed() {
    for call in FILE_CALLS {
        noticed(call, &Broken(|answer, _, _| answer.place += u64::from(answer.number == 7)));
        noticed(call, &Broken(|answer, _, _| answer.place += u64::from(answer.number == 0)));
        noticed(call, &Broken(|answer, _, _| answer.length += u64::from(answer.number == 13)));
    }
}

#[test]
fn a_byte_behind_the_output_or_beside_a_refusal_is_noticed() {
    for call in FILE_CALLS {
        for refused in [true, false] {
            let spoils: [fn(&mut Placed, &[u8], &mut [u8]); 2] = [
                |answer, _, out| {
                    if let (0, Some(behind)) = (answer.number, out.get_mut(answer.length as usize)) {
                        *behind ^= 1;
                    }
                },
                |answer, _, out| {
                    if let (13, Some(first)) = (answer.number, out.first_mut()) {
                        *first ^= 1;
                    }
                },
            ];
            noticed(call, &Broken(spoils[usize::from(refused)]));
        }
    }
}

#[test]
fn a_reader_that_mends_is_noticed() {
    // Takes the carriage returns away first.
    let small = noticed(
        FileCall::Read,
        &Broken(|answer, file, out| {
            if answer.number == 13 && file.contains(&b'\r') {
                let mended: Vec<u8> = file.iter().copied().filter(|&byte| byte != b'\r').collect();
                *answer = Second.read_prices(&mended, out);
            }
        }),
    );
    assert_eq!(small.lines.len(), 1);
}
