//! Runs the stored cases of bad input on the library, and holds its answers to the stored ones.
//! Usage: bad_input FILE. tools/vectors/case_file.py says what each line of the file means.

use std::collections::{HashMap, HashSet};
use std::process::ExitCode;

const MOST_SHOWN: usize = 50;

#[link(name = "measured", kind = "static")]
extern "C" {
    fn measured_book_ok(bytes: *const u8, length: usize) -> bool;
    fn measured_question_ok(bytes: *const u8, length: usize) -> bool;
    fn measured_text_book_ok(bytes: *const u8, length: usize) -> bool;
    fn measured_text_number(asked: *const u8, asked_length: usize, fallback: *const u8, fallback_length: usize, number: u32) -> u8;
    fn measured_text_book(asked: *const u8, asked_length: usize, fallback: *const u8, fallback_length: usize, number: u32) -> u8;
    fn measured_text_place(asked: *const u8, asked_length: usize, fallback: *const u8, fallback_length: usize, number: u32) -> u64;
    fn measured_text_length(asked: *const u8, asked_length: usize, fallback: *const u8, fallback_length: usize, number: u32) -> u64;
}

/// Sound: pointer and length are those of one slice, which the calls only read.
fn accepts(layout: &str, bytes: &[u8]) -> bool {
    let (bytes, length) = (bytes.as_ptr(), bytes.len());
    match layout {
        "book" => unsafe { measured_book_ok(bytes, length) },
        "question" => unsafe { measured_question_ok(bytes, length) },
        "text_book" => unsafe { measured_text_book_ok(bytes, length) },
        _ => panic!("no layout {layout}"),
    }
}

/// Number, book, place, length: the order in which the file has them.
fn text_call(asked: &[u8], fallback: &[u8], number: u32) -> [u64; 4] {
    let (a, a_length, f, f_length) = (asked.as_ptr(), asked.len(), fallback.as_ptr(), fallback.len());
    unsafe {
        [
            measured_text_number(a, a_length, f, f_length, number).into(),
            measured_text_book(a, a_length, f, f_length, number).into(),
            measured_text_place(a, a_length, f, f_length, number),
            measured_text_length(a, a_length, f, f_length, number),
        ]
    }
}

/// How many cases agreed, and how many are to be accepted and to be refused.
#[derive(Default)]
struct Tally {
    agreed: usize,
    accepted: usize,
    refused: usize,
}

impl Tally {
    fn show(&self, what: &str) {
        let Tally { agreed, accepted, refused } = self;
        println!("{what}: {agreed} of {} agree, {accepted} to be accepted, {refused} to be refused", accepted + refused);
    }
}

struct Run {
    strings: HashMap<String, Vec<u8>>,
    sorts: Vec<(String, Tally)>,
    differences: usize,
}

impl Run {
    /// Counts one case. `case` is asked for its words only where the answers differ.
    fn count(&mut self, expected_yes: bool, agreed: bool, case: impl FnOnce() -> String) {
        let (sort, tally) = self.sorts.last_mut().expect("a sort before the first case");
        if agreed {
            tally.agreed += 1;
        } else {
            self.differences += 1;
            if self.differences <= MOST_SHOWN {
                println!("DIFFERENT, {sort}: {}", case());
            }
        }
        *(if expected_yes { &mut tally.accepted } else { &mut tally.refused }) += 1;
    }

    fn hold(&mut self, layout: &str, bytes: &[u8], expected: bool, case: impl FnOnce() -> String) {
        let said = accepts(layout, bytes);
        self.count(expected, said == expected, || format!("{layout}, {}: stored {expected}, the library {said}", case()));
    }

    fn string(&self, name: &str) -> Vec<u8> {
        self.strings.get(name).unwrap_or_else(|| panic!("no bytes {name}")).clone()
    }

    fn each_value(&mut self, layout: &str, name: &str, place: usize, good: &HashSet<usize>) {
        let mut bytes = self.string(name);
        for value in 0..=255u8 {
            bytes[place] = value;
            self.hold(layout, &bytes, good.contains(&value.into()), || format!("{name} with byte {place} as {value}"));
        }
    }

    fn each_change(&mut self, kind: &str, layout: &str, name: &str, mend: &[LengthField], good: &HashSet<usize>) {
        let whole = self.string(name);
        let last = if kind == "cut" { whole.len() } else { whole.len() - 1 };
        for i in 0..=last {
            let mut bytes = match kind {
                "cut" => whole[..i].to_vec(),
                "without" => [&whole[..i], &whole[i + 1..]].concat(),
                _ => [&whole[..=i], &whole[i..]].concat(),
            };
            for field in mend {
                field.mend(&mut bytes);
            }
            self.hold(layout, &bytes, good.contains(&i), || format!("{name}, {kind} at {i}, {} lengths mended", mend.len()));
        }
    }

    fn line(&mut self, line: &str) {
        let (first, rest) = line.split_once(' ').expect("a word and more");
        let words: Vec<&str> = rest.split(' ').collect();
        match first {
            "sort" => self.sorts.push((rest.to_string(), Tally::default())),
            "bytes" => {
                self.strings.insert(words[0].to_string(), parts(words[1]));
            }
            "case" => {
                let expected = yes_or_no(words[1]);
                self.hold(words[0], &parts(words[2]), expected, || words[3..].join(" "));
            }
            "byte" => self.each_value(words[0], words[1], number(words[2]), &set(words[3])),
            "cut" | "without" | "twice" => self.each_change(first, words[0], words[1], &length_fields(words[2]), &set(words[3])),
            "text" => {
                let said = text_call(&self.string(words[0]), &self.string(words[1]), number(words[2]) as u32);
                let stored: Vec<u64> = words[3..7].iter().map(|word| number(word) as u64).collect();
                self.count(stored[0] == 0, stored == said, || format!("{line}: the library {said:?}"));
            }
            _ => panic!("no such line: {first}"),
        }
    }
}

/// A length field: what is put there is the length of the whole less some bytes.
struct LengthField {
    width: usize,
    place: usize,
    less: usize,
}

impl LengthField {
    fn mend(&self, bytes: &mut [u8]) {
        let length = bytes.len();
        if let Some(field) = bytes.get_mut(self.place..self.place + self.width) {
            field.copy_from_slice(&((length - self.less) as u64).to_be_bytes()[8 - self.width..]);
        }
    }
}

fn number(word: &str) -> usize {
    word.parse().unwrap_or_else(|_| panic!("no number: {word}"))
}

fn yes_or_no(word: &str) -> bool {
    match word {
        "yes" => true,
        "no" => false,
        _ => panic!("neither yes nor no: {word}"),
    }
}

fn hex(digits: &str) -> Vec<u8> {
    assert!(digits.len() % 2 == 0, "half a byte: {digits}");
    let byte = |at: usize| u8::from_str_radix(&digits[at..at + 2], 16).unwrap_or_else(|_| panic!("no byte in {digits}"));
    (0..digits.len()).step_by(2).map(byte).collect()
}

fn parts(word: &str) -> Vec<u8> {
    if word == "empty" {
        return Vec::new();
    }
    let part = |part: &str| match part.split_once('*') {
        Some((digits, count)) => hex(digits).repeat(number(count)),
        None => hex(part),
    };
    word.split('+').flat_map(part).collect()
}

fn set(word: &str) -> HashSet<usize> {
    if word == "none" {
        return HashSet::new();
    }
    let range = |part: &str| match part.split_once('-') {
        Some((low, high)) => number(low)..=number(high),
        None => number(part)..=number(part),
    };
    word.split(',').flat_map(range).collect()
}

fn length_fields(word: &str) -> Vec<LengthField> {
    let field = |part: &str| {
        let (width, rest) = part.split_once('@').expect("WIDTH@PLACE-LESS");
        let (place, less) = rest.split_once('-').expect("WIDTH@PLACE-LESS");
        LengthField { width: number(width), place: number(place), less: number(less) }
    };
    if word == "-" {
        Vec::new()
    } else {
        word.split(',').map(field).collect()
    }
}

fn main() -> ExitCode {
    let path = std::env::args().nth(1).expect("usage: bad_input FILE");
    let file = std::fs::read_to_string(&path).unwrap_or_else(|error| panic!("{path}: {error}"));
    let mut run = Run { strings: HashMap::new(), sorts: Vec::new(), differences: 0 };
    for line in file.lines().filter(|line| !line.starts_with('#')) {
        run.line(line);
    }
    let mut all = Tally::default();
    for (sort, tally) in &run.sorts {
        if tally.accepted + tally.refused > 0 {
            tally.show(sort);
        }
        all.agreed += tally.agreed;
        all.accepted += tally.accepted;
        all.refused += tally.refused;
    }
    all.show("in all");
    if run.differences > MOST_SHOWN {
        println!("{} differences, the first {MOST_SHOWN} of them shown above", run.differences);
    }
    if run.differences == 0 && all.accepted > 0 && all.refused > 0 {
        ExitCode::SUCCESS
    } else {
        ExitCode::FAILURE
    }
}
