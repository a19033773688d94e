//! Cuts, flipped bits, foreign bytes, and line ends where they do not belong.

use super::{good_line, good_records, row, surrounded, Fault, FIELDS};
use crate::make::{Price, Record};
use crate::reader::is_name_byte;

pub fn faults() -> Vec<Fault> {
    let mut faults = cuts();
    faults.extend(flipped_bits());
    faults.extend(foreign_bytes());
    faults.extend(cut_in_two());
    faults.extend(other_line_ends());
    faults.extend(other_counts_of_fields());
    faults
}

/// A row in quotes that none of its fields needs, with a text.
const QUOTED: &[u8] = b"\"A1\";\"OAK\" ;\"S\";\"X\";\"1\";\"T\"\"\";\"-12.50\";\"0\";\"EUR\";\"\";\"20241231\";\"9\";";

/// The lines of a good file, with the records of each.
fn good_file() -> Vec<(Vec<u8>, Vec<u8>)> {
    let quoted = Price { from: 0, up_to: 9, ..Price::percent("A1", b'X', 1, -1_250) };
    let quoted = Record::from(quoted.condition("OAK").text(1)).bytes();
    let nothing = |line: &[u8]| (line.to_vec(), Vec::new());
    vec![
        nothing(b"# Prices of 2024"),
        (good_line(), good_records(1)),
        nothing(b""),
        (QUOTED.to_vec(), quoted.clone()),
        nothing(b" \t"),
        (QUOTED.to_vec(), quoted),
        (good_line(), good_records(1)),
    ]
}

fn bytes_of(lines: &[(Vec<u8>, Vec<u8>)]) -> Vec<u8> {
    lines.iter().flat_map(|(line, _)| [&line[..], b"\n"].concat()).collect()
}

/// Every cut: behind a whole line, or in a line that says nothing, the records before it are left; in a row that row is bad.
fn cuts() -> Vec<Fault> {
    let file = good_file();
    let mut faults = Vec::new();
    let mut records = Vec::new();
    for (place, (line, more)) in file.iter().enumerate() {
        let before = bytes_of(&file[..place]);
        for end in 0..line.len() {
            let what = format!("cut behind {end} bytes of line {}", place + 1);
            let cut = [&before[..], &line[..end]].concat();
            if end == 0 || more.is_empty() {
                faults.push(Fault::of_file(what, &cut, Some(Ok(records.clone()))));
            } else {
                faults.push(Fault::bad_at(what, &cut, place as u64 + 1));
            }
        }
        records.extend(more);
        let whole = [before, line.clone()].concat();
        faults.push(Fault::of_file(format!("cut behind line {}", place + 1), &whole, Some(Ok(records.clone()))));
    }
    faults.push(Fault::of_file("uncut".to_string(), &bytes_of(&file), Some(Ok(records))));
    faults
}

/// Each bit of the good file. What comes of it is not worked out here.
fn flipped_bits() -> Vec<Fault> {
    let file = bytes_of(&good_file());
    let flipped = |place: usize, bit: u8| {
        let mut file = file.clone();
        file[place] ^= 1 << bit;
        Fault::of_file(format!("bit {bit} of byte {} flipped", place + 1), &file, None)
    };
    (0..file.len()).flat_map(|place| (0..8).map(move |bit| (place, bit))).map(|(place, bit)| flipped(place, bit)).collect()
}

/// Every byte that is in no name, but a line end, at every place of a row, plain or in quotes: a NUL, a tab and a carriage return
/// are among them.
fn foreign_bytes() -> Vec<Fault> {
    let mut faults = Vec::new();
    for line in [&good_line()[..], QUOTED] {
        for byte in (0..=255).filter(|&byte| !is_name_byte(byte) && byte != b'\n') {
            for place in 0..=line.len() {
                let spoilt = [&line[..place], &[byte], &line[place..]].concat();
                let file = [b"#", &good_line()[..], &spoilt, b"bad"].join(&b'\n');
                faults.push(Fault::bad_at(format!("byte {byte} put in at {place} in line 3"), &file, 3));
            }
        }
    }
    faults
}

/// A line end within a row: its first part is bad.
fn cut_in_two() -> Vec<Fault> {
    let line = good_line();
    (1..line.len())
        .flat_map(|place| surrounded("a line end in a row", &[&line[..place], &line[place..]].join(&b'\n'), None))
        .collect()
}

/// CR LF behind every line, and CR alone. A comment may end so; a row has a last field that is not empty, and a blank line is one no
/// more. With CR alone the file is one line: a comment where it starts with one.
fn other_line_ends() -> Vec<Fault> {
    let lines = |ending: &[u8], lines: &[&[u8]]| lines.iter().flat_map(|line| [line, ending].concat()).collect::<Vec<u8>>();
    let row = &good_line()[..];
    vec![
        Fault::bad_at("CR LF behind rows".to_string(), &lines(b"\r\n", &[row, row]), 1),
        Fault::bad_at("CR LF behind comments and a row".to_string(), &lines(b"\r\n", &[b"#", b"# \"", row]), 3),
        Fault::bad_at("CR LF behind a comment and a blank line".to_string(), &lines(b"\r\n", &[b"#", b"", row]), 2),
        Fault::of_file("CR LF behind comments".to_string(), &lines(b"\r\n", &[b"#", b"#"]), Some(Ok(Vec::new()))),
        Fault::bad_at("LF CR behind rows".to_string(), &lines(b"\n\r", &[row, row]), 2),
        Fault::bad_at("CR behind rows".to_string(), &lines(b"\r", &[row, row]), 1),
        Fault::of_file("CR behind a comment and a row".to_string(), &lines(b"\r", &[b"#", row]), Some(Ok(Vec::new()))),
    ]
}

/// Every number of fields but thirteen, up to twice as many, and none at all where the line is not blank.
fn other_counts_of_fields() -> Vec<Fault> {
    let mut faults = Vec::new();
    for count in (1..=26).filter(|&count| count != FIELDS.len()) {
        let line = FIELDS.iter().cycle().take(count).copied().collect::<Vec<_>>().join(&b';');
        faults.extend(surrounded(&format!("{count} fields"), &line, None));
    }
    for line in [&b";"[..], b";;;;;;;;;;;;", b"\"\"", b"\"#\"", b" #", b"\t#", b"\x0b", b"\x0c", b"\xa0", b"\xef\xbb\xbf"] {
        faults.extend(surrounded("no row", line, None));
    }
    faults.extend(surrounded("thirteen fields", &good_line(), Some(row())));
    faults
}
