//! Spoils a line, or damages a finished file. Here and there the line stays good, so that both sides of a bound are met.

use super::spelling::in_quotes;
use super::{FileScene, Line};
use crate::cases::Damage;

/// Contents that most often make the field bad, for each of the thirteen fields; `~` stands for so many bytes that a name is too
/// long by one.
const BAD: [&[&[u8]]; 13] = [
    &[b"", b"A\t", b"A\0", b"\x1f", b"\x7f", b"A\x80", b"\x9f", b"~"],
    &[b"\t", b"A\0", b"\x1f", b"\x7f", b"A\x80", b"\x9f", b"~"],
    &[b"", b"s", b"B", b"SP", b"S ", b" S", b"\0", b"P"],
    &[b"", b"b", b"S", b"BX", b"X ", b" D", b"\0", b"X"],
    &[b"", b"0", b"3", b"01", b"1.", b"1 ", b"\x01", b"2"],
    &[b"\t", b"t\0", b"\x1f", b"\x7f", b"t\x80", b"\x9f", b"t\r"],
    &[
        b"",
        b".",
        b"-",
        b"-.",
        b"+5",
        b"--5",
        b"5-",
        b" 5",
        b"5 ",
        b"5,0",
        b"5.5.5",
        b"1e2",
        b"0.001",
        b"-0.001",
        b"5.0010",
        b"5.000",
        b"5.009",
        b"5.0001",
        b"-5.00000000001",
        b"+0",
        b"+.5",
        b"999.99",
        b"1000",
        b"1000.00",
        b"1000.01",
        b"-1000.00",
        b"-1000.01",
        b"1000.001",
        b"999999.99",
        b"1000000",
        b"1000000.01",
        b"-1000000.000",
        b"-1000000.01",
        b"1000001",
        b"21474836.48",
        b"42949672.96",
        b"-42949672.96",
        b"92233720368547758.08",
        b"184467440737095516.16",
        b"340282366920938463463374607431768211456",
        b"\xb2",
    ],
    &[b"", b"2", b"00", b"01", b"1 ", b"\x01", b"0", b"1"],
    &[b"", b"EU", b"EURO", b"eur", b"EuR", b"E R", b"@UR", b"E[R", b"EU\0", b"XXX"],
    &[
        b" ",
        b"0",
        b"2024010",
        b"202401011",
        b"020240101",
        b"2024-1-1",
        b"-2024010",
        b"+2024010",
        b"2024010 ",
        b"2024010a",
        b"00000000",
    ],
    &[
        b" ",
        b"0",
        b"2024010",
        b"202401011",
        b"020240101",
        b"2024-1-1",
        b"-2024010",
        b"+2024010",
        b"2024010 ",
        b"2024010a",
        b"99999999",
    ],
    &[
        b"",
        b"-1",
        b"-0",
        b"+1",
        b"1.",
        b"1.0",
        b" 1",
        b"1 ",
        b"1a",
        b"4294967294",
        b"4294967295",
        b"4294967296",
        b"4294967297",
        b"9999999999",
        b"18446744073709551616",
        b"18446744073709551617",
    ],
    &[b"R", b" ", b"0", b"\0", b"\t", b""],
];

/// Lines that are no row; some of them are blank or comments.
const NO_ROWS: [&[u8]; 16] = [
    b"bad",
    b"\r",
    b" #",
    b"\t#",
    b"\"",
    b"\"\"",
    b"\"#\"",
    b";",
    b";;;;;;;;;;;;",
    b";;;;;;;;;;;;;",
    b"\0",
    b"\x0b",
    b"\xa0",
    b" \t",
    b"#",
    b"A1;;S;B;1;;1;1;EUR;;;0",
];

/// Bytes that mean something in a file, or nothing anywhere.
const BYTES: [u8; 20] =
    [b';', b';', b'"', b'"', b'\n', b'\n', b'\r', b'\t', b' ', b'#', b'.', b'-', b'+', b'0', b'1', b'A', 0, 127, 159, 160];

impl FileScene {
    /// Spoils a line, or puts one between the others that is no row.
    pub(super) fn spoil_lines(&mut self, lines: &mut Vec<Line>) {
        let rows: Vec<usize> = (0..lines.len()).filter(|&place| lines[place].len() == 13).collect();
        if rows.is_empty() || self.random.percent(12) {
            let line = vec![self.random.pick(&NO_ROWS).to_vec()];
            lines.insert(self.random.below(lines.len() + 1), line);
        } else {
            let place = self.random.pick(&rows);
            self.spoil_line(&mut lines[place]);
        }
    }

    /// Ends every line as other systems do.
    pub(super) fn end_otherwise(&mut self, lines: &mut [Line]) {
        for field in lines.iter_mut().filter_map(|line| line.last_mut()) {
            field.push(b'\r');
        }
    }

    fn spoil_line(&mut self, line: &mut Line) {
        let place = self.random.below(line.len());
        match self.random.below(20) {
            0 => _ = line.remove(place),
            1 => line.insert(place, Vec::new()),
            2 => line.push(self.random.pick(&[b"".to_vec(), b"\"\"".to_vec(), b" ".to_vec()])),
            3 => line[12].push(b'\r'),
            4 | 5 => self.spoil_byte(&mut line[place]),
            6..=8 => line[place] = self.badly_quoted(&line[place]),
            // At the end of the line nothing but its end could close the quote.
            9 => line[12] = self.badly_quoted(b""),
            // Numbers can be wrong in more ways than anything else.
            10..=12 => line[6] = self.bad_content(6),
            13 => line[11] = self.bad_content(11),
            _ => line[place] = self.bad_content(place),
        }
    }

    /// Puts a byte into a field.
    fn spoil_byte(&mut self, field: &mut Vec<u8>) {
        let place = self.random.below(field.len() + 1);
        field.insert(place, self.random.pick(&BYTES));
    }

    /// In quotes or without, like good contents.
    fn bad_content(&mut self, place: usize) -> Vec<u8> {
        let content = match self.random.pick(BAD[place]) {
            b"~" if place == 0 => vec![b'N'; 41],
            b"~" => vec![b'N'; 21],
            content => content.to_vec(),
        };
        self.field(place, &content)
    }

    /// A quote that is not closed, or something behind the closing one.
    fn badly_quoted(&mut self, field: &[u8]) -> Vec<u8> {
        let field = if field.starts_with(b"\"") { field.to_vec() } else { in_quotes(field) };
        let behind: &[u8] = self.random.pick(&[b"x", b" x", b"\t", b"\"", b"\"\"", b" \"", b"\r", b"\xa0", b"x\"", b" "]);
        match self.random.below(5) {
            0 => field[..field.len() - 1].to_vec(),
            1 => [b" ", &field[..]].concat(),
            2 => [b"\"", &field[..]].concat(),
            _ => [&field[..], behind].concat(),
        }
    }

    /// Done to a finished file.
    pub(super) fn file_damage(&mut self) -> Damage {
        let place = self.random.below(1 << 20);
        match self.random.below(8) {
            0 => Damage::DropLast(self.random.between(1, 60)),
            1 => Damage::KeepFirst(self.random.below(60)),
            2 => Damage::Append((0..self.random.between(1, 8)).map(|_| self.random.pick(&BYTES)).collect()),
            3 => Damage::Change { place, mask: 1 << self.random.below(8) },
            4 | 5 => Damage::Insert { place, byte: self.random.pick(&BYTES) },
            _ => Damage::Remove { place },
        }
    }
}
