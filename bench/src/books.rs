//! Makes price books for the benchmark: large good ones, and small damaged ones.

use crate::dice::Dice;

pub const MOST_BYTES: usize = 4_194_304;
pub const HEAD: usize = 5;

/// How long names are: of articles, of conditions.
#[derive(Clone, Copy)]
pub struct Names {
    pub article: (i64, i64),
    pub condition: (i64, i64),
}

pub const LONG: Names = Names { article: (33, 40), condition: (12, 20) };
pub const SHORT: Names = Names { article: (6, 14), condition: (0, 6) };
pub const ANY: Names = Names { article: (1, 40), condition: (0, 20) };

pub const PRICES: &[u8] = &[2];
pub const ALL_KINDS: &[u8] = &[1, 2, 3, 4, 5];

pub struct Book {
    pub bytes: Vec<u8>,
    pub records: usize,
}

/// A good book of at most `records` records, of kinds thrown among `kinds`, that takes at most `most` bytes.
pub fn book(dice: &mut Dice, kinds: &[u8], names: Names, records: usize, most: usize) -> Book {
    let mut bytes = vec![0, 0, 0, 0, 1];
    let mut made = 0;
    while made < records {
        let rest = record(dice, kinds, names);
        if bytes.len() + 2 + rest.len() > most {
            break;
        }
        bytes.extend((rest.len() as u16).to_be_bytes());
        bytes.extend(rest);
        made += 1;
    }
    mend_length(&mut bytes);
    Book { bytes, records: made }
}

/// How many records a good book has.
pub fn count(book: &[u8]) -> usize {
    let mut rest = &book[HEAD..];
    let mut records = 0;
    while let [high, low, ..] = *rest {
        rest = &rest[2 + usize::from(u16::from_be_bytes([high, low]))..];
        records += 1;
    }
    records
}

/// A small book, usually broken somewhere. Half of the time its length is right all the same, so that a reader has to look inside.
pub fn damaged(dice: &mut Dice) -> Vec<u8> {
    let records = 1 + dice.index(5);
    let mut bytes = book(dice, ALL_KINDS, ANY, records, MOST_BYTES).bytes;
    let at = dice.index(bytes.len());
    match dice.index(6) {
        0 => {}
        1 => bytes[at] = dice.byte(),
        2 => bytes[at] ^= 1 << dice.index(8),
        3 => bytes[at] = dice.one_of(&[0, 1, 2, 3, 6, 31, 32, 42, 126, 127, 159, 160, 255]),
        4 => bytes.truncate(at),
        _ => bytes.insert(at, dice.byte()),
    }
    if dice.index(2) == 0 {
        mend_length(&mut bytes);
    }
    bytes
}

fn mend_length(bytes: &mut [u8]) {
    let length = (bytes.len() as u32).to_be_bytes();
    if let Some(field) = bytes.get_mut(..4) {
        field.copy_from_slice(&length);
    }
}

/// Kind byte and body.
fn record(dice: &mut Dice, kinds: &[u8], names: Names) -> Vec<u8> {
    let kind = dice.one_of(kinds);
    let mut to = vec![kind];
    match kind {
        1 => article(dice, &mut to, names),
        2 => price(dice, &mut to, names),
        3 => rounding(dice, &mut to),
        4 => packaging(dice, &mut to, names),
        _ => scheme(dice, &mut to),
    }
    to
}

fn article(dice: &mut Dice, to: &mut Vec<u8>, names: Names) {
    name(dice, to, names.article);
    name(dice, to, (0, 20));
}

fn price(dice: &mut Dice, to: &mut Vec<u8>, names: Names) {
    name(dice, to, names.article);
    name(dice, to, names.condition);
    to.push(dice.one_of(b"SP"));
    to.push(dice.one_of(b"BXD"));
    to.push(dice.one_of(&[1, 2]));
    number(to, dice.between(0, 99_999));
    let fixed = dice.one_of(&[0, 1]);
    to.push(fixed);
    let most = if fixed == 1 { 100_000_000 } else { 100_000 };
    number(to, dice.between(-most, most));
    to.extend_from_slice(dice.one_of(&[b"EUR", b"CHF", b"USD", b"SEK"]));
    number(to, 20_200_101 + 10_000 * dice.between(0, 5));
    number(to, 20_201_231 + 10_000 * dice.between(0, 5));
    number(to, dice.one_of(&[0, 9, 49, 100_000]));
    to.extend((dice.between(0, 65_535) as u16).to_be_bytes());
}

fn rounding(dice: &mut Dice, to: &mut Vec<u8>) {
    to.extend((dice.between(1, 65_535) as u16).to_be_bytes());
    to.push(dice.one_of(&[0, 1, 2]));
    number(to, dice.between(1, 1_000_000));
    number(to, dice.between(-1_000_000, 1_000_000));
    number(to, dice.between(-1_000_000, 1_000_000));
}

fn packaging(dice: &mut Dice, to: &mut Vec<u8>, names: Names) {
    name(dice, to, names.article);
    // From one byte on: an article that happens to be named * has to have a condition.
    name(dice, to, (names.condition.0.max(1), names.condition.1));
    let present = dice.byte();
    to.push(present);
    for bit in 0..8 {
        let most = if bit < 6 { 10_000_000 } else { 10_000 };
        let value = dice.between(-most, most);
        number(to, if present >> bit & 1 == 1 { value } else { 0 });
    }
    unit(dice, to, &[b"CMT", b"FOT", b"INH", b"MMT", b"MTR"], present & 0b0000_0111 != 0);
    unit(dice, to, &[b"INQ", b"LTR", b"MTQ"], present & 0b0000_1000 != 0);
    unit(dice, to, &[b"KGM", b"LBR", b"MGM"], present & 0b0011_0000 != 0);
}

fn unit(dice: &mut Dice, to: &mut Vec<u8>, group: &[&[u8; 3]], needed: bool) {
    let unit = dice.one_of(group);
    to.extend_from_slice(if needed || dice.index(2) == 0 { unit } else { &[0; 3] });
}

fn scheme(dice: &mut Dice, to: &mut Vec<u8>) {
    name(dice, to, (1, 20));
    name(dice, to, (0, 8));
    // Two bytes at least: no such separator is one character, so that any trim and any characters go with it.
    name(dice, to, (2, 8));
    to.push(dice.one_of(&[0, 1]));
    to.push(dice.one_of(&[0, b'-', b'#', 0xB7]));
    to.push(dice.one_of(&[0, b'X', b'?', 0xD7]));
    to.push(dice.one_of(&[0, 1]));
}

/// A name of some length; one byte in forty is beyond ASCII.
fn name(dice: &mut Dice, to: &mut Vec<u8>, (least, most): (i64, i64)) {
    let length = dice.between(least, most);
    to.push(length as u8);
    for _ in 0..length {
        let (low, high) = if dice.index(40) == 0 { (160, 255) } else { (32, 126) };
        to.push(dice.between(low, high) as u8);
    }
}

/// Four bytes; a number below zero as its two's complement.
fn number(to: &mut Vec<u8>, value: i64) {
    to.extend((value as u32).to_be_bytes());
}
