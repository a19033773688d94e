//! What a field may say and what not: decimals, dates and quantities in every form, letters, names.

use super::{
    row, shown, surrounded, with, Fault, ARTICLE, CONDITION, CURRENCY, FIELDS, FLAG, FROM, LEVEL, QUANTITY, ROUNDING, RULE, SORT,
    TEXT, TO, VALUE,
};
use crate::make::Price;

pub fn faults() -> Vec<Fault> {
    let mut faults = values();
    faults.extend(bounded_values());
    faults.extend(short_values());
    faults.extend(dates());
    faults.extend(quantities());
    faults.extend(names());
    faults.extend(others());
    faults
}

/// The good line with one field as given, in all surroundings.
fn field(place: usize, field: &[u8], due: Option<Price>) -> Vec<Fault> {
    surrounded(&format!("field {} as {}", place + 1, shown(field)), &with(place, field), due)
}

fn bad_fields(place: usize, fields: &[&[u8]]) -> Vec<Fault> {
    fields.iter().flat_map(|bad| field(place, bad, None)).collect()
}

/// Decimals, and the hundredths that they are.
const VALUES: [(&[u8], i32); 34] = [
    (b"0", 0),
    (b"0.0", 0),
    (b".0", 0),
    (b"0.", 0),
    (b"-0", 0),
    (b"-0.00", 0),
    (b"-.0", 0),
    (b"000", 0),
    (b"0.000000000000000000000000000000", 0),
    (b"5", 500),
    (b"5.", 500),
    (b"-5.", -500),
    (b".5", 50),
    (b"-.5", -50),
    (b".05", 5),
    (b"-0.05", -5),
    (b"5.5", 550),
    (b"5.05", 505),
    (b"5.50", 550),
    (b"5.500", 550),
    (b"5.05000000000000000000000", 505),
    (b"-5.55", -555),
    (b"05", 500),
    (b"00000000000000000000000000000005.5", 550),
    (b"-007.01", -701),
    (b"12.34", 1_234),
    (b"12.3400", 1_234),
    (b"999.99", 99_999),
    (b"999999.99", 99_999_999),
    (b"1000000", 100_000_000),
    (b"1000000.000", 100_000_000),
    (b"001000000.", 100_000_000),
    (b"-1000000.00", -100_000_000),
    (b"-999999.99", -99_999_999),
];

const NO_VALUES: [&[u8]; 46] = [
    b"",
    b".",
    b"-",
    b"-.",
    b"+",
    b"+5",
    b"+0",
    b"--5",
    b"-+5",
    b"5-",
    b"- 5",
    b" 5",
    b"5 ",
    b"5 5",
    b"5,0",
    b"5,00",
    b"5.5.5",
    b"5..",
    b"..5",
    b"5.0.",
    b"1e3",
    b"1E3",
    b"0x5",
    b"1 000",
    b"1'000",
    b"1.000,00",
    b"\xb2",
    b"a.00",
    b"5.00a",
    b"5.000a",
    b"5.00-",
    b"5.-5",
    b"12.3401",
    b"5.001",
    b"5.009",
    b"5.0001",
    b"5.000000000001",
    b"0.001",
    b"-0.001",
    b".001",
    b"inf",
    b"NaN",
    b"5\0",
    b"5\t",
    b"5\r",
    b"\xa05",
];

fn values() -> Vec<Fault> {
    let good = VALUES.iter().flat_map(|&(form, value)| field(VALUE, form, Some(Price { value, ..row() })));
    good.chain(bad_fields(VALUE, &NO_VALUES)).collect()
}

/// Beyond the bounds of both flags, also where 32 or 64 bits come round.
const BEYOND: [&[u8]; 12] = [
    b"1000000.01",
    b"1000000.001",
    b"1000001",
    b"99999999.99",
    b"21474836.47",
    b"21474836.48",
    b"42949672.96",
    b"42949672.97",
    b"92233720368547758.08",
    b"184467440737095516.16",
    b"184467440737095516.17",
    b"340282366920938463463374607431768211456",
];

/// A percentage has bounds of its own: what is beyond them is good for a fixed amount.
const PERCENTAGES: [(&[u8], Option<i32>); 10] = [
    (b"12.50", Some(1_250)),
    (b"999.99", Some(99_999)),
    (b"1000", Some(100_000)),
    (b"1000.0000", Some(100_000)),
    (b"-1000.00", Some(-100_000)),
    (b"1000.01", None),
    (b"-1000.01", None),
    (b"1001", None),
    (b"999999.99", None),
    (b"1000000", None),
];

fn bounded_values() -> Vec<Fault> {
    let mut faults = Vec::new();
    for beyond in BEYOND {
        let negative = [b"-", beyond].concat();
        for value in [beyond, &negative] {
            faults.extend(field(VALUE, value, None));
            faults.extend(percentage(value, None));
        }
    }
    for (form, value) in PERCENTAGES {
        faults.extend(percentage(form, value));
    }
    faults
}

fn percentage(form: &[u8], due: Option<i32>) -> Vec<Fault> {
    let mut fields = FIELDS;
    (fields[VALUE], fields[FLAG]) = (form, b"0");
    let due = due.map(|value| Price { value, fixed: 0, ..row() });
    surrounded(&format!("the percentage {}", shown(form)), &fields.join(&b';'), due)
}

/// Every text of up to five of four signs and every one of up to three of eight. What they say is not worked out here.
fn short_values() -> Vec<Fault> {
    let mut texts = texts_of(b"-.05", 5);
    texts.extend(texts_of(b"-.05+,e ", 3));
    let unknown = |text: &Vec<u8>| {
        let file = [&with(VALUE, text)[..], &with(VALUE, b"7")].join(&b'\n');
        Fault::of_file(format!("the value {}", shown(text)), &file, None)
    };
    texts.iter().map(unknown).collect()
}

fn texts_of(signs: &[u8], longest: usize) -> Vec<Vec<u8>> {
    let mut texts = vec![Vec::new()];
    let mut last = texts.clone();
    for _ in 0..longest {
        last = last.iter().flat_map(|text| signs.iter().map(|&sign| [&text[..], &[sign]].concat())).collect();
        texts.extend(last.clone());
    }
    texts
}

/// Days or not: eight digits are a date, and nothing is the date 0.
const DATES: [(&[u8], u32); 6] =
    [(b"", 0), (b"00000000", 0), (b"00000001", 1), (b"20230229", 20_230_229), (b"00010101", 10_101), (b"99999999", 99_999_999)];

const NO_DATES: [&[u8]; 17] = [
    b" ",
    b"        ",
    b"0",
    b"2024010",
    b"202401011",
    b"020240101",
    b"2024-01-01",
    b"2024-1-1",
    b"-2024010",
    b"+2024010",
    b"2024010 ",
    b" 2024010",
    b"2024.101",
    b"2024010a",
    b"2024010\0",
    b"2024010/",
    b"2024010:",
];

fn dates() -> Vec<Fault> {
    let mut faults = Vec::new();
    for (form, date) in DATES {
        faults.extend(field(FROM, form, Some(row().dates(date, row().to))));
        faults.extend(field(TO, form, Some(row().dates(row().from, date))));
    }
    faults.extend([FROM, TO].iter().flat_map(|&place| bad_fields(place, &NO_DATES)));
    faults
}

const QUANTITIES: [(&[u8], u32); 8] = [
    (b"0", 0),
    (b"1", 1),
    (b"000", 0),
    (b"007", 7),
    (b"100000", 100_000),
    (b"2147483648", 1 << 31),
    (b"4294967295", u32::MAX),
    (b"0000000000000000000000000000004294967295", u32::MAX),
];

const NO_QUANTITIES: [&[u8]; 16] = [
    b"",
    b" ",
    b"-0",
    b"-1",
    b"+1",
    b"1.",
    b"1.0",
    b".0",
    b"1 ",
    b" 1",
    b"1a",
    b"4294967296",
    b"4294967297",
    b"9999999999",
    b"18446744073709551616",
    b"18446744073709551617",
];

fn quantities() -> Vec<Fault> {
    let good = QUANTITIES.iter().flat_map(|&(form, quantity)| field(QUANTITY, form, Some(row().up_to(quantity))));
    good.chain(bad_fields(QUANTITY, &NO_QUANTITIES)).collect()
}

/// Names at both bounds of their lengths and just beyond; a text's name has none.
fn names() -> Vec<Fault> {
    let mut faults = Vec::new();
    for length in [0, 1, 19, 20, 21, 39, 40, 41, 255, 256, 257, 260, 296, 65_536] {
        let name = vec![b'N'; length];
        let of_article = (1..=40).contains(&length).then(|| Price { article: name.clone(), ..row() });
        let of_condition = (length <= 20).then(|| Price { condition: name.clone(), ..row() });
        faults.extend(field(ARTICLE, &name, of_article));
        faults.extend(field(CONDITION, &name, of_condition));
        faults.extend(field(TEXT, &name, Some(row().text(u32::from(length > 0)))));
    }
    faults
}

/// Fields of one letter or three, and the rounding's name, that are not as they must be.
fn others() -> Vec<Fault> {
    let bad: [(usize, &[&[u8]]); 6] = [
        (SORT, &[b"", b"s", b"p", b"B", b"SP", b"SS", b"S ", b" S", b"*", b"\0"]),
        (LEVEL, &[b"", b"b", b"x", b"S", b"BX", b"BB", b"B ", b" B", b"\0"]),
        (RULE, &[b"", b"0", b"3", b"01", b"1.", b"11", b"-1", b"1 ", b"\x01"]),
        (FLAG, &[b"", b"2", b"00", b"01", b"1.0", b"+1", b"1 ", b"\x01"]),
        (CURRENCY, &[b"", b"EU", b"EURO", b"eur", b"EuR", b"E R", b"\xc4UR", b"E[R", b"@UR", b" EUR", b"EUR ", b"EU\0"]),
        (ROUNDING, &[b"R", b"0", b" ", b".", b"\0", b"\t"]),
    ];
    bad.iter().flat_map(|&(place, fields)| bad_fields(place, fields)).collect()
}
