//! Quotes in every field: left open, closed too early, with something behind them; and quotes as they should be.

use super::{row, shown, surrounded, with, Fault, CONDITION, FIELDS, TEXT};

pub fn faults() -> Vec<Fault> {
    let mut faults: Vec<Fault> = (0..FIELDS.len()).flat_map(in_field).collect();
    faults.extend(OPEN.iter().flat_map(|lines| open_over_lines(lines)));
    faults.extend(good_conditions());
    faults
}

/// What may not stand behind a closing quote; a quote there opens nothing, and two in a row are one that does not close.
const BEHIND: [&[u8]; 12] = [b"x", b"x\"", b" x", b"\t", b" \t", b"\r", b"\0", b"\xa0", b"\"", b" \"", b" \"\"", b"\"x"];

/// The content of a good field in quotes that are wrong.
fn in_field(place: usize) -> Vec<Fault> {
    let content = FIELDS[place];
    let opened = [b"\"", content].concat();
    let closed = [&opened[..], b"\""].concat();
    let mut fields: Vec<Vec<u8>> = BEHIND.iter().map(|behind| [&closed[..], behind].concat()).collect();
    // Closed at once, with the content behind the quotes; where it is empty, that would be good.
    fields.extend((!content.is_empty()).then(|| [b"\"\"", content].concat()));
    // Left open: up to the next field's quote, or to the end of the line.
    fields.push(opened);
    fields.push(b"\"".to_vec());
    fields.push(b"\"\"\"".to_vec());
    let bad = fields.iter().flat_map(|field| {
        let what = format!("field {} as {}", place + 1, shown(field));
        surrounded(&what, &with(place, field), None)
    });
    let good = [&closed[..], b"   "].concat();
    let good = [closed, good].into_iter().flat_map(|field| {
        let what = format!("field {} as {}", place + 1, shown(&field));
        surrounded(&what, &with(place, &field), Some(row()))
    });
    bad.chain(good).collect()
}

/// Lines of which the first has a quote left open that one in a later line would close.
const OPEN: [&[&[u8]]; 3] = [
    &[b"\"A1", b"\";;S;B;1;;100.00;1;EUR;20240101;20241231;0;"],
    &[b"A1;;S;B;1;\"t", b"u\";100.00;1;EUR;20240101;20241231;0;"],
    &[b"A1;;S;B;1;;100.00;1;EUR;20240101;20241231;0;\"", b"\""],
];

/// The first of the lines is bad, whatever follows.
fn open_over_lines(lines: &[&[u8]]) -> Vec<Fault> {
    surrounded("a quote over two lines", &lines.join(&b'\n'), None)
}

/// Conditions in quotes, and without them though quotes are in them; a text is as good in any of them.
const CONDITIONS: [(&[u8], &str); 18] = [
    (b"\"OAK\"", "OAK"),
    (b"\"OAK  \" ", "OAK  "),
    (b"\" OAK\"", " OAK"),
    (b"\"O;K\"", "O;K"),
    (b"\";;;\" ", ";;;"),
    (b"\"O\"\"K\"", "O\"K"),
    (b"\"\"\"\"", "\""),
    (b"\"\"\"OAK\"\"\"", "\"OAK\""),
    (b"\"\"\"\"\"\"", "\"\""),
    (b"\"\"\";\"\"\"", "\";\""),
    (b"\"#\"", "#"),
    (b"O\"K", "O\"K"),
    (b"OAK\"", "OAK\""),
    (b"O\"\"K", "O\"\"K"),
    (b" \"OAK\"", " \"OAK\""),
    (b"OAK ", "OAK "),
    (b"#", "#"),
    (b"'O'", "'O'"),
];

fn good_conditions() -> Vec<Fault> {
    let mut faults = Vec::new();
    for (field, name) in CONDITIONS {
        faults.extend(surrounded(&format!("the condition {}", shown(field)), &with(CONDITION, field), Some(row().condition(name))));
        faults.extend(surrounded(&format!("the text {}", shown(field)), &with(TEXT, field), Some(row().text(1))));
    }
    faults
}
