//! Reads the document of the calls: sections by heading, tables by their first column's head.

use crate::parts::hex;
use std::collections::HashMap;

/// The cells of a row by the heads of its columns, or the rows of an example by their names.
pub struct Cells(HashMap<String, String>);

impl Cells {
    pub fn text(&self, name: &str) -> &str {
        self.0.get(name).unwrap_or_else(|| panic!("the document lacks `{name}` beside {:?}", self.0))
    }

    pub fn number<T: std::str::FromStr>(&self, name: &str) -> T {
        let text = self.text(name);
        text.parse().unwrap_or_else(|_| panic!("the document's `{name}` is no such number: {text}"))
    }

    /// What stands beside a refusal of a call that tells places; 0 for any other call.
    pub fn place(&self) -> u64 {
        self.0.get("Place").map_or(0, |_| self.number("Place"))
    }

    /// Bytes in hex, or `none`.
    pub fn bytes(&self, name: &str) -> Vec<u8> {
        let text = self.text(name);
        let digits = if text == "none" { "" } else { text };
        hex(digits).unwrap_or_else(|| panic!("the document's `{name}` is not hex: {text}"))
    }

    /// So many bytes in hex.
    pub fn array<const N: usize>(&self, name: &str) -> [u8; N] {
        self.bytes(name).try_into().unwrap_or_else(|bytes| panic!("the document's `{name}` has another length: {bytes:?}"))
    }
}

struct Table {
    section: String,
    heads: Vec<String>,
    rows: Vec<Vec<String>>,
}

impl Table {
    fn cells(&self) -> Vec<Cells> {
        self.rows.iter().map(|row| Cells(self.heads.iter().cloned().zip(row.iter().cloned()).collect())).collect()
    }
}

pub struct Document(Vec<Table>);

/// The cells of a table's line without the ticks around them; `None` if the line is of no table.
fn cells(line: &str) -> Option<Vec<String>> {
    let inner = line.strip_prefix('|')?.strip_suffix('|')?;
    Some(inner.split('|').map(|cell| cell.trim().replace('`', "")).collect())
}

impl Document {
    pub fn of(text: &str) -> Self {
        let mut tables: Vec<Table> = Vec::new();
        let (mut section, mut within) = (String::new(), false);
        for line in text.lines() {
            let Some(cells) = cells(line) else {
                within = false;
                if let Some(heading) = line.strip_prefix("## ") {
                    section = heading.to_string();
                }
                continue;
            };
            match tables.last_mut() {
                Some(table) if within => table.rows.push(cells),
                _ => tables.push(Table { section: section.clone(), heads: cells, rows: Vec::new() }),
            }
            within = true;
        }
        // The first line below the heads is the rule.
        tables.iter_mut().for_each(|table| drop(table.rows.remove(0)));
        Document(tables)
    }

    /// The tables in the section whose heading names the call.
    fn tables<'d>(&'d self, call: &str) -> impl Iterator<Item = &'d Table> {
        let ticked = format!("`{call}`");
        self.0.iter().filter(move |table| table.section.contains(&ticked))
    }

    /// The one among them with this first head.
    fn table(&self, call: &str, head: &str) -> &Table {
        let found = self.tables(call).find(|table| table.heads[0] == head);
        found.unwrap_or_else(|| panic!("the document's section of {call} has no table of `{head}`"))
    }

    /// The rows of a call's table of refusals.
    pub fn rows(&self, call: &str) -> Vec<Cells> {
        self.table(call, "Number").cells()
    }

    /// The rows of a call's table of factors, if it has one.
    pub fn factors(&self, call: &str) -> Vec<Cells> {
        self.tables(call).filter(|table| table.heads[0] == "Factor").flat_map(Table::cells).collect()
    }

    /// Of each example of a call the names with what stands beside them.
    pub fn examples(&self, call: &str) -> Vec<Cells> {
        let examples = self.tables(call).filter(|table| table.heads[0].starts_with("Example"));
        examples.map(|table| Cells(table.rows.iter().map(|row| (row[0].clone(), row[1].clone())).collect())).collect()
    }

    /// The fields of a struct with their offsets, from the table with the struct's name as its first head; or nothing.
    pub fn offsets(&self, name: &str) -> Vec<(String, usize)> {
        let table = self.0.iter().find(|table| table.heads[0] == name);
        let offset = |row: &Vec<String>| (row[0].clone(), row[2].parse().expect("an offset in the third column"));
        table.map_or(Vec::new(), |table| table.rows.iter().map(offset).collect())
    }
}
