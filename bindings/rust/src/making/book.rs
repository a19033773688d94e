//! Price books.

use super::packer::{append, empty_whole, Packed, Packer, VERSION};
use super::warning::Remark;
use super::{Article, FieldError, PackagingRow, PriceRow, Rounding, Scheme, Warning};
use crate::records_of;
use std::ops::Deref;

/// A record of a price book.
#[derive(Clone, Copy, Debug, PartialEq, Eq)]
#[allow(missing_docs)]
pub enum Record<'a> {
    Article(Article<'a>),
    Price(PriceRow<'a>),
    Rounding(Rounding),
    Packaging(PackagingRow<'a>),
    Scheme(Scheme<'a>),
}

macro_rules! records {
    ($($kind:ident $of:ty),*) => {
        $(impl<'a> From<$of> for Record<'a> {
            fn from(record: $of) -> Record<'a> {
                Record::$kind(record)
            }
        })*
    };
}

records!(Article Article<'a>, Price PriceRow<'a>, Rounding Rounding, Packaging PackagingRow<'a>, Scheme Scheme<'a>);

impl Record<'_> {
    /// The length of what follows, kind and body.
    fn pack(&self, to: &mut Vec<u8>) -> Packed {
        let start = to.len();
        to.extend([0; 2]);
        match self {
            Record::Article(article) => article.pack(&mut Packer::new(to, "Article")),
            Record::Price(row) => row.pack(&mut Packer::new(to, "PriceRow")),
            Record::Rounding(rounding) => rounding.pack(&mut Packer::new(to, "Rounding")),
            Record::Packaging(row) => row.pack(&mut Packer::new(to, "PackagingRow")),
            Record::Scheme(scheme) => scheme.pack(&mut Packer::new(to, "Scheme")),
        }?;
        // The longest record, of packaging, has far fewer bytes than two bytes can count.
        let length = (to.len() - start - 2) as u16;
        to[start..start + 2].copy_from_slice(&length.to_be_bytes());
        Ok(())
    }

    fn remarks(&self) -> Vec<Remark> {
        match self {
            Record::Price(row) => row.remarks().collect(),
            Record::Packaging(row) => row.remarks().into_iter().collect(),
            _ => Vec::new(),
        }
    }
}

/// A price book that is being made. At any time it is the bytes of a good book, and can be lent to the calls as such.
///
/// Of records alike the first counts: articles, schemes and roundings of one name or number, packaging rows of one article and
/// condition.
///
/// What the layout allows and nobody means is told by [`warnings`](Book::warnings): a condition with small letters, which is never
/// granted since granted names are raised to capitals and those of rows are not; a discount above zero, which raises the price; and
/// days that end before they begin.
///
/// ```
/// use rafttwine::{Book, Cents, PriceRow};
///
/// let mut book = Book::new();
/// book.add(PriceRow::base("A1", Cents(10_000)))?.add(PriceRow::discount("A1", Cents(500)))?;
/// let warnings: Vec<String> = book.warnings().iter().map(ToString::to_string).collect();
/// assert_eq!(warnings, ["record 2, PriceRow.value: a discount of 5.00 raises the price; what lowers it is below zero"]);
///
/// let error = book.add(PriceRow::base(&"A".repeat(41), Cents(10_000))).unwrap_err();
/// assert_eq!(error.to_string(), "record 3, PriceRow.article: 41 bytes, and at most 40 are allowed");
/// # Ok::<(), rafttwine::FieldError>(())
/// ```
#[derive(Clone, Debug, PartialEq, Eq)]
pub struct Book {
    bytes: Vec<u8>,
    records: usize,
    warnings: Vec<Warning>,
}

impl Book {
    /// A book without records.
    pub fn new() -> Book {
        Book { bytes: empty_whole(VERSION), records: 0, warnings: Vec::new() }
    }

    /// Packs a record behind those that are there. If it is not in its layout, or the book has no room for it, the book stays as it
    /// is.
    pub fn add<'a>(&mut self, record: impl Into<Record<'a>>) -> Result<&mut Book, FieldError> {
        let record = record.into();
        let place = self.records + 1;
        append(&mut self.bytes, "Book", |bytes| record.pack(bytes)).map_err(|error| error.in_record(place))?;
        self.records = place;
        self.warnings.extend(record.remarks().into_iter().map(|(field, sentence)| Warning { record: place, field, sentence }));
        Ok(self)
    }

    /// Reads a maker's price file, `ocd_price.csv`, and packs its price records behind those that are there. If a line is bad, or the
    /// book has no room for all of them, the book stays as it is.
    ///
    /// No [`warnings`](Book::warnings) tell of these records. Of makers' files two things are to be known: their quantity is the most
    /// pieces that a record counts for, 0 for any number, so that 1 is for one piece alone; and a blank date is no day, so that the
    /// record never counts.
    ///
    /// ```
    /// # use rafttwine::{price_of, Article, Book, Day, Question};
    /// let mut book = Book::new();
    /// book.add(Article::new("A1"))?.add_price_file(b"A1;;S;B;1;table;100.00;1;EUR;20240101;20241231;0;\n")?;
    /// let question = Question::new("A1", Day::new(2024, 6, 30)?).quantity(4).bytes()?;
    /// assert_eq!(price_of(&book, &question)?.total, 40_000);
    ///
    /// let error = book.add_price_file(b"# empty\n\nA1;;S\n").unwrap_err();
    /// assert!(error.to_string().starts_with("Book.price_file: line 3: a line of the price file makes no price record"));
    /// # Ok::<(), Box<dyn std::error::Error>>(())
    /// ```
    pub fn add_price_file(&mut self, file: &[u8]) -> Result<&mut Book, FieldError> {
        let records = records_of(file).map_err(|refused| FieldError::new("Book.price_file", refused.to_string()))?;
        append(&mut self.bytes, "Book", |bytes| {
            bytes.extend_from_slice(&records);
            Ok(())
        })?;
        self.records += count(&records);
        Ok(self)
    }

    /// What is hardly meant, in the order of records.
    pub fn warnings(&self) -> &[Warning] {
        &self.warnings
    }

    /// The bytes alone.
    pub fn into_bytes(self) -> Vec<u8> {
        self.bytes
    }
}

impl Default for Book {
    fn default() -> Book {
        Book::new()
    }
}

impl Deref for Book {
    type Target = [u8];

    fn deref(&self) -> &[u8] {
        &self.bytes
    }
}

/// How many records stand one behind the other, each behind the two bytes of its length.
fn count(mut records: &[u8]) -> usize {
    let mut number = 0;
    while let [high, low, behind @ ..] = records {
        records = &behind[usize::from(u16::from_be_bytes([*high, *low]))..];
        number += 1;
    }
    number
}
