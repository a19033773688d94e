//! What cannot be packed.

use std::fmt;

/// A field whose value its layout does not allow, as `PriceRow.article: 41 bytes, and at most 40 are allowed`.
#[derive(Clone, Debug, PartialEq, Eq)]
pub struct FieldError {
    record: Option<usize>,
    field: String,
    sentence: String,
}

impl FieldError {
    pub(crate) fn new(field: impl Into<String>, sentence: impl Into<String>) -> FieldError {
        FieldError { record: None, field: field.into(), sentence: sentence.into() }
    }

    pub(crate) fn in_record(self, place: usize) -> FieldError {
        FieldError { record: Some(place), ..self }
    }

    pub(crate) fn of_place(self, place: usize) -> FieldError {
        FieldError { field: format!("{} of place {place}", self.field), ..self }
    }

    /// In a book, the place of the record, from 1; for a text book, that of the text.
    pub fn record(&self) -> Option<usize> {
        self.record
    }

    /// The field, as `PriceRow.article`.
    pub fn field(&self) -> &str {
        &self.field
    }

    /// What is wrong with it.
    pub fn sentence(&self) -> &str {
        &self.sentence
    }
}

impl fmt::Display for FieldError {
    fn fmt(&self, to: &mut fmt::Formatter<'_>) -> fmt::Result {
        if let Some(place) = self.record {
            write!(to, "record {place}, ")?;
        }
        write!(to, "{}: {}", self.field, self.sentence)
    }
}

impl std::error::Error for FieldError {}
