//! The text of a line.

use crate::refusal::accepted;
use crate::{latin_1, raw, Refusal};
use std::fmt::{self, Write};

/// Which text book has a text.
#[derive(Clone, Copy, Debug, PartialEq, Eq)]
pub enum Source {
    /// The asked one.
    Asked,
    /// The fallback.
    Fallback,
}

/// A text, which is a part of a text book and no copy. It is shown as Latin-1.
#[derive(Clone, Copy, Debug, PartialEq, Eq)]
pub struct Text<'b> {
    /// Which book has it.
    pub source: Source,
    /// Where it starts in that book, from 0.
    pub place: usize,
    /// The part of the book.
    pub part: &'b [u8],
}

impl fmt::Display for Text<'_> {
    fn fmt(&self, to: &mut fmt::Formatter<'_>) -> fmt::Result {
        latin_1::letters(self.part).try_for_each(|letter| to.write_char(letter))
    }
}

/// The text of a line, from the asked text book or else from the fallback.
///
/// ```
/// # use rafttwine::TextBook;
/// let (mut english, mut german) = (TextBook::new(), TextBook::new());
/// english.add(100, "table")?;
/// german.add(100, "Tisch")?.add(300, "Nachlass f\u{fc}r Gro\u{df}kunden")?;
/// assert_eq!(rafttwine::text(&english, &german, 100)?.to_string(), "table");
/// assert_eq!(rafttwine::text(&english, &german, 300)?.to_string(), "Nachlass f\u{fc}r Gro\u{df}kunden");
/// # Ok::<(), Box<dyn std::error::Error>>(())
/// ```
pub fn text<'b>(asked: &'b [u8], fallback: &'b [u8], number: u32) -> Result<Text<'b>, Refusal> {
    // Sound: each pointer goes with the length of its slice.
    let answer = unsafe { raw::rafttwine_text(asked.as_ptr(), asked.len(), fallback.as_ptr(), fallback.len(), number) };
    accepted(answer.number)?;
    let (source, book) = if answer.book == 1 { (Source::Asked, asked) } else { (Source::Fallback, fallback) };
    let place = answer.place as usize;
    Ok(Text { source, place, part: &book[place..place + answer.length as usize] })
}
