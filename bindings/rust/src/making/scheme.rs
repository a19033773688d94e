//! Schemes of final article numbers.

use super::packer::{Packed, Packer};

const USUAL_HIDDEN: char = '-';
const USUAL_UNSELECTED: char = 'X';

/// How a final article number is put together: the base number, what stands before the values, and the values with what stands
/// between them. Unless it is told otherwise there is one space before the values and nothing between them, hidden properties are
/// left out, and values are filled with spaces to their width.
#[derive(Clone, Copy, Debug, PartialEq, Eq)]
pub struct Scheme<'a> {
    id: &'a str,
    before_values: &'a str,
    between_values: &'a str,
    hidden_shown: bool,
    hidden: Option<char>,
    unselected: Option<char>,
    trim: bool,
}

impl<'a> Scheme<'a> {
    /// A scheme by the id under which articles name it.
    pub fn new(id: &'a str) -> Scheme<'a> {
        Scheme { id, before_values: "", between_values: "", hidden_shown: false, hidden: None, unselected: None, trim: false }
    }

    /// What stands between the base number and the values; empty for one space.
    pub fn before_values(self, separator: &'a str) -> Scheme<'a> {
        Scheme { before_values: separator, ..self }
    }

    /// What stands between two values.
    pub fn between_values(self, separator: &'a str) -> Scheme<'a> {
        Scheme { between_values: separator, ..self }
    }

    /// Hidden properties are shown by their character, `-` unless another is told.
    pub fn show_hidden(self) -> Scheme<'a> {
        Scheme { hidden_shown: true, ..self }
    }

    /// The character that stands for hidden properties.
    pub fn hidden(self, character: char) -> Scheme<'a> {
        Scheme { hidden: Some(character), ..self }
    }

    /// The character that stands where nothing is selected, `X` unless another is told.
    pub fn unselected(self, character: char) -> Scheme<'a> {
        Scheme { unselected: Some(character), ..self }
    }

    /// Values are not filled with spaces. Something has to stand between them then, and it has to differ from both characters.
    pub fn trim(self) -> Scheme<'a> {
        Scheme { trim: true, ..self }
    }

    pub(super) fn pack(&self, to: &mut Packer) -> Packed {
        to.bytes(&[5]);
        to.name("id", self.id, 1, 20)?;
        to.name("before_values", self.before_values, 0, 8)?;
        to.name("between_values", self.between_values, 0, 8)?;
        self.check_trim(to)?;
        to.bytes(&[u8::from(self.hidden_shown)]);
        for (field, character) in [("hidden", self.hidden), ("unselected", self.unselected)] {
            match character {
                Some(letter) => to.character(field, letter)?,
                None => to.bytes(&[0]),
            }
        }
        to.bytes(&[u8::from(self.trim)]);
        Ok(())
    }

    fn check_trim(&self, to: &Packer) -> Packed {
        let field = "between_values";
        if !self.trim {
            return Ok(());
        }
        if self.between_values.is_empty() {
            return Err(to.unfit(field, "empty, and trimmed values need something between them"));
        }
        for (whose, letter) in
            [("hidden", self.hidden.unwrap_or(USUAL_HIDDEN)), ("unselected", self.unselected.unwrap_or(USUAL_UNSELECTED))]
        {
            if self.between_values.chars().eq([letter]) {
                return Err(
                    to.unfit(field, format!("{letter:?}, which between trimmed values would look like a property that is {whose}"))
                );
            }
        }
        Ok(())
    }
}
