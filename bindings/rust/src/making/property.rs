//! Properties of a planned piece.

use super::packer::{Packed, Packer};

const MOST_WIDTH: u8 = 30;

/// A property of the planned piece, so many characters wide in the final article number.
#[derive(Clone, Copy, Debug, PartialEq, Eq)]
pub struct Property<'a> {
    width: u8,
    state: State<'a>,
}

#[derive(Clone, Copy, Debug, PartialEq, Eq)]
enum State<'a> {
    Valued(&'a str),
    Hidden,
    Unselected,
}

impl<'a> Property<'a> {
    /// One with a value, which has no spaces and no backslash.
    pub fn valued(width: u8, value: &'a str) -> Property<'a> {
        Property { width, state: State::Valued(value) }
    }

    /// One that is hidden.
    pub fn hidden(width: u8) -> Property<'a> {
        Property { width, state: State::Hidden }
    }

    /// One for which nothing is selected.
    pub fn unselected(width: u8) -> Property<'a> {
        Property { width, state: State::Unselected }
    }

    pub(super) fn pack(&self, to: &mut Packer) -> Packed {
        if !(1..=MOST_WIDTH).contains(&self.width) {
            return Err(to.unfit("width", format!("{}, and 1 to {MOST_WIDTH} are allowed", self.width)));
        }
        to.bytes(&[self.width]);
        match self.state {
            State::Valued(value) => {
                to.bytes(&[0]);
                if let Some(letter) = value.chars().find(|letter| matches!(letter, ' ' | '\u{a0}' | '\\')) {
                    return Err(to.unfit("value", format!("{value:?} has {letter:?}, which no value may have")));
                }
                to.name("value", value, 1, self.width.into())?;
            }
            State::Hidden => to.bytes(&[1, 0]),
            State::Unselected => to.bytes(&[2, 0]),
        }
        Ok(())
    }
}
