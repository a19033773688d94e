//! Properties by their names and values, which stand beside a question for a relation to look at.

use super::packer::{Packed, Packer};
use super::FieldError;

const MOST_HELD: usize = 64;
const MOST_NAME: usize = 255;

/// What was chosen for a planned piece: properties by the names that relations have for them, each with a text, a number or nothing.
/// Small letters count as capitals. Of properties with one name the first counts.
///
/// These are not the properties of a [`Question`](crate::Question), which make an order number.
///
/// ```
/// use rafttwine::PropertyList;
///
/// let chosen = PropertyList::new().text("TOP", "oak").number("WIDTH", 1_600).none("SHELF");
/// assert_eq!(chosen.bytes()?.len(), 32);
/// assert_eq!(chosen.text("N", "€").bytes().unwrap_err().to_string(), "PropertyList.text of place 4: '€' is not in Latin-1");
/// # Ok::<(), rafttwine::FieldError>(())
/// ```
#[derive(Clone, Debug, Default, PartialEq, Eq)]
pub struct PropertyList<'a> {
    held: Vec<(&'a str, Value<'a>)>,
}

#[derive(Clone, Copy, Debug, PartialEq, Eq)]
enum Value<'a> {
    None,
    Text(&'a str),
    Number(i64),
}

impl<'a> PropertyList<'a> {
    /// A list without properties.
    pub fn new() -> PropertyList<'a> {
        PropertyList::default()
    }

    /// One property more, whose value is a text.
    pub fn text(self, name: &'a str, value: &'a str) -> PropertyList<'a> {
        self.with(name, Value::Text(value))
    }

    /// One property more, whose value is a number.
    pub fn number(self, name: &'a str, value: i64) -> PropertyList<'a> {
        self.with(name, Value::Number(value))
    }

    /// One property more, which has no value.
    pub fn none(self, name: &'a str) -> PropertyList<'a> {
        self.with(name, Value::None)
    }

    fn with(mut self, name: &'a str, value: Value<'a>) -> PropertyList<'a> {
        self.held.push((name, value));
        self
    }

    /// Its bytes, which the calls read.
    pub fn bytes(&self) -> Result<Vec<u8>, FieldError> {
        let mut list = Vec::new();
        let mut to = Packer::new(&mut list, "PropertyList");
        let count = self.held.len();
        if count > MOST_HELD {
            return Err(to.unfit("properties", format!("{count} of them, and at most {MOST_HELD} are allowed")));
        }
        to.bytes(&[count as u8]);
        for (place, (name, value)) in (1..).zip(&self.held) {
            pack(&mut to, name, *value).map_err(|error| error.of_place(place))?;
        }
        Ok(list)
    }
}

fn pack(to: &mut Packer, name: &str, value: Value) -> Packed {
    to.name("name", name, 0, MOST_NAME)?;
    match value {
        Value::None => to.bytes(&[0]),
        Value::Text(text) => {
            to.bytes(&[1]);
            to.name("text", text, 0, MOST_NAME)?;
        }
        Value::Number(number) => {
            to.bytes(&[2]);
            to.bytes(&number.to_be_bytes());
        }
    }
    Ok(())
}
