//! The properties that stand beside the question.

use super::tree::Value;
use crate::letters::raised;
use crate::reader::Reader;

const MOST_PROPERTIES: u8 = 64;

/// Names, raised, and what they have for a value, in the order of the list.
#[derive(Debug, Clone, PartialEq, Eq)]
pub struct Properties(Vec<(Vec<u8>, Option<Value>)>);

impl Properties {
    /// The whole list, or `None` if it breaks its layout.
    pub fn read(bytes: &[u8]) -> Option<Properties> {
        let mut reader = Reader::new(bytes);
        let count = reader.byte()?;
        if count > MOST_PROPERTIES {
            return None;
        }
        let properties: Option<Vec<_>> = (0..count).map(|_| read_property(&mut reader)).collect();
        let properties = properties?;
        reader.at_end().then_some(Properties(properties))
    }

    /// The value of a property by its raised name. The first of a name counts, also if it has none.
    pub fn value(&self, name: &[u8]) -> Option<&Value> {
        let (_, value) = self.0.iter().find(|(listed, _)| listed == name)?;
        value.as_ref()
    }
}

fn read_property(reader: &mut Reader) -> Option<(Vec<u8>, Option<Value>)> {
    let name = raised(&reader.name(0, 255)?);
    let value = match reader.byte()? {
        0 => None,
        1 => Some(Value::Text(reader.name(0, 255)?)),
        2 => Some(Value::Number(reader.i64()?)),
        _ => return None,
    };
    Some((name, value))
}
