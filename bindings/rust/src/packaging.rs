//! Packaging data.

use crate::refusal::accepted;
use crate::{raw, Refusal};
use std::fmt;

/// Packaging data of the article as planned. Sizes and weights are in thousandths of their unit. `None`: not known.
#[derive(Clone, Copy, Debug, Default, PartialEq, Eq)]
#[allow(missing_docs)]
pub struct Packaging {
    pub width: Option<i64>,
    pub height: Option<i64>,
    pub depth: Option<i64>,
    pub volume: Option<i64>,
    /// The weight of the packaging alone.
    pub tare: Option<i64>,
    /// The weight of one item.
    pub net: Option<i64>,
    pub items: Option<i64>,
    pub packs: Option<i64>,
    /// Tare plus net times items, if all three are known.
    pub gross: Option<i64>,
    pub length_unit: Option<Unit>,
    pub volume_unit: Option<Unit>,
    pub weight_unit: Option<Unit>,
}

/// A unit of three letters, as `MMT`, `LTR` or `KGM`.
#[derive(Clone, Copy, Debug, PartialEq, Eq, Hash)]
pub struct Unit([u8; 3]);

impl Unit {
    /// Its letters.
    pub fn as_str(&self) -> &str {
        std::str::from_utf8(&self.0).expect("a unit has letters")
    }
}

impl fmt::Display for Unit {
    fn fmt(&self, to: &mut fmt::Formatter<'_>) -> fmt::Result {
        to.pad(self.as_str())
    }
}

/// The packaging data of the plain article, with what the granted conditions add.
pub fn packaging(book: &[u8], question: &[u8]) -> Result<Packaging, Refusal> {
    // Sound: each pointer goes with the length of its slice.
    let answer = unsafe { raw::rafttwine_packaging(book.as_ptr(), book.len(), question.as_ptr(), question.len()) };
    accepted(answer.number)?;
    let value = |at: usize| Some(answer.values[at]).filter(|_| answer.present >> at & 1 == 1);
    let unit =
        |at: usize| Some([answer.units[at], answer.units[at + 1], answer.units[at + 2]]).filter(|unit| *unit != [0; 3]).map(Unit);
    let (tare, net, items) = (value(4), value(5), value(6));
    Ok(Packaging {
        width: value(0),
        height: value(1),
        depth: value(2),
        volume: value(3),
        tare,
        net,
        items,
        packs: value(7),
        gross: tare.and(net).and(items).map(|_| answer.gross),
        length_unit: unit(0),
        volume_unit: unit(3),
        weight_unit: unit(6),
    })
}
