//! Packaging rows.

use super::packer::{Packed, Packer};
use super::warning::{small_letters, Remark};

/// The names of the eight values, how far each may be from zero, and which of the units it is in.
const VALUES: [(&str, i32, Option<usize>); 8] = [
    ("width", MOST_SIZE, Some(0)),
    ("height", MOST_SIZE, Some(0)),
    ("depth", MOST_SIZE, Some(0)),
    ("volume", MOST_SIZE, Some(1)),
    ("tare", MOST_SIZE, Some(2)),
    ("net", MOST_SIZE, Some(2)),
    ("items", MOST_COUNT, None),
    ("packs", MOST_COUNT, None),
];
const MOST_SIZE: i32 = 10_000_000;
const MOST_COUNT: i32 = 10_000;

/// The names of the three units, and what each may be.
const UNITS: [(&str, &[&str]); 3] = [
    ("length_unit", &["CMT", "FOT", "INH", "MMT", "MTR"]),
    ("volume_unit", &["INQ", "LTR", "MTQ"]),
    ("weight_unit", &["KGM", "LBR", "MGM"]),
];

/// Packaging data of an article, or what a granted condition adds to it. Sizes and weights are in thousandths of their unit. What
/// is not told is not known.
#[derive(Clone, Copy, Debug, PartialEq, Eq)]
pub struct PackagingRow<'a> {
    article: &'a str,
    condition: &'a str,
    values: [Option<i64>; 8],
    units: [Option<&'a str>; 3],
}

impl<'a> PackagingRow<'a> {
    /// The plain article's; with [`condition`](PackagingRow::condition) what that adds, and then `*` stands for every article.
    pub fn new(article: &'a str) -> PackagingRow<'a> {
        PackagingRow { article, condition: "", values: [None; 8], units: [None; 3] }
    }

    /// The row is added where this is granted. Granted names are raised to capitals and this one stands as it is, so that one with
    /// a small letter never counts.
    pub fn condition(self, condition: &'a str) -> PackagingRow<'a> {
        PackagingRow { condition, ..self }
    }

    fn value(mut self, place: usize, value: i64) -> PackagingRow<'a> {
        self.values[place] = Some(value);
        self
    }

    fn unit(mut self, place: usize, unit: &'a str) -> PackagingRow<'a> {
        self.units[place] = Some(unit);
        self
    }

    /// Width in thousandths of the unit of length.
    pub fn width(self, width: i64) -> PackagingRow<'a> {
        self.value(0, width)
    }

    /// Height in thousandths of the unit of length.
    pub fn height(self, height: i64) -> PackagingRow<'a> {
        self.value(1, height)
    }

    /// Depth in thousandths of the unit of length.
    pub fn depth(self, depth: i64) -> PackagingRow<'a> {
        self.value(2, depth)
    }

    /// Volume in thousandths of its unit.
    pub fn volume(self, volume: i64) -> PackagingRow<'a> {
        self.value(3, volume)
    }

    /// The weight of the packaging alone, in thousandths of the unit of weight.
    pub fn tare(self, tare: i64) -> PackagingRow<'a> {
        self.value(4, tare)
    }

    /// The weight of one item, in thousandths of the unit of weight.
    pub fn net(self, net: i64) -> PackagingRow<'a> {
        self.value(5, net)
    }

    /// Pieces in a carton.
    pub fn items(self, items: i64) -> PackagingRow<'a> {
        self.value(6, items)
    }

    /// Cartons.
    pub fn packs(self, packs: i64) -> PackagingRow<'a> {
        self.value(7, packs)
    }

    /// `CMT`, `FOT`, `INH`, `MMT` or `MTR`.
    pub fn length_unit(self, unit: &'a str) -> PackagingRow<'a> {
        self.unit(0, unit)
    }

    /// `INQ`, `LTR` or `MTQ`.
    pub fn volume_unit(self, unit: &'a str) -> PackagingRow<'a> {
        self.unit(1, unit)
    }

    /// `KGM`, `LBR` or `MGM`.
    pub fn weight_unit(self, unit: &'a str) -> PackagingRow<'a> {
        self.unit(2, unit)
    }

    pub(super) fn pack(&self, to: &mut Packer) -> Packed {
        to.bytes(&[4]);
        to.name("article", self.article, 1, 40)?;
        to.name("condition", self.condition, 0, 20)?;
        if self.article == "*" && self.condition.is_empty() {
            return Err(to.unfit("condition", "empty, and what is added to every article, *, needs one"));
        }
        let present = self.values.iter().enumerate().map(|(bit, value)| u8::from(value.is_some()) << bit).sum();
        to.bytes(&[present]);
        for (value, (field, most, _)) in self.values.iter().zip(VALUES) {
            to.near_zero(field, value.unwrap_or(0), most)?;
        }
        (0..UNITS.len()).try_for_each(|place| self.pack_unit(place, to))
    }

    fn pack_unit(&self, place: usize, to: &mut Packer) -> Packed {
        let (field, allowed) = UNITS[place];
        let needing = self.values.iter().zip(VALUES).find(|(value, (_, _, unit))| value.is_some() && *unit == Some(place));
        match (self.units[place], needing) {
            (Some(unit), _) if allowed.contains(&unit) => to.bytes(unit.as_bytes()),
            (Some(unit), _) => return Err(to.unfit(field, format!("{unit:?}, and one of {} is needed", allowed.join(", ")))),
            (None, Some((_, (value, _, _)))) => return Err(to.unfit(field, format!("not given, though the {value} is"))),
            (None, None) => to.bytes(&[0; 3]),
        }
        Ok(())
    }

    pub(super) fn remarks(&self) -> Option<Remark> {
        small_letters("PackagingRow.condition", self.condition)
    }
}
