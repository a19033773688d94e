//! Lists of properties. Names and values come from small pools, so that conditions meet them, and the pools hold what lies close
//! together when it is compared.

use super::{Damaged, RelationScene};
use crate::cases::Damage;
use crate::make::{latin1, Listed, ListedValue};

/// Names that a relation can say; some begin or end like reserved words.
pub(super) const PROPERTIES: [&str; 16] =
    ["A", "B", "A", "B", "WOOD", "Wood", "wood", "_", "A1", "ANDREA", "IFA", "NOTE", "IN_", "VARCOND", "SPECIFIED1", "x_9"];

/// Names that it cannot say.
const OTHER_NAMES: [&str; 5] = ["", "A B", "\u{c4}", "$A", "AND"];

/// Strings that are equal, or change places, once small letters are raised, and some that would be if more were; `_` stands between
/// the capitals and the small letters.
pub(super) const TEXTS: [&str; 18] = [
    "OAK",
    "oak",
    "Oak",
    "OAKS",
    "OA",
    "\u{fc}\u{ff}",
    "",
    "",
    "\u{f7}",
    "\u{d7}",
    "z",
    "Z",
    "_",
    "900",
    "1000",
    "\u{dc}\u{df}",
    "\u{e4}",
    "\u{c4}",
];

pub(super) const NUMBERS: [i64; 13] =
    [0, 1, -1, 5, 5, 900, 1000, -900, 256, 999_999_999_999_999_999, -999_999_999_999_999_999, 1 << 32, 1 - (1 << 40)];

/// Numbers that no constant can say.
const GREAT_NUMBERS: [i64; 4] = [i64::MIN, i64::MAX, 1_000_000_000_000_000_000, -1_000_000_000_000_000_000];

impl RelationScene {
    pub(super) fn list(&mut self) -> Vec<Listed> {
        let count = match self.random.below(20) {
            0 | 1 => 0,
            2..=15 => self.random.between(1, 6),
            16..=18 => self.random.between(7, 40),
            _ => self.random.pick(&[63, 64]),
        };
        (0..count).map(|_| self.listed()).collect()
    }

    fn listed(&mut self) -> Listed {
        let name = match self.random.below(20) {
            0 => latin1(self.random.pick(&OTHER_NAMES)),
            1 => vec![b'N'; self.random.pick(&[20, 21, 255])],
            _ => latin1(self.random.pick(&PROPERTIES)),
        };
        Listed { name, value: self.listed_value() }
    }

    fn listed_value(&mut self) -> ListedValue {
        match self.random.below(20) {
            0..=2 => ListedValue::None,
            3 => ListedValue::Text(vec![b'V'; self.random.pick(&[20, 21, 254, 255])]),
            4..=10 => ListedValue::Text(latin1(self.random.pick(&TEXTS))),
            11 => ListedValue::Number(self.random.pick(&GREAT_NUMBERS)),
            12 => ListedValue::Number(self.random.number() as i64),
            _ => ListedValue::Number(self.random.pick(&NUMBERS)),
        }
    }

    /// Breaks a list, or damages its finished bytes. Here and there it stays good.
    pub(super) fn spoil_list(&mut self, listed: &mut Vec<Listed>, damages: &mut Vec<(Damaged, Damage)>) {
        let place = self.random.below(listed.len());
        match self.random.below(8) {
            0 => *listed = vec![Listed::none("A"); self.random.pick(&[64, 65, 66, 255])],
            1 | 2 if !listed.is_empty() => listed[place].name.push(self.random.pick(&[0, 31, 127, 128, 159, 160])),
            3 | 4 if !listed.is_empty() => listed[place].value = ListedValue::Raw(self.raw_value()),
            _ => damages.push((Damaged::Properties, self.list_damage())),
        }
    }

    /// The byte of the sort and what follows; most often they do not fit together.
    fn raw_value(&mut self) -> Vec<u8> {
        let raws: [&[u8]; 12] = [
            b"",
            b"\x03",
            b"\xff",
            b"1\x01A",
            b"\0\0",
            b"\x01",
            b"\x01\x01",
            b"\x01\x01\x7f",
            b"\x01\x02A\n",
            b"\x02",
            b"\x02\0\0\0\0\0\0\0",
            b"\x02\0\0\0\0\0\0\0\0\0",
        ];
        self.random.pick(&raws).to_vec()
    }

    fn list_damage(&mut self) -> Damage {
        let place = self.random.below(1 << 20);
        match self.random.below(7) {
            0 => Damage::DropLast(self.random.between(1, 12)),
            1 => Damage::KeepFirst(self.random.below(20)),
            2 => Damage::Append((0..self.random.between(1, 8)).map(|_| self.random.byte()).collect()),
            3 => Damage::Change { place, mask: 1 << self.random.below(8) },
            4 => Damage::Change { place: 0, mask: 1 << self.random.below(8) },
            5 => Damage::Insert { place, byte: self.random.byte() },
            _ => Damage::Remove { place },
        }
    }
}
