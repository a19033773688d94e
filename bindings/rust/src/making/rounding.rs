//! Roundings.

use super::packer::{Packed, Packer};
use crate::{Cents, Way};

const MOST_STEP: u32 = 1_000_000;
const MOST_ADDED: i32 = 1_000_000;

/// How an amount is rounded: something is added, a multiple of the step is taken, something is added again.
#[derive(Clone, Copy, Debug, PartialEq, Eq)]
pub struct Rounding {
    number: u16,
    way: Way,
    step: u32,
    before: Cents,
    after: Cents,
}

impl Rounding {
    /// A rounding by its number, from 1 on, to multiples of so many cents; nothing is added.
    pub fn new(number: u16, way: Way, step: u32) -> Rounding {
        Rounding { number, way, step, before: Cents(0), after: Cents(0) }
    }

    /// What is added before the multiple is taken.
    pub fn add_before(self, before: Cents) -> Rounding {
        Rounding { before, ..self }
    }

    /// What is added behind it.
    pub fn add_after(self, after: Cents) -> Rounding {
        Rounding { after, ..self }
    }

    pub(super) fn pack(&self, to: &mut Packer) -> Packed {
        if self.number == 0 {
            return Err(to.unfit("number", "0, and 1 to 65535 are allowed"));
        }
        to.bytes(&[3]);
        to.bytes(&self.number.to_be_bytes());
        to.bytes(&[self.way.byte()]);
        to.within("step", self.step, 1, MOST_STEP)?;
        to.near_zero("before", self.before.0, MOST_ADDED)?;
        to.near_zero("after", self.after.0, MOST_ADDED)
    }
}
