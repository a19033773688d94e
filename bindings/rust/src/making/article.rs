//! Articles.

use super::packer::{Packed, Packer};

/// An article that can be priced, with the scheme of its final number, if it has one.
#[derive(Clone, Copy, Debug, PartialEq, Eq)]
pub struct Article<'a> {
    number: &'a str,
    scheme: &'a str,
}

impl<'a> Article<'a> {
    /// An article by its base number, without a scheme.
    pub fn new(number: &'a str) -> Article<'a> {
        Article { number, scheme: "" }
    }

    /// The id of the [`Scheme`](crate::Scheme) of its final number.
    pub fn scheme(self, scheme: &'a str) -> Article<'a> {
        Article { scheme, ..self }
    }

    pub(super) fn pack(&self, to: &mut Packer) -> Packed {
        to.bytes(&[1]);
        to.name("number", self.number, 1, 40)?;
        to.name("scheme", self.scheme, 0, 20)
    }
}
