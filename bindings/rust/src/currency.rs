//! Currencies.

use std::fmt;

/// Three capitals.
#[derive(Clone, Copy, PartialEq, Eq, Hash)]
pub struct Currency(pub(crate) [u8; 3]);

impl Currency {
    /// Its letters, as `"EUR"`.
    pub fn as_str(&self) -> &str {
        std::str::from_utf8(&self.0).expect("a currency has capitals")
    }
}

impl fmt::Display for Currency {
    fn fmt(&self, to: &mut fmt::Formatter<'_>) -> fmt::Result {
        to.pad(self.as_str())
    }
}

impl fmt::Debug for Currency {
    fn fmt(&self, to: &mut fmt::Formatter<'_>) -> fmt::Result {
        to.write_str(self.as_str())
    }
}
