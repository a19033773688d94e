//! The version of the library that is linked.

use crate::raw;
use std::fmt;

/// A version of the library. It is shown as `2.0.0`.
#[derive(Clone, Copy, Debug, PartialEq, Eq, PartialOrd, Ord, Hash)]
pub struct Version {
    /// Changes when a program has to be compiled anew.
    pub major: u32,
    /// Changes when something is added.
    pub minor: u32,
    /// Changes with anything else.
    pub patch: u32,
}

impl fmt::Display for Version {
    fn fmt(&self, to: &mut fmt::Formatter<'_>) -> fmt::Result {
        to.pad(&format!("{}.{}.{}", self.major, self.minor, self.patch))
    }
}

/// The version of the library that is linked, which may be later than this crate's.
pub fn version() -> Version {
    // Sound: it takes nothing and returns a number.
    let number = unsafe { raw::rafttwine_version() };
    Version { major: number / 10_000, minor: number / 100 % 100, patch: number % 100 }
}
