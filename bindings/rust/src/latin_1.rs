//! Letters from and to Latin-1.

/// The byte of a letter, if Latin-1 has it.
pub(crate) fn byte(letter: char) -> Option<u8> {
    u8::try_from(u32::from(letter)).ok()
}

/// A small letter that has a capital in Latin-1. Sharp s and y with two dots have none.
pub(crate) fn is_small(letter: char) -> bool {
    matches!(letter, 'a'..='z' | 'à'..='ö' | 'ø'..='þ')
}

/// Every byte is a letter of Latin-1.
pub(crate) fn letters(bytes: &[u8]) -> impl Iterator<Item = char> + '_ {
    bytes.iter().copied().map(char::from)
}
