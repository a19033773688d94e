//! How many times a granted condition counts.

use crate::FieldError;
use std::fmt;
use std::str::FromStr;

const MOST_THOUSANDTHS: u16 = 10_000;
const DECIMALS: usize = 3;

/// How many times a granted condition counts, as a surcharge by the metre does: from 0 to 10, with at most three decimals. It is
/// shown as `2.5`.
///
/// ```
/// use rafttwine::Factor;
///
/// assert_eq!("2.5".parse::<Factor>()?, Factor::thousandths(2_500)?);
/// assert_eq!(Factor::thousandths(10_001).unwrap_err().to_string(), "Factor: 10001 thousandths, and 0 to 10000 are allowed");
/// # Ok::<(), rafttwine::FieldError>(())
/// ```
#[derive(Clone, Copy, Debug, PartialEq, Eq, PartialOrd, Ord, Hash)]
pub struct Factor(u16);

impl Factor {
    /// That of a condition which is granted by its name alone, and of a line without a condition.
    pub const ONE: Factor = Factor(1_000);

    /// Of thousandths: 2500 is two and a half times.
    pub fn thousandths(thousandths: u16) -> Result<Factor, FieldError> {
        match thousandths {
            0..=MOST_THOUSANDTHS => Ok(Factor(thousandths)),
            _ => Err(FieldError::new("Factor", format!("{thousandths} thousandths, and 0 to {MOST_THOUSANDTHS} are allowed"))),
        }
    }

    /// How many thousandths it is.
    pub fn as_thousandths(self) -> u16 {
        self.0
    }

    /// Of a line that the library wrote.
    pub(crate) fn of(bytes: [u8; 2]) -> Factor {
        Factor(u16::from_be_bytes(bytes))
    }

    /// For a question.
    pub(crate) fn bytes(self) -> [u8; 2] {
        self.0.to_be_bytes()
    }
}

/// The number of digits alone, of which there is at least one.
fn digits(text: &str) -> Option<u32> {
    text.bytes().all(|letter| letter.is_ascii_digit()).then(|| text.parse().ok()).flatten()
}

impl FromStr for Factor {
    type Err = FieldError;

    /// Reads `2.5`, `0.125` or `3`.
    fn from_str(text: &str) -> Result<Factor, FieldError> {
        let unfit = |why: &str| FieldError::new("Factor", format!("{text:?} {why}"));
        let (whole, decimals) = text.split_once('.').unwrap_or((text, "0"));
        if decimals.len() > DECIMALS {
            return Err(unfit("has more than three decimals"));
        }
        let (times, behind) = digits(whole).zip(digits(decimals)).ok_or_else(|| unfit("is no factor, as 2.5 or 3 would be"))?;
        let behind = behind * 10_u32.pow((DECIMALS - decimals.len()) as u32);
        let size = times.checked_mul(1_000).and_then(|thousandths| thousandths.checked_add(behind));
        let size = size.and_then(|size| u16::try_from(size).ok()).filter(|size| *size <= MOST_THOUSANDTHS);
        size.map(Factor).ok_or_else(|| unfit("is too great a factor: 0 to 10 are allowed"))
    }
}

impl fmt::Display for Factor {
    fn fmt(&self, to: &mut fmt::Formatter<'_>) -> fmt::Result {
        let shown = format!("{}.{:03}", self.0 / 1_000, self.0 % 1_000);
        to.pad(shown.trim_end_matches('0').trim_end_matches('.'))
    }
}
