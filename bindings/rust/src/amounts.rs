//! Amounts of money and percentages, which are kept apart.

use crate::FieldError;
use std::fmt;
use std::str::FromStr;

/// An amount of money in cents. It is shown as `1,849.88`.
#[derive(Clone, Copy, Debug, PartialEq, Eq, PartialOrd, Ord, Hash)]
pub struct Cents(pub i64);

impl fmt::Display for Cents {
    fn fmt(&self, to: &mut fmt::Formatter<'_>) -> fmt::Result {
        let cents = self.0.unsigned_abs();
        let whole = (cents / 100).to_string();
        let mut shown = String::from(if self.0 < 0 { "-" } else { "" });
        for (place, digit) in whole.chars().enumerate() {
            if place > 0 && (whole.len() - place) % 3 == 0 {
                shown.push(',');
            }
            shown.push(digit);
        }
        to.pad(&format!("{shown}.{:02}", cents % 100))
    }
}

/// A percentage with at most two decimals.
///
/// ```
/// use rafttwine::Percent;
///
/// assert_eq!("12.5".parse::<Percent>()?, Percent::hundredths(1_250));
/// assert_eq!("0.001".parse::<Percent>().unwrap_err().to_string(), "Percent: \"0.001\" has more than two decimals");
/// # Ok::<(), rafttwine::FieldError>(())
/// ```
#[derive(Clone, Copy, Debug, PartialEq, Eq, PartialOrd, Ord, Hash)]
pub struct Percent(i64);

impl Percent {
    /// Of hundredths of a percent: 1250 is 12.5 %.
    pub fn hundredths(hundredths: i64) -> Percent {
        Percent(hundredths)
    }

    /// How many hundredths of a percent it is.
    pub fn as_hundredths(self) -> i64 {
        self.0
    }
}

/// The number of digits alone, of which there is at least one.
fn digits(text: &str) -> Option<i64> {
    text.bytes().all(|letter| letter.is_ascii_digit()).then(|| text.parse().ok()).flatten()
}

impl FromStr for Percent {
    type Err = FieldError;

    /// Reads `12.5`, `-3.33` or `12`.
    fn from_str(text: &str) -> Result<Percent, FieldError> {
        let unfit = |why: &str| FieldError::new("Percent", format!("{text:?} {why}"));
        let plain = text.strip_prefix('-').unwrap_or(text);
        let (whole, decimals) = plain.split_once('.').unwrap_or((plain, "0"));
        let (percents, behind) =
            digits(whole).zip(digits(decimals)).ok_or_else(|| unfit("is no percentage, as 12.5 or -3.33 would be"))?;
        let tenths = match decimals.len() {
            1 => behind * 10,
            2 => behind,
            _ => return Err(unfit("has more than two decimals")),
        };
        let size = percents.checked_mul(100).and_then(|hundredths| hundredths.checked_add(tenths));
        let size = size.ok_or_else(|| unfit("is too great a percentage"))?;
        Ok(Percent(if plain == text { size } else { -size }))
    }
}

impl fmt::Display for Percent {
    fn fmt(&self, to: &mut fmt::Formatter<'_>) -> fmt::Result {
        to.pad(&format!("{} %", Cents(self.0)))
    }
}

/// What a price row says: a fixed amount, or a percentage.
#[derive(Clone, Copy, Debug, PartialEq, Eq, Hash)]
pub enum Value {
    /// A fixed amount.
    Fixed(Cents),
    /// A percentage of the base lines or of the total so far.
    Percent(Percent),
}

impl From<Cents> for Value {
    fn from(cents: Cents) -> Value {
        Value::Fixed(cents)
    }
}

impl From<Percent> for Value {
    fn from(percent: Percent) -> Value {
        Value::Percent(percent)
    }
}
