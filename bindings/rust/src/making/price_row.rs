//! Price rows.

use super::packer::{Packed, Packer};
use super::warning::{small_letters, Remark};
use crate::{Cents, Day, Level, Rule, Sort, Value};

const MOST_CENTS: i32 = 100_000_000;
const MOST_HUNDREDTHS: i32 = 100_000;

/// A price row. Unless it is told otherwise it is for sale, in euros, on every day, for any quantity and under no condition, has
/// the text number 0 and is rounded to whole cents; a percentage is of the base lines.
#[derive(Clone, Copy, Debug, PartialEq, Eq)]
pub struct PriceRow<'a> {
    article: &'a str,
    condition: &'a str,
    sort: Sort,
    level: Level,
    rule: Rule,
    text: u32,
    value: Value,
    currency: &'a str,
    first: Day,
    last: Day,
    up_to: u32,
    rounding: u16,
}

impl<'a> PriceRow<'a> {
    /// A base price, which is a fixed amount: the rules never choose a percentage here.
    pub fn base(article: &'a str, amount: Cents) -> PriceRow<'a> {
        PriceRow::new(article, Level::Base, amount.into())
    }

    /// A surcharge of [`Cents`] or of a [`Percent`](crate::Percent).
    pub fn surcharge(article: &'a str, value: impl Into<Value>) -> PriceRow<'a> {
        PriceRow::new(article, Level::Surcharge, value.into())
    }

    /// A discount of [`Cents`] or of a [`Percent`](crate::Percent). What lowers the price is below zero.
    pub fn discount(article: &'a str, value: impl Into<Value>) -> PriceRow<'a> {
        PriceRow::new(article, Level::Discount, value.into())
    }

    fn new(article: &'a str, level: Level, value: Value) -> PriceRow<'a> {
        PriceRow {
            article,
            condition: "",
            sort: Sort::Sale,
            level,
            rule: Rule::OfBase,
            text: 0,
            value,
            currency: "EUR",
            first: Day::FIRST,
            last: Day::LAST,
            up_to: 0,
            rounding: 0,
        }
    }

    /// The row counts where this is granted. Granted names are raised to capitals and this one stands as it is, so that one with a
    /// small letter never counts.
    pub fn condition(self, condition: &'a str) -> PriceRow<'a> {
        PriceRow { condition, ..self }
    }

    /// Whose price.
    pub fn sort(self, sort: Sort) -> PriceRow<'a> {
        PriceRow { sort, ..self }
    }

    /// What a percentage is of.
    pub fn rule(self, rule: Rule) -> PriceRow<'a> {
        PriceRow { rule, ..self }
    }

    /// The number of its line's text.
    pub fn text(self, text: u32) -> PriceRow<'a> {
        PriceRow { text, ..self }
    }

    /// Three capitals.
    pub fn currency(self, currency: &'a str) -> PriceRow<'a> {
        PriceRow { currency, ..self }
    }

    /// The first and the last day on which it holds.
    pub fn days(self, first: Day, last: Day) -> PriceRow<'a> {
        PriceRow { first, last, ..self }
    }

    /// The greatest quantity that it is for; 0 for any.
    pub fn up_to(self, quantity: u32) -> PriceRow<'a> {
        PriceRow { up_to: quantity, ..self }
    }

    /// The number of a [`Rounding`](crate::Rounding) in the same book; 0 for none.
    pub fn rounding(self, rounding: u16) -> PriceRow<'a> {
        PriceRow { rounding, ..self }
    }

    pub(super) fn pack(&self, to: &mut Packer) -> Packed {
        to.bytes(&[2]);
        to.name("article", self.article, 1, 40)?;
        to.name("condition", self.condition, 0, 20)?;
        to.bytes(&[self.sort.byte(), self.level.byte(), self.rule.byte()]);
        to.bytes(&self.text.to_be_bytes());
        match self.value {
            Value::Fixed(cents) => {
                to.bytes(&[1]);
                to.near_zero("value", cents.0, MOST_CENTS)?;
            }
            Value::Percent(percent) => {
                to.bytes(&[0]);
                to.near_zero("value", percent.as_hundredths(), MOST_HUNDREDTHS)?;
            }
        }
        to.currency("currency", self.currency)?;
        to.bytes(&self.first.number().to_be_bytes());
        to.bytes(&self.last.number().to_be_bytes());
        to.bytes(&self.up_to.to_be_bytes());
        to.bytes(&self.rounding.to_be_bytes());
        Ok(())
    }

    pub(super) fn remarks(&self) -> impl Iterator<Item = Remark> {
        let (raises, shown) = match self.value {
            Value::Fixed(cents) => (cents.0 > 0, cents.to_string()),
            Value::Percent(percent) => (percent.as_hundredths() > 0, percent.to_string()),
        };
        let raising = (raises && self.level == Level::Discount)
            .then(|| ("PriceRow.value", format!("a discount of {shown} raises the price; what lowers it is below zero")));
        let backwards = (self.last < self.first).then(|| {
            ("PriceRow.days", format!("the last day, {}, is before the first, {}, so it never holds", self.last, self.first))
        });
        small_letters("PriceRow.condition", self.condition).into_iter().chain(raising).chain(backwards)
    }
}
