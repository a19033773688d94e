//! A price as the table that a salesperson reads.

use crate::{text, Cents, Factor, Line, OwnedPrice};
use std::fmt;

/// Lines, a rule, what one piece costs and what all cost, and the granted names that brought no line. Without text books a line is
/// called by its level, and without names a condition by its place. Behind a line whose condition has another factor than 1 stands
/// that factor, as `x 2.5`.
///
/// ```
/// # use rafttwine::{Article, Book, Cents, Day, Percent, PriceRow, Question, TextBook};
/// # let mut book = Book::new();
/// # book.add(Article::new("A1"))?.add(PriceRow::base("A1", Cents(45_900)).text(7))?;
/// # book.add(PriceRow::surcharge("A1", Percent::hundredths(1_250)).condition("OAK").text(8))?;
/// # let mut texts = TextBook::new();
/// # texts.add(7, "Desk, 160 x 80 cm")?.add(8, "Table top in oak")?;
/// let granted = ["oak", "castor"];
/// let question = Question::new("A1", Day::new(2026, 6, 30)?).quantity(4).granted(granted).bytes()?;
/// let price = rafttwine::price_of(&book, &question)?;
/// assert_eq!(price.table().texts(&texts, &texts).granted(&granted).to_string(), "\
/// Desk, 160 x 80 cm    459.00 EUR
/// Table top in oak      57.38 EUR
/// -------------------------------
/// One piece            516.38 EUR
/// 4 pieces           2,065.52 EUR
/// No price line for castor");
/// # Ok::<(), Box<dyn std::error::Error>>(())
/// ```
#[derive(Clone, Copy, Debug)]
pub struct PriceTable<'a> {
    price: &'a OwnedPrice,
    texts: Option<[&'a [u8]; 2]>,
    granted: &'a [&'a str],
}

impl<'a> PriceTable<'a> {
    pub(crate) fn new(price: &'a OwnedPrice) -> PriceTable<'a> {
        PriceTable { price, texts: None, granted: &[] }
    }

    /// Calls lines by their texts, from the asked text book or else from the fallback. A line whose text has no answer says why.
    pub fn texts(self, asked: &'a [u8], fallback: &'a [u8]) -> PriceTable<'a> {
        PriceTable { texts: Some([asked, fallback]), ..self }
    }

    /// Calls conditions by their names, which are those of the question.
    pub fn granted(self, names: &'a [&'a str]) -> PriceTable<'a> {
        PriceTable { granted: names, ..self }
    }

    fn condition(&self, place: u8) -> String {
        match self.granted.get(usize::from(place) - 1) {
            Some(name) => name.to_string(),
            None => format!("granted condition {place}"),
        }
    }

    fn name(&self, line: &Line) -> String {
        let plain = match line.place {
            Some(place) => format!("{} for {}", line.level, self.condition(place)),
            None => line.level.to_string(),
        };
        let called = match self.texts.map(|[asked, fallback]| text(asked, fallback, line.text)) {
            None => plain,
            Some(Ok(text)) => text.to_string(),
            Some(Err(reason)) => format!("{plain} (text {}: {reason})", line.text),
        };
        match line.factor {
            Factor::ONE => called,
            factor => format!("{called} x {factor}"),
        }
    }

    /// What one piece costs and, if that is another amount, what all cost.
    fn totals(&self) -> Vec<(String, Cents)> {
        let OwnedPrice { unit, total, .. } = *self.price;
        // A price of nothing does not tell how many there are, and need not.
        let pieces = total.checked_div(unit).filter(|pieces| *pieces != 1);
        let all = pieces.map(|pieces| (format!("{pieces} pieces"), Cents(total)));
        [("One piece".to_string(), Cents(unit))].into_iter().chain(all).collect()
    }
}

impl fmt::Display for PriceTable<'_> {
    fn fmt(&self, to: &mut fmt::Formatter<'_>) -> fmt::Result {
        let currency = self.price.currency;
        let lines: Vec<_> = self.price.lines.iter().map(|line| (self.name(line), Cents(line.amount))).collect();
        let totals = self.totals();
        let widest = |width: fn(&(String, Cents)) -> usize| lines.iter().chain(&totals).map(width).max().unwrap_or(0);
        let left = widest(|(name, _)| name.chars().count());
        let right = widest(|(_, amount)| amount.to_string().len());
        for (name, amount) in &lines {
            writeln!(to, "{name:left$}  {amount:>right$} {currency}")?;
        }
        write!(to, "{}", "-".repeat(left + right + "   EUR".len()))?;
        for (name, amount) in &totals {
            write!(to, "\n{name:left$}  {amount:>right$} {currency}")?;
        }
        self.price.unused.iter().try_for_each(|place| write!(to, "\nNo price line for {}", self.condition(*place)))
    }
}

impl fmt::Display for OwnedPrice {
    fn fmt(&self, to: &mut fmt::Formatter<'_>) -> fmt::Result {
        self.table().fmt(to)
    }
}
