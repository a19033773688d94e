//! Questions.

use super::packer::{empty_whole, set_length, Packer, VERSION};
use super::{FieldError, Property};
use crate::{Day, Factor, Sort};

const MOST_QUANTITY: u32 = 100_000;
const MOST_NAMES: usize = 32;
/// The version in which each granted name has a factor.
const WITH_FACTORS: u8 = 2;
const ANY_CURRENCY: [u8; 3] = [0; 3];

/// What is asked: an article on a day. Unless it is told otherwise, one piece for sale in any currency, with nothing granted.
///
/// Its bytes are of version 1 as long as every factor is 1, and else of version 2; the calls take both.
///
/// ```
/// use rafttwine::{Day, Question};
///
/// let question = Question::new("A1", Day::new(2024, 6, 30)?).quantity(3).granted(["oak", "ash"]).currency("EUR");
/// assert_eq!(question.bytes()?.len(), 30);
/// assert_eq!(question.quantity(0).bytes().unwrap_err().to_string(), "Question.quantity: 0, and 1 to 100000 are allowed");
/// # Ok::<(), rafttwine::FieldError>(())
/// ```
#[derive(Clone, Debug, PartialEq, Eq)]
pub struct Question<'a> {
    article: &'a str,
    sort: Sort,
    currency: Option<&'a str>,
    day: Day,
    quantity: u32,
    granted: Vec<(&'a str, Factor)>,
    properties: Vec<Property<'a>>,
}

impl<'a> Question<'a> {
    /// About an article, by its base number, on a day.
    pub fn new(article: &'a str, day: Day) -> Question<'a> {
        let (granted, properties) = (Vec::new(), Vec::new());
        Question { article, sort: Sort::Sale, currency: None, day, quantity: 1, granted, properties }
    }

    /// How many pieces.
    pub fn quantity(self, quantity: u32) -> Question<'a> {
        Question { quantity, ..self }
    }

    /// The conditions that the planned piece grants, once each, in place of those told before. Small letters count as capitals,
    /// `ü` as well as `u`. The place of each is its position here, from 1.
    pub fn granted(self, granted: impl IntoIterator<Item = &'a str>) -> Question<'a> {
        Question { granted: granted.into_iter().map(|name| (name, Factor::ONE)).collect(), ..self }
    }

    /// One condition more, behind those told before, which counts so many times. Of a name that repeats an earlier one the factor
    /// told first counts. With the factor 0 there are lines of it all the same.
    ///
    /// ```
    /// # use rafttwine::{price_of, Article, Book, Cents, Day, PriceRow, Question};
    /// # let mut book = Book::new();
    /// # book.add(Article::new("A1"))?.add(PriceRow::base("A1", Cents(10_000)))?;
    /// book.add(PriceRow::surcharge("A1", Cents(695)).condition("EDGE"))?;
    /// let question = Question::new("A1", Day::new(2024, 6, 30)?).granted(["oak"]).granted_times("edge", "4.8".parse()?);
    /// let line = price_of(&book, &question.bytes()?)?.lines[1];
    /// assert_eq!((line.place, line.amount, line.factor.to_string()), (Some(2), 3_336, "4.8".to_string()));
    /// # Ok::<(), Box<dyn std::error::Error>>(())
    /// ```
    pub fn granted_times(mut self, name: &'a str, factor: Factor) -> Question<'a> {
        self.granted.push((name, factor));
        self
    }

    /// The properties behind the base number of a final article number, in place of those told before.
    pub fn properties(self, properties: impl IntoIterator<Item = Property<'a>>) -> Question<'a> {
        Question { properties: properties.into_iter().collect(), ..self }
    }

    /// Whose price.
    pub fn sort(self, sort: Sort) -> Question<'a> {
        Question { sort, ..self }
    }

    /// The currency that is liked best, three capitals.
    pub fn currency(self, currency: &'a str) -> Question<'a> {
        Question { currency: Some(currency), ..self }
    }

    /// Its bytes, which the calls read.
    pub fn bytes(&self) -> Result<Vec<u8>, FieldError> {
        let once = self.granted.iter().all(|(_, factor)| *factor == Factor::ONE);
        let mut whole = empty_whole(if once { VERSION } else { WITH_FACTORS });
        let mut to = Packer::new(&mut whole, "Question");
        to.name("article", self.article, 1, 40)?;
        to.bytes(&[self.sort.byte()]);
        match self.currency {
            Some(currency) => to.currency("currency", currency)?,
            None => to.bytes(&ANY_CURRENCY),
        }
        to.bytes(&self.day.number().to_be_bytes());
        to.within("quantity", self.quantity, 1, MOST_QUANTITY)?;
        to.bytes(&[few(&to, "granted", self.granted.len())?]);
        for (place, (name, factor)) in (1..).zip(&self.granted) {
            to.name("granted", name, 1, 20).map_err(|error| error.of_place(place))?;
            if !once {
                to.bytes(&factor.bytes());
            }
        }
        to.bytes(&[few(&to, "properties", self.properties.len())?]);
        let mut to = Packer::new(&mut whole, "Property");
        for (place, property) in (1..).zip(&self.properties) {
            property.pack(&mut to).map_err(|error| error.of_place(place))?;
        }
        set_length(&mut whole);
        Ok(whole)
    }
}

/// How many there are, if that is few enough.
fn few(to: &Packer, field: &str, count: usize) -> Result<u8, FieldError> {
    match count {
        0..=MOST_NAMES => Ok(count as u8),
        _ => Err(to.unfit(field, format!("{count} of them, and at most {MOST_NAMES} are allowed"))),
    }
}
