//! The calls that write, with a room of their own: their answers can be kept.

use crate::{
    basket, basket_room, calendar, derive, derived_room, file_room, final_number, latin_1, price, price_derived, read_prices,
    record_room, write_prices, Currency, Day, Line, Price, PriceTable, Refusal, RefusedAt, RefusedRelation, Stretch, CALENDAR_ROOM,
    NUMBER_ROOM, PRICE_ROOM,
};

/// The price of an article. All amounts are in cents. It is shown as a table; [`table`](OwnedPrice::table) has one with texts and
/// names.
#[derive(Clone, Debug, PartialEq, Eq)]
pub struct OwnedPrice {
    /// Of one piece: the sum of the lines' amounts.
    pub unit: i64,
    /// Of the quantity asked for.
    pub total: i64,
    /// The currency of the first base line.
    pub currency: Currency,
    /// The lines, in their order.
    pub lines: Vec<Line>,
    /// The places, from 1, of granted conditions that brought no line.
    pub unused: Vec<u8>,
}

impl From<Price<'_>> for OwnedPrice {
    fn from(price: Price<'_>) -> OwnedPrice {
        let Price { unit, total, currency, .. } = price;
        OwnedPrice { unit, total, currency, lines: price.lines().collect(), unused: price.unused_places().collect() }
    }
}

impl OwnedPrice {
    /// The table that a salesperson reads.
    pub fn table(&self) -> PriceTable<'_> {
        PriceTable::new(self)
    }
}

/// The itemised price of the article asked for, to be kept.
///
/// ```
/// # use rafttwine::{Article, Book, Cents, Day, PriceRow, Question};
/// # let mut book = Book::new();
/// # book.add(Article::new("A1"))?.add(PriceRow::base("A1", Cents(10_000)).days(Day::FIRST, Day::new(2024, 12, 31)?))?;
/// let next_year = Question::new("A1", Day::new(2025, 1, 1)?).bytes()?;
/// assert_eq!(rafttwine::price_of(&book, &next_year), Err(rafttwine::Refusal::NoBaseLine));
/// # Ok::<(), Box<dyn std::error::Error>>(())
/// ```
pub fn price_of(book: &[u8], question: &[u8]) -> Result<OwnedPrice, Refusal> {
    price(book, question, &mut [0; PRICE_ROOM]).map(OwnedPrice::from)
}

/// The itemised prices of up to [`BASKET_QUESTIONS`](crate::BASKET_QUESTIONS) questions, in their order and to be kept: each as
/// [`price_of`] gives it. A question without a price has its refusal in that place, and the next goes on.
///
/// ```
/// # use rafttwine::{Article, Book, Cents, Day, PriceRow, Question, Refusal};
/// # let mut book = Book::new();
/// # book.add(Article::new("A1"))?.add(PriceRow::base("A1", Cents(10_000)))?;
/// # let day = Day::new(2024, 6, 30)?;
/// let offer = [Question::new("A1", day).quantity(4).bytes()?, Question::new("B7", day).bytes()?];
/// let prices = rafttwine::basket_of(&book, &offer)?;
/// let together: i64 = prices.iter().flatten().map(|price| price.total).sum();
/// assert_eq!((together, prices[1].as_ref().err()), (40_000, Some(&Refusal::NoArticle)));
/// # Ok::<(), Box<dyn std::error::Error>>(())
/// ```
pub fn basket_of<Q: AsRef<[u8]>>(book: &[u8], questions: &[Q]) -> Result<Vec<Result<OwnedPrice, Refusal>>, Refusal> {
    let own: Vec<&[u8]> = questions.iter().map(AsRef::as_ref).collect();
    // A question of another length than it says would shift those behind it. Such a list is broken: a byte alone is no question.
    let lent = if own.iter().all(|question| is_as_long_as_it_says(question)) { own.concat() } else { vec![0] };
    let mut room = vec![0; basket_room(questions.len())];
    basket(book, &lent, &mut room).map(|prices| prices.map(|price| price.map(OwnedPrice::from)).collect())
}

fn is_as_long_as_it_says(question: &[u8]) -> bool {
    matches!(question, [a, b, c, d, ..] if u32::from_be_bytes([*a, *b, *c, *d]) as usize == question.len())
}

/// The price calendar from the question's day to the day `end`, both included, to be kept.
pub fn calendar_of(book: &[u8], question: &[u8], end: Day) -> Result<Vec<Stretch>, Refusal> {
    calendar(book, question, end, &mut [0; CALENDAR_ROOM]).map(Iterator::collect)
}

/// The final article number, to be kept.
pub fn final_number_of(book: &[u8], question: &[u8]) -> Result<String, Refusal> {
    final_number(book, question, &mut [0; NUMBER_ROOM]).map(|number| latin_1::letters(number).collect())
}

/// The price records of a maker's price file, to be kept: those that [`read_prices`] writes.
pub fn records_of(file: &[u8]) -> Result<Vec<u8>, RefusedAt> {
    read_prices(file, &mut vec![0; record_room(file.len())]).map(<[u8]>::to_vec)
}

/// The price file of a book's price records, to be kept: the one that [`write_prices`] writes. It is in Latin-1.
pub fn price_file_of(book: &[u8]) -> Result<Vec<u8>, RefusedAt> {
    write_prices(book, &mut vec![0; file_room(book.len())]).map(<[u8]>::to_vec)
}

/// The question with the names granted that a relation derives, to be kept: the one that [`derive`](derive()) writes.
///
/// ```
/// # use rafttwine::{derived_of, price_of, Article, Book, Cents, Day, PriceRow, PropertyList, Question};
/// # let mut book = Book::new();
/// # book.add(Article::new("A1"))?.add(PriceRow::base("A1", Cents(10_000)))?;
/// book.add(PriceRow::surcharge("A1", Cents(1_250)).condition("OAK"))?;
/// let question = Question::new("A1", Day::new(2024, 6, 30)?).bytes()?;
/// let chosen = PropertyList::new().text("TOP", "oak").number("WIDTH", 1_600).none("SHELF").bytes()?;
/// let relation = b"$VARCOND = 'OAK' IF TOP = 'Oak' AND WIDTH >= 1600";
/// assert_eq!(price_of(&book, &derived_of(&question, &chosen, relation)?)?.unit, 11_250);
/// # Ok::<(), Box<dyn std::error::Error>>(())
/// ```
pub fn derived_of(question: &[u8], properties: &[u8], relation: &[u8]) -> Result<Vec<u8>, RefusedRelation> {
    derive(question, properties, relation, &mut vec![0; derived_room(question.len())]).map(<[u8]>::to_vec)
}

/// The itemised price with the names granted that a relation derives, to be kept: the one that [`price_derived`] finds. The places of
/// its lines are those of the names in [`names_of`].
pub fn derived_price_of(book: &[u8], question: &[u8], properties: &[u8], relation: &[u8]) -> Result<OwnedPrice, RefusedRelation> {
    price_derived(book, question, properties, relation, &mut [0; PRICE_ROOM]).map(OwnedPrice::from)
}

/// Asks for one `A` on the first day of all, and grants nothing.
const LEAST_QUESTION: [u8; 21] = *b"\0\0\0\x15\x01\x01AS\0\0\0\0\0\x27\x75\0\0\0\x01\0\0";
const COUNT_AT: usize = 19;

/// The names that a relation derives from what was chosen, in order.
///
/// ```
/// use rafttwine::{names_of, PropertyList};
///
/// let chosen = PropertyList::new().text("TOP", "oak").bytes()?;
/// assert_eq!(names_of(&chosen, b"$VARCOND = 'OAK' IF TOP = 'Oak', $VARCOND = 'WIDE' IF WIDTH > 1600")?, ["OAK"]);
/// let wrong = names_of(&chosen, b"$VARCOND = 'OAK'\n  IF TOP ('oak')").unwrap_err();
/// assert_eq!(wrong.spot.map(|spot| (spot.line, spot.column)), Some((2, 10)));
/// # Ok::<(), Box<dyn std::error::Error>>(())
/// ```
pub fn names_of(properties: &[u8], relation: &[u8]) -> Result<Vec<String>, RefusedRelation> {
    let derived = derived_of(&LEAST_QUESTION, properties, relation)?;
    let mut rest = &derived[COUNT_AT + 1..];
    Ok((0..derived[COUNT_AT]).map(|_| first_name(&mut rest)).collect())
}

/// The name that stands in front, which is then taken off.
fn first_name(rest: &mut &[u8]) -> String {
    let (name, behind) = rest[1..].split_at(rest[0].into());
    *rest = behind;
    latin_1::letters(name).collect()
}
