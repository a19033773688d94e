//! The price of one article on one day.

use crate::answers::PriceAnswer;
use crate::book::{Book, PriceRow, Rounding, Rule, Value, Way};
use crate::days::is_day;
use crate::fraction::Fraction;
use crate::question::{Question, FACTOR_OF_ONE};
use crate::refusal::{BAD_BOOK, BAD_QUESTION, DONE, NO_ARTICLE, NO_BASE_LINE, OTHER_CURRENCY, TOO_LITTLE_ROOM, TOTAL_OUT_OF_RANGE};

pub const LINE_LENGTH: usize = 16;

const GREATEST_TOTAL: i128 = 1_000_000_000;

/// A row that was chosen for the listing, before it has an amount.
#[derive(Debug, Clone, Copy)]
struct Chosen<'a> {
    row: &'a PriceRow,
    /// Place of its granted name, 0 for none.
    place: u8,
    /// Factor of its granted name, in thousandths.
    factor: u16,
}

/// What the amount of a line is worked out from.
#[derive(Debug, Clone, Copy)]
pub struct Reckoning {
    /// What the row comes to by itself.
    pub of_row: Fraction,
    pub factor: u16,
    pub rounding: Rounding,
}

#[derive(Debug, Clone, Copy)]
pub struct Line {
    pub text: u32,
    pub level: u8,
    pub place: u8,
    pub amount: i64,
    pub factor: u16,
}

/// A day's price.
#[derive(Debug, Clone)]
pub struct Priced {
    pub lines: Vec<Line>,
    pub unit: i64,
    pub currency: [u8; 3],
}

pub fn price(book: &[u8], question: &[u8], out: &mut [u8]) -> PriceAnswer {
    match try_price(book, question, out) {
        Ok(answer) => answer,
        Err(number) => PriceAnswer::refused(number),
    }
}

fn try_price(book: &[u8], question: &[u8], out: &mut [u8]) -> Result<PriceAnswer, u8> {
    let book = Book::read(book).ok_or(BAD_BOOK)?;
    let question = Question::read(question).ok_or(BAD_QUESTION)?;
    let (answer, lines) = answered(&book, &question)?;
    if out.len() < lines.len() {
        return Err(TOO_LITTLE_ROOM);
    }
    out[..lines.len()].copy_from_slice(&lines);
    Ok(answer)
}

/// The answer to a question and the bytes of its lines, or one of the refusals 3 to 6.
pub fn answered(book: &Book, question: &Question) -> Result<(PriceAnswer, Vec<u8>), u8> {
    answered_by(Reckoning::amount, book, question)
}

/// The same with any way to come to an amount: tests have wrong ones, to see them noticed.
pub fn answered_by(amount: fn(&Reckoning) -> i128, book: &Book, question: &Question) -> Result<(PriceAnswer, Vec<u8>), u8> {
    book.article(&question.article).ok_or(NO_ARTICLE)?;
    let priced = priced_by(amount, book, question, question.date)?;
    let lines = priced.lines.iter().flat_map(|line| line.bytes()).collect();

    let mut unused = 0;
    let mut unused_count = 0;
    for granted in question.granted_once() {
        if priced.lines.iter().all(|line| line.place != granted.place) {
            unused |= 1 << (granted.place - 1);
            unused_count += 1;
        }
    }
    let answer = PriceAnswer {
        unit: priced.unit,
        total: priced.unit * i64::from(question.quantity),
        lines: priced.lines.len() as u64,
        unused,
        unused_count,
        number: DONE,
        currency: priced.currency,
    };
    Ok((answer, lines))
}

impl Line {
    pub fn bytes(&self) -> Vec<u8> {
        let mut bytes = Vec::with_capacity(LINE_LENGTH);
        bytes.extend(self.text.to_be_bytes());
        bytes.push(self.level);
        bytes.push(self.place);
        bytes.extend(self.amount.to_be_bytes());
        bytes.extend(self.factor.to_be_bytes());
        bytes
    }
}

/// Prices the question's article as if the question's date were `date`. The book is known to
/// have the article.
pub fn price_on(book: &Book, question: &Question, date: u32) -> Result<Priced, u8> {
    priced_by(Reckoning::amount, book, question, date)
}

fn priced_by(amount: fn(&Reckoning) -> i128, book: &Book, question: &Question, date: u32) -> Result<Priced, u8> {
    let listing = listing(book, question, date);
    let first_base = listing.iter().find(|chosen| chosen.row.level == b'B').ok_or(NO_BASE_LINE)?;
    let currency = first_base.row.currency;

    // Currencies are looked at over the whole listing before any amount is worked out: the
    // refusal for a foreign line comes before the one for a total out of range, and totals that
    // left their range would soon be too great to calculate with.
    let foreign = |chosen: &Chosen| matches!(chosen.row.value, Value::Fixed(_)) && chosen.row.currency != currency;
    if listing.iter().any(foreign) {
        return Err(OTHER_CURRENCY);
    }

    let mut lines: Vec<Line> = Vec::new();
    let mut running: i128 = 0;
    for chosen in &listing {
        let base_sum: i128 = lines.iter().filter(|line| line.level == b'B').map(|line| i128::from(line.amount)).sum();
        let Chosen { row, place, factor } = *chosen;
        let reckoning = Reckoning { of_row: amount_of_row(row, base_sum, running), factor, rounding: rounding_of(book, row) };
        let amount = amount(&reckoning);
        running += amount;
        if !(-GREATEST_TOTAL..=GREATEST_TOTAL).contains(&running) {
            return Err(TOTAL_OUT_OF_RANGE);
        }
        lines.push(Line { text: row.text, level: row.level, place, amount: amount as i64, factor });
    }
    Ok(Priced { lines, unit: running as i64, currency })
}

/// The chosen rows in the order of the listing.
fn listing<'a>(book: &'a Book, question: &Question, date: u32) -> Vec<Chosen<'a>> {
    let granted = question.granted_once();
    let mut listing = Vec::new();
    for level in *b"BXD" {
        if let Some(row) = choose(book, question, date, level, b"") {
            listing.push(Chosen { row, place: 0, factor: FACTOR_OF_ONE });
        }
        for name in &granted {
            if let Some(row) = choose(book, question, date, level, &name.name) {
                listing.push(Chosen { row, place: name.place, factor: name.factor });
            }
        }
    }
    listing
}

/// The row of one component that is chosen on a day.
fn choose<'a>(book: &'a Book, question: &Question, date: u32, level: u8, condition: &[u8]) -> Option<&'a PriceRow> {
    let mut rows: Vec<&PriceRow> = book
        .prices
        .iter()
        .filter(|row| {
            row.level == level
                && row.sort == question.sort
                && same_name(&row.condition, condition)
                && row.article == question.article
        })
        .collect();

    // 1. There is nothing a percentage base row could be a percentage of.
    rows.retain(|row| !(row.level == b'B' && matches!(row.value, Value::Percent(_))));
    // 2. Not valid on the day.
    rows.retain(|row| is_day(row.from) && is_day(row.to) && row.from <= date && date <= row.to);
    // 3. Other currencies, but only if the asked one is there.
    if let Some(asked) = question.currency {
        if rows.iter().any(|row| row.currency == asked) {
            rows.retain(|row| row.currency == asked);
        }
    }
    // 4. Meant for smaller quantities.
    rows.retain(|row| row.up_to == 0 || row.up_to >= question.quantity);
    // 5. The tightest quantity, then the latest start, then the first in the book.
    let tightest = rows.iter().map(|row| quantity_rank(row)).min()?;
    rows.retain(|row| quantity_rank(row) == tightest);
    let latest = rows.iter().map(|row| row.from).max()?;
    rows.retain(|row| row.from == latest);
    rows.first().copied()
}

/// Compares byte by byte. Whole-slice comparison of the many empty names is strangely slow on some
/// machines.
fn same_name(one: &[u8], other: &[u8]) -> bool {
    one.iter().eq(other)
}

/// The up-to quantity with 0 made greater than all others.
fn quantity_rank(row: &PriceRow) -> u64 {
    if row.up_to == 0 {
        u64::MAX
    } else {
        u64::from(row.up_to)
    }
}

fn amount_of_row(row: &PriceRow, base_sum: i128, running: i128) -> Fraction {
    match row.value {
        Value::Fixed(cents) => Fraction::whole(i128::from(cents)),
        Value::Percent(hundredths) => {
            let of = match row.rule {
                Rule::BaseLines => base_sum,
                Rule::RunningTotal => running,
            };
            Fraction::over(of * i128::from(hundredths), 10_000)
        }
    }
}

/// To whole cents, with nothing added.
pub const PLAIN: Rounding = Rounding { number: 0, way: Way::Commercial, step: 1, add_before: 0, add_after: 0 };

fn rounding_of(book: &Book, row: &PriceRow) -> Rounding {
    // Number 0 is in no book, so it finds nothing either.
    book.rounding(row.rounding).copied().unwrap_or(PLAIN)
}

impl Reckoning {
    /// The amount before it is rounded.
    pub fn exact(&self) -> Fraction {
        self.of_row.times(i128::from(self.factor)).divided_by(i128::from(FACTOR_OF_ONE))
    }

    pub fn amount(&self) -> i128 {
        round(self.exact(), self.rounding)
    }
}

pub fn round(exact: Fraction, rounding: Rounding) -> i128 {
    let step = i128::from(rounding.step);
    let steps = exact.plus(Fraction::whole(i128::from(rounding.add_before))).divided_by(step);
    let whole_steps = match rounding.way {
        Way::Down => steps.floor(),
        Way::Up => steps.ceiling(),
        Way::Commercial => steps.nearest(),
    };
    whole_steps * step + i128::from(rounding.add_after)
}
