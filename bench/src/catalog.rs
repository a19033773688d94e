//! Price books as a manufacturer's are: article after article, each with its record and its rows behind it.

use crate::dice::Dice;
use second::make::{self, Article, Price, Question, Record, Rounding};

const CONDITIONS: usize = 32;
const ROUNDINGS: usize = 12;
/// The rows of an article that is asked for: enough for every condition.
const ASKED_ROWS: usize = 50;
/// Every row of the price lists holds on this day.
const DATE: u32 = 20_250_630;

/// How a book is made.
pub struct Manner {
    /// The dates that rows begin and end on.
    pub from: Vec<u32>,
    pub to: Vec<u32>,
    /// Each article has its conditions in an order of its own, not all in the same.
    pub own_order: bool,
    /// All article numbers are of one length.
    pub one_length: bool,
    /// The roundings stand one by one between the articles, not all in front of them.
    pub spread_roundings: bool,
}

impl Manner {
    /// New lists of prices come once or twice a year.
    pub fn price_lists() -> Manner {
        let from = vec![20_200_101, 20_230_101, 20_240_101, 20_240_701, 20_250_101, 20_250_401];
        Manner { from, to: vec![20_251_231, 20_291_231], own_order: false, one_length: false, spread_roundings: false }
    }
}

/// A book and the numbers of its articles.
pub struct Catalog {
    pub bytes: Vec<u8>,
    pub articles: Vec<String>,
}

impl Catalog {
    /// The second article, which has `ASKED_ROWS` rows.
    pub fn near_start(&self) -> &str {
        &self.articles[1]
    }

    /// The last article but one, which has `ASKED_ROWS` rows.
    pub fn near_end(&self) -> &str {
        &self.articles[self.articles.len() - 2]
    }
}

/// A book of so many price rows, 20 to 60 for each article.
pub fn catalog(dice: &mut Dice, rows: usize, manner: &Manner) -> Catalog {
    let sizes = sizes(dice, rows);
    book(dice, &sizes, manner)
}

/// A book with an article of each of these numbers of rows.
pub fn book(dice: &mut Dice, sizes: &[usize], manner: &Manner) -> Catalog {
    let mut roundings: Vec<Record> = (1..=ROUNDINGS).map(|number| rounding(dice, number).into()).collect();
    let mut records = if manner.spread_roundings { Vec::new() } else { std::mem::take(&mut roundings) };
    let mut articles = Vec::new();
    for (place, &rows) in sizes.iter().enumerate() {
        if place % (sizes.len() / ROUNDINGS + 1) == 0 {
            records.extend(roundings.pop());
        }
        let article = article_number(dice, place, manner);
        records.push(Article::new(&article, "").into());
        let order = if manner.own_order { Order { first: dice.index(CONDITIONS), step: 2 * dice.index(16) + 1 } } else { IN_ORDER };
        records.extend((0..rows).map(|index| price(dice, &article, index, order, manner).into()));
        articles.push(article);
    }
    Catalog { bytes: make::book(&records), articles }
}

/// The question for an article with so many granted names; an article of `ASKED_ROWS` has rows of each.
pub fn question(article: &str, granted: usize) -> Question {
    let names: Vec<String> = (0..granted).map(|place| condition(place).to_lowercase()).collect();
    let names: Vec<&str> = names.iter().map(String::as_str).collect();
    Question::new(article, DATE).granted(&names)
}

/// How many rows each article has: the second and the last but one are those to be asked for.
fn sizes(dice: &mut Dice, rows: usize) -> Vec<usize> {
    let mut sizes = vec![30, ASKED_ROWS];
    let mut left = rows - 2 * (30 + ASKED_ROWS);
    while left > 100 {
        let size = dice.between(20, 60) as usize;
        sizes.push(size);
        left -= size;
    }
    sizes.extend([left / 2, left - left / 2, ASKED_ROWS, 30]);
    sizes
}

fn article_number(dice: &mut Dice, place: usize, manner: &Manner) -> String {
    let letters = if manner.one_length { 5 } else { dice.between(2, 8) };
    let series: String = (0..letters).map(|_| dice.between(65, 90) as u8 as char).collect();
    format!("{series}-{place:04}")
}

fn condition(place: usize) -> String {
    const WORDS: [&str; 8] = ["OAK", "ASH", "BEECH", "STEEL", "LEATHER", "FELT", "CHROME", "GLASS"];
    format!("{}{place}", WORDS[place % WORDS.len()])
}

/// In which order an article has the conditions. The step is odd, so that it meets all of them.
#[derive(Clone, Copy)]
struct Order {
    first: usize,
    step: usize,
}

const IN_ORDER: Order = Order { first: 0, step: 1 };

fn rounding(dice: &mut Dice, number: usize) -> Rounding {
    let step = dice.one_of(&[1, 5, 10, 100]);
    let after = dice.one_of(&[0, 0, -1]);
    Rounding::new(number as u16, dice.one_of(&[0, 1, 2]), step).adds(0, after)
}

/// A row of an article by its index among them. Seven of ten are the first of a level and condition, the others vary the one
/// before: in another currency, for small quantities, for purchase, or by their dates alone.
fn price(dice: &mut Dice, article: &str, index: usize, order: Order, manner: &Manner) -> Price {
    let varies = index % 10 % 3 == 2;
    let component = index / 10 * 7 + index % 10 - (index % 10 + 1) / 3;
    let row = component_row(dice, article, component, order);
    let from = if index == 0 { manner.from[0] } else { dice.one_of(&manner.from) };
    let to = if index == 0 { manner.to[manner.to.len() - 1] } else { dice.one_of(&manner.to) };
    let row = row.dates(from, to).text(dice.between(0, 99_999) as u32).rounding(dice.index(ROUNDINGS + 1) as u16);
    match dice.index(4) {
        0 if varies => row.currency(b"CHF"),
        1 if varies => row.up_to(9),
        2 if varies => row.sort(b'P'),
        _ => row,
    }
}

/// Levels B, X and D without a condition, then condition after condition.
fn component_row(dice: &mut Dice, article: &str, component: usize, order: Order) -> Price {
    if component < 3 {
        return valued(dice, article, b"BXD"[component]);
    }
    let place = component - 3;
    let level = b"XXDB"[(place + place / CONDITIONS) % 4];
    valued(dice, article, level).condition(&condition((order.first + order.step * place) % CONDITIONS))
}

fn valued(dice: &mut Dice, article: &str, level: u8) -> Price {
    let fixed = level == b'B' || dice.index(2) == 0;
    let (least, most) = match (level, fixed) {
        (b'B', _) => (5_000, 50_000),
        (b'X', true) => (500, 5_000),
        (b'X', false) => (100, 500),
        (_, true) => (-500, -100),
        (_, false) => (-300, -50),
    };
    let value = dice.between(least, most) as i32;
    let rule = dice.one_of(&[1, 2]);
    if fixed {
        Price::fixed(article, level, value)
    } else {
        Price::percent(article, level, rule, value)
    }
}
