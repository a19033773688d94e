//! Prices of furniture by the Rafttwine library: itemised prices, baskets of them, price calendars, final article numbers,
//! packaging data and the texts of lines; conditions derived by makers' relations; and makers' own price files. The library is
//! proved to answer by the rules on all bytes; this crate makes its calls safe and its answers typed.
//!
//! ```
//! use rafttwine::{price_of, Article, Book, Cents, Day, Percent, PriceRow, Question};
//!
//! let mut book = Book::new();
//! book.add(Article::new("A1"))?;
//! book.add(PriceRow::base("A1", Cents(10_000)))?;
//! book.add(PriceRow::surcharge("A1", Percent::hundredths(1_250)).condition("OAK"))?;
//!
//! let question = Question::new("A1", Day::new(2024, 6, 30)?).granted(["oak"]).bytes()?;
//! let price = price_of(&book, &question)?;
//! assert_eq!(price.unit, 11_250);
//! println!("{price}");
//! # Ok::<(), Box<dyn std::error::Error>>(())
//! ```
//!
//! **Books and questions** are bytes. [`Book`], [`TextBook`] and [`Question`] make them of readable values and say in a sentence
//! which field cannot be what it is given as; a book that was packed elsewhere is read from its file. A book also has
//! [`warnings`](Book::warnings): a condition with small letters never counts, since granted names are raised to capitals and those
//! of rows are not, and a discount above zero raises the price.
//!
//! **A condition that is counted**, as a surcharge by the metre, is granted with a [`Factor`]:
//! `Question::new("A1", day).granted_times("EDGE", "4.8".parse()?)`. The amounts of its lines are multiplied before they are rounded,
//! and each [`Line`] says its factor.
//!
//! **Conditions that a relation derives** from what was chosen for a planned piece: [`derived_of`] has a maker's relation read with a
//! [`PropertyList`] and gives the question with the names granted, for any other call; [`derived_price_of`] prices it at once, and
//! [`names_of`] has the names alone. A relation that is wrong is told by its line and column.
//!
//! **A maker's own price file**, `ocd_price.csv`, becomes the price records of a book by [`Book::add_price_file`], and
//! [`write_prices`] makes such a file of a book. A bad line is told by its number.
//!
//! **Calls** return their answer or a [`Refusal`]. [`price`](price()), [`basket`](basket()), [`calendar`](calendar()),
//! [`calendar_list`](calendar_list()), [`final_number`](final_number()), [`read_prices`], [`write_prices`], [`derive`](derive()) and
//! [`price_derived`] write into a room that you lend, and need no heap; [`price_of`], [`basket_of`], [`calendar_of`],
//! [`final_number_of`], [`records_of`], [`price_file_of`], [`derived_of`] and [`derived_price_of`] bring the room and return what can
//! be kept. No call keeps anything, and any number of threads may call at once. Amounts are whole cents.
//!
//! **The library** is linked as an archive. It is looked for in this order: the file that the environment variable
//! `RAFTTWINE_ARCHIVE` names, as `/opt/lib/librafttwine.a`; what `tools/shared-library` made in the clone of Rafttwine that this
//! crate stands in; what `pkg-config` knows as `rafttwine`. With `RAFTTWINE_SHARED=1` the latter two are looked for the shared
//! library, which the program's loader has to find again. `cargo check` and `cargo doc` need no library.

#![warn(missing_docs)]

mod amounts;
mod basket;
mod calendar;
mod calendar_list;
mod currency;
mod day;
mod factor;
mod final_number;
mod latin_1;
// build.rs sets a condition that newer compilers have not been told of, and older ones do not know what this allows.
#[allow(unknown_lints, unexpected_cfgs)]
mod linking;
mod making;
mod owned;
mod packaging;
mod price;
mod price_file;
#[doc(hidden)]
pub mod raw;
mod refusal;
mod relation;
mod stretch;
mod table;
mod text;
mod version;
mod words;

pub use amounts::{Cents, Percent, Value};
pub use basket::{basket, basket_room, Basket, BASKET_QUESTIONS, BASKET_ROOM};
pub use calendar::{calendar, Stretches, CALENDAR_ROOM};
pub use calendar_list::{calendar_list, StretchRecord};
pub use currency::Currency;
pub use day::Day;
pub use factor::Factor;
pub use final_number::{final_number, NUMBER_ROOM};
pub use making::{
    Article, Book, FieldError, PackagingRow, PriceRow, Property, PropertyList, Question, Record, Rounding, Scheme, TextBook,
    Warning,
};
pub use owned::{
    basket_of, calendar_of, derived_of, derived_price_of, final_number_of, names_of, price_file_of, price_of, records_of,
    OwnedPrice,
};
pub use packaging::{packaging, Packaging, Unit};
pub use price::{price, Line, Lines, Price, PRICE_ROOM};
pub use price_file::{file_room, read_prices, record_room, write_prices, Place, RefusedAt};
pub use refusal::Refusal;
pub use relation::{derive, derived_room, price_derived, RefusedRelation, Spot};
pub use stretch::{DayPrice, Stretch, MOST_STRETCHES};
pub use table::PriceTable;
pub use text::{text, Source, Text};
pub use version::{version, Version};
pub use words::{Level, Rule, Sort, Way};
