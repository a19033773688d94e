//! A second, independent reading of the price rules.
//!
//! Nothing here is fast or clever. A book is read into plain vectors, and every rule is then
//! worked out on those vectors step by step, day by day. The library exists to be compared with
//! another one, so the only thing that counts is that each rule can be recognised in the code.

pub mod answers;
pub mod bad_relations;
pub mod basket;
pub mod book;
pub mod calendar;
pub mod calls;
pub mod cases;
pub mod compare;
pub mod counts;
pub mod days;
pub mod file_cases;
pub mod file_compare;
pub mod file_faults;
pub mod fraction;
pub mod letters;
pub mod make;
pub mod number;
pub mod packaging;
pub mod price;
pub mod price_file;
pub mod program;
pub mod question;
pub mod random;
pub mod reader;
pub mod refusal;
pub mod relation;
pub mod relation_cases;
pub mod relation_compare;
pub mod shrink;
pub mod texts;

pub use answers::{CalendarAnswer, DerivedAnswer, PackagingAnswer, Placed, PriceAnswer, Stretch, TextAnswer, Written};
pub use basket::basket;
pub use book::book_ok;
pub use calendar::{calendar, calendar_list};
pub use number::final_number;
pub use packaging::packaging;
pub use price::price;
pub use price_file::{read_prices, write_prices};
pub use program::program;
pub use question::question_ok;
pub use relation::{derive, price_derived};
pub use texts::{text, text_book_ok};
