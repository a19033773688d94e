//! Books, questions and text books of readable values. Their layout is that of docs/FORMAT.md; a value that it does not allow is a
//! `FieldError` here, and so no refusal of the library later on.

mod article;
mod book;
mod field_error;
mod packaging_row;
mod packer;
mod price_row;
mod property;
mod property_list;
mod question;
mod rounding;
mod scheme;
mod text_book;
mod warning;

pub use article::Article;
pub use book::{Book, Record};
pub use field_error::FieldError;
pub use packaging_row::PackagingRow;
pub use price_row::PriceRow;
pub use property::Property;
pub use property_list::PropertyList;
pub use question::Question;
pub use rounding::Rounding;
pub use scheme::Scheme;
pub use text_book::TextBook;
pub use warning::Warning;
