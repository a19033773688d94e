//! Runs vectors worked out by hand, and the tables and examples of the document of the calls, through the second implementation and
//! through the archive. Usage: calls DOCUMENT.

mod archive;
mod basket;
mod calendar;
mod call;
mod document;
mod lent;
mod number;
mod packaging;
mod parts;
mod price;
mod price_file;
mod relation;
mod shorter;
mod structs;
mod text;
mod vector;

use std::process::ExitCode;

fn main() -> ExitCode {
    let Some(path) = std::env::args().nth(1) else {
        eprintln!("usage: calls DOCUMENT");
        return ExitCode::from(2);
    };
    let text = std::fs::read_to_string(&path).unwrap_or_else(|error| panic!("{path}: {error}"));
    let document = document::Document::of(&text);
    let good = [
        structs::good(&document),
        price::call().good(&document),
        basket::call().good(&document),
        calendar::call().good(&document),
        calendar::list_call().good(&document),
        number::call().good(&document),
        packaging::call().good(&document),
        text::call().good(&document),
        price_file::reader().good(&document),
        price_file::writer().good(&document),
        relation::derive_call().good(&document),
        relation::price_call().good(&document),
    ];
    if good.into_iter().all(|good| good) {
        ExitCode::SUCCESS
    } else {
        ExitCode::FAILURE
    }
}
