//! The benchmark. First the library and a plain Rust program must agree, then they are timed; the table at the end can be pasted into
//! docs/BENCHMARKS.md. It asserts no time: machines differ, and a reader compares the columns of one run.

mod acceptance;
mod basket;
mod books;
mod calendar;
mod catalog;
mod cut;
mod dice;
mod library;
mod plain_file;
mod plain_relation;
mod price;
mod price_derived;
mod price_file;
mod reference;
mod relation;
mod relation_texts;
mod timing;

const SEED: u64 = 20_240_630;

fn main() {
    let mut dice = dice::Dice::new(SEED);
    let mut rows = acceptance::measure(&mut dice);
    rows.extend(price::measure(&mut dice));
    rows.extend(calendar::measure(&mut dice));
    rows.extend(cut::measure(&mut dice));
    rows.extend(basket::measure(&mut dice));
    rows.extend(price_file::measure(&mut dice));
    rows.extend(relation::measure(&mut dice));
    rows.extend(price_derived::measure(&mut dice));
    timing::print_table(&rows);
}
