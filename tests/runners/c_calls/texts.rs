//! Prints the numbers given and each one's refusal text by the Rust binding, of which this takes that one file.
#![allow(dead_code)]

#[path = "../../../bindings/rust/src/refusal.rs"]
mod refusal;

fn main() {
    for word in std::env::args().skip(1) {
        let number = word.parse().expect("a number is given");
        println!("{number} {}", refusal::Refusal::of(number).expect("it is a refusal"));
    }
}
