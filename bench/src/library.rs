//! The library's functions, as the archives of the crates `measured` and `plugin` export them.

// The calls' test has them already, with answers that can be compared with those of the second implementation.
#[allow(dead_code)] // not all of them are timed
#[path = "../../tests/runners/calls/src/archive.rs"]
mod archive;

pub use archive::{basket, calendar, derive, price, price_derived, read_prices, write_prices};

#[link(name = "measured", kind = "static")]
extern "C" {
    fn measured_book_ok(bytes: *const u8, length: usize) -> bool;
}

pub fn book_ok(bytes: &[u8]) -> bool {
    // Sound: pointer and length are those of one slice, which is borrowed for the whole call.
    unsafe { measured_book_ok(bytes.as_ptr(), bytes.len()) }
}
