//! The call for the version.

use rafttwine::{version, Version};

#[test]
fn the_library_is_the_crates_version() {
    assert_eq!(version().to_string(), env!("CARGO_PKG_VERSION"));
}

#[test]
fn versions_come_in_order() {
    let of = |major, minor, patch| Version { major, minor, patch };
    assert!(of(1, 1, 0) < of(1, 1, 1) && of(1, 1, 1) < of(1, 2, 0) && of(1, 99, 99) < of(2, 0, 0));
    assert_eq!(of(1, 20, 3).to_string(), "1.20.3");
}
