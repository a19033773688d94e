//! Property lists: what their layout does not allow is told in a sentence, and what it allows the library accepts.

use rafttwine::{names_of, PropertyList, Refusal};

#[test]
fn bytes_of_a_list() {
    let list = PropertyList::new().text("top", "OAK").number("Width", -2).none("FINISH");
    let due = b"\x03\x03top\x01\x03OAK\x05Width\x02\xff\xff\xff\xff\xff\xff\xff\xfe\x06FINISH\0";
    assert_eq!(list.bytes().unwrap(), due);
    assert_eq!(PropertyList::new().bytes().unwrap(), [0]);
}

#[test]
fn lists_that_are_not_in_their_layout() {
    let long = "N".repeat(256);
    let many = (0..65).fold(PropertyList::new(), |list, _| list.none("TOP"));
    for (list, sentence) in [
        (many, "PropertyList.properties: 65 of them, and at most 64 are allowed"),
        (PropertyList::new().none(&long), "PropertyList.name of place 1: 256 bytes, and at most 255 are allowed"),
        (PropertyList::new().none("A").text("B", &long), "PropertyList.text of place 2: 256 bytes, and at most 255 are allowed"),
        (PropertyList::new().text("A", "\n"), "PropertyList.text of place 1: '\\n' is no letter that can be printed"),
        (PropertyList::new().none("€"), "PropertyList.name of place 1: '€' is not in Latin-1"),
    ] {
        assert_eq!(list.bytes().expect_err(sentence).to_string(), sentence);
    }
}

#[test]
fn the_library_accepts_lists_at_their_bounds() {
    let long = "ÿ".repeat(255);
    let most = (0..61).fold(PropertyList::new(), |list, _| list.none(""));
    let most = most.text(&long, &long).number("LEAST", i64::MIN).number("MOST", i64::MAX);
    let relation = b"$VARCOND='A' IF LEAST < -999999999999999999 AND MOST > 999999999999999999";
    assert_eq!(names_of(&most.bytes().unwrap(), relation).unwrap(), ["A"]);
}

#[test]
fn the_library_refuses_lists_past_their_bounds() {
    for list in [&[][..], &[65], &[1], &[1, 0], &[1, 0, 3], &[1, 1, 31, 0], &[1, 0, 1], &[1, 0, 2, 0, 0, 0, 0, 0, 0, 0], &[0, 0]] {
        assert_eq!(names_of(list, b"$VARCOND='A'").unwrap_err().refusal, Refusal::BrokenQuestion, "{list:?}");
    }
}
