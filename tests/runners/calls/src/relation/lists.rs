//! Lists of properties: which of a name counts, and what is no list, which is refused with 2 before the relation is looked at.

use super::{derives, nothing, Vector};
use crate::parts::{ask, DAY};
use second::make::{self, Listed, ListedValue};

pub fn vectors() -> Vec<Vector> {
    [counted(), bounds(), no_list()].concat()
}

/// One relation over many lists: A if the top is oak, B if it has a value, C if it is 7.
fn counted() -> Vec<Vector> {
    let relation = "$VARCOND='A' IF TOP='oak',$VARCOND='B' IF SPECIFIED top,$VARCOND='C' IF ToP=7";
    let of = |shows, listed: &[Listed], names: &[&str]| derives(shows, &ask(DAY), &make::properties(listed), relation, names);
    vec![
        of("no property", &[], &[]),
        of("others", &[Listed::text("TOPS", "oak"), Listed::text("TO", "oak"), Listed::text("", "oak")], &[]),
        of("a text", &[Listed::text("TOP", "OAK")], &["A", "B"]),
        of("another text", &[Listed::text("TOP", "ash")], &["B"]),
        of("an empty text is a value", &[Listed::text("TOP", "")], &["B"]),
        of("a number", &[Listed::number("top", 7)], &["B", "C"]),
        of("no value", &[Listed::none("tOp")], &[]),
        of("the first of a name", &[Listed::text("top", "oak"), Listed::number("TOP", 7)], &["A", "B"]),
        of("the first of a name, though it has no value", &[Listed::none("Top"), Listed::text("TOP", "oak")], &[]),
        of("a text of digits is no number", &[Listed::text("TOP", "7")], &["B"]),
    ]
}

fn bounds() -> Vec<Vector> {
    let relation = "$VARCOND='A' IF LOW < -999999999999999999 AND HIGH > 999999999999999999 AND N = 'A'";
    let long = Listed { name: vec![255; 255], value: ListedValue::Text(vec![160; 255]) };
    let mut most = vec![Listed::number("LOW", i64::MIN), Listed::number("HIGH", i64::MAX), Listed::text("n", "a"), long];
    most.extend((0..60).map(|_| Listed::none(" ")));
    vec![derives(
        "64 properties, the longest name and text, the least and the greatest number",
        &ask(DAY),
        &make::properties(&most),
        relation,
        &["A"],
    )]
}

fn no_list() -> Vec<Vector> {
    let many = make::properties(&vec![Listed::none("A"); 65]);
    let raw = |value: &[u8]| make::properties(&[Listed { name: b"A".to_vec(), value: ListedValue::Raw(value.to_vec()) }]);
    let named = |name: &[u8]| make::properties(&[Listed { name: name.to_vec(), value: ListedValue::None }]);
    let lists: Vec<(&str, Vec<u8>)> = vec![
        ("no byte", vec![]),
        ("65 properties", many),
        ("a property that is not there", vec![1]),
        ("one of two that is not there", vec![2, 1, b'A', 0]),
        ("a name that is cut", vec![1, 2, b'A']),
        ("a name with a byte 31", named(&[31])),
        ("a name with a byte 127", named(&[127])),
        ("a name with a byte 159", named(&[b'A', 159])),
        ("no kind", raw(&[])),
        ("the kind 3", raw(&[3])),
        ("the kind 3 with eight bytes", raw(&[3, 0, 0, 0, 0, 0, 0, 0, 0])),
        ("a text that is cut", raw(&[1, 2, b'A'])),
        ("a text without its length", raw(&[1])),
        ("a text with a byte 10", raw(&[1, 1, 10])),
        ("a number of seven bytes", raw(&[2, 0, 0, 0, 0, 0, 0, 0])),
        ("a byte behind the last property", raw(&[0, 0])),
        ("a byte behind no property", [nothing(), vec![0]].concat()),
    ];
    let refused = |(shows, list): &(&str, Vec<u8>)| {
        let with = |relation: &[u8]| Vector::refused_all(shows, &[&ask(DAY).bytes(), list, relation], 2);
        [with(b"$VARCOND='A'"), with(b"wrong").room(0)]
    };
    lists.iter().flat_map(refused).collect()
}
