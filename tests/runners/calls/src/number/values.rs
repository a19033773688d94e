//! How properties stand in the number: P8, the example of the OCD document, each state under each visibility and trim, widths.

use super::{ask, book, written, Vector};
use second::make::Scheme;

pub fn vectors() -> Vec<Vector> {
    [p8(), version_2(), cupboard(), states(), characters(), widths(), many(), odd_values()].concat()
}

fn p8() -> Vec<Vector> {
    let question = ask("T100").valued(4, "OAK").hidden(2).unselected(3);
    let scheme = Scheme::new("S", "", "_");
    vec![
        written("P8: padded", &book("T100", scheme.clone()), &question, "T100 OAK _--_XXX"),
        written("P8: trimmed", &book("T100", scheme.clone().trim(1)), &question, "T100 OAK_--_XXX"),
        written("P8 with nothing shown for hidden", &book("T100", scheme.clone().visibility(0)), &question, "T100 OAK _XXX"),
        written("the same trimmed", &book("T100", scheme.visibility(0).trim(1)), &question, "T100 OAK_XXX"),
    ]
}

/// The properties stand behind the factors, of however many names.
fn version_2() -> Vec<Vector> {
    let book = book("T100", Scheme::new("S", "", "_"));
    let asked = |names: &[(&str, u16)]| ask("T100").factored(names).valued(4, "OAK").hidden(2).unselected(3);
    vec![
        written("P8 of version 2 without names", &book, &asked(&[]), "T100 OAK _--_XXX"),
        written("P8 behind two factors", &book, &asked(&[("oak", 0), ("ash", 10_000)]), "T100 OAK _--_XXX"),
        Vector::refused("P8 behind a factor of 10,001", &book, &asked(&[("oak", 10_001)]).bytes(), 2),
    ]
}

/// The cupboard of the OCD document, section 4.1: surface 03, height 5H, accessory not chosen, lock not visible, two bytes each.
fn cupboard() -> Vec<Vector> {
    let question = ask("0815").valued(2, "03").valued(2, "5H").unselected(2).hidden(2);
    let scheme = Scheme::new("S", "-", "");
    vec![
        written("a list of values, visibility 0", &book("0815", scheme.clone().visibility(0)), &question, "0815-035HXX"),
        written("a list of values, visibility 1", &book("0815", scheme), &question, "0815-035HXX--"),
    ]
}

/// One property of width 3: by state, what visibility 0 and 1 show untrimmed, then trimmed.
fn states() -> Vec<Vector> {
    let mut vectors = Vec::new();
    for (state, value, shown) in [
        (0, "AB", [["T AB ", "T AB "], ["T AB", "T AB"]]),
        (1, "", [["T", "T ---"], ["T", "T ---"]]),
        (2, "", [["T XXX", "T XXX"], ["T XXX", "T XXX"]]),
    ] {
        for (trim, row) in (0..).zip(shown) {
            for (visibility, number) in (0..).zip(row) {
                let book = book("T", Scheme::new("S", "", ".").visibility(visibility).trim(trim));
                let shows = format!("state {state}, visibility {visibility}, trim {trim}");
                vectors.push(written(&shows, &book, &ask("T").property(3, state, value), number));
            }
        }
    }
    vectors
}

fn characters() -> Vec<Vector> {
    let question = ask("T").hidden(2).unselected(2).valued(2, "A");
    let with = |hidden, unselected| book("T", Scheme::new("S", "", ".").characters(hidden, unselected));
    let hiding = book("T", Scheme::new("S", "", ".").characters(b'#', 0).visibility(0));
    vec![
        written("no character given", &with(0, 0), &question, "T --.XX.A "),
        written("the hidden one given", &with(b'#', 0), &question, "T ##.XX.A "),
        written("the unselected one given", &with(0, b'?'), &question, "T --.??.A "),
        written("both given, and beyond ASCII", &with(228, 255), &question, "T \u{e4}\u{e4}.\u{ff}\u{ff}.A "),
        written("both given, as blanks", &with(b' ', b' '), &question, "T   .  .A "),
        written("the two defaults exchanged", &with(b'X', b'-'), &question, "T XX.--.A "),
        written("a hidden one given and not shown", &hiding, &question, "T XX.A "),
    ]
}

fn widths() -> Vec<Vector> {
    let padded = book("T", Scheme::new("S", "", ""));
    let trimmed = book("T", Scheme::new("S", "", ".").trim(1));
    let thirty = "ABCDEFGHIJKLMNOPQRSTUVWXYZ0123";
    let blanks = " ".repeat(29);
    vec![
        written("a value of width 1", &padded, &ask("T").valued(1, "Z"), "T Z"),
        written("a value of width 1, trimmed", &trimmed, &ask("T").valued(1, "Z"), "T Z"),
        written("hidden, width 1", &padded, &ask("T").hidden(1), "T -"),
        written("unselected, width 1", &padded, &ask("T").unselected(1), "T X"),
        written("a value of one byte in width 30", &padded, &ask("T").valued(30, "Z"), &format!("T Z{blanks}")),
        written("the same trimmed", &trimmed, &ask("T").valued(30, "Z"), "T Z"),
        written("a value of 30 bytes", &padded, &ask("T").valued(30, thirty), &format!("T {thirty}")),
        written("a value of 30 bytes, trimmed", &trimmed, &ask("T").valued(30, thirty), &format!("T {thirty}")),
        written("hidden, width 30", &trimmed, &ask("T").hidden(30), &format!("T {}", "-".repeat(30))),
        written("unselected, width 30", &trimmed, &ask("T").unselected(30), &format!("T {}", "X".repeat(30))),
    ]
}

/// 32 properties; the longest number has 40 + 8 + 32 times 30 + 31 times 8 bytes, 1256.
fn many() -> Vec<Vector> {
    let short = (0..32).fold(ask("T"), |question, _| question.valued(2, "q"));
    let article = "N".repeat(40);
    let long = (0..32).fold(ask(&article), |question, _| question.unselected(30));
    let scheme = Scheme::new("S", "<number>", "<values>");
    let number = format!("{article}<number>{}", vec!["X".repeat(30); 32].join("<values>"));
    let longest = written("the longest number", &book(&article, scheme), &long, &number);
    vec![
        written("32 properties, padded", &book("T", Scheme::new("S", "", "")), &short, &format!("T {}", "q ".repeat(32))),
        written(
            "32 properties, trimmed",
            &book("T", Scheme::new("S", "", ".").trim(1)),
            &short,
            &format!("T q{}", ".q".repeat(31)),
        ),
        longest.clone(),
        longest.room(1_256),
    ]
}

fn odd_values() -> Vec<Vector> {
    let plain = book("T", Scheme::new("S", "", "."));
    let hiding = book("T", Scheme::new("S", "-", ".").visibility(0));
    let latin = ask("T").valued(4, "gr\u{fc}n").valued(1, "\u{ff}");
    vec![
        written("values keep their letters", &plain, &latin, "T gr\u{fc}n.\u{ff}"),
        written("values that read like runs and separators", &plain, &ask("T").valued(2, "XX").valued(3, ".-"), "T XX..- "),
        written("hidden ones between leave no separator", &hiding, &ask("T").valued(1, "A").hidden(2).valued(1, "B"), "T-A.B"),
        written("hidden ones first and last leave none", &hiding, &ask("T").hidden(1).valued(1, "A").hidden(1), "T-A"),
        written("all hidden: the base number alone", &hiding, &ask("T").hidden(1).hidden(2), "T"),
        written("no property: the base number alone", &plain, &ask("T"), "T"),
    ]
}
