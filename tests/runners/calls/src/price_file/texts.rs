//! Names of texts: numbers from 1 in the order in which they first appear.

use super::{plain, read, Vector};

pub fn vectors() -> Vec<Vector> {
    let long = "n".repeat(300);
    vec![
        numbered("no names", &["", "", ""], &[0, 0, 0]),
        numbered("one name", &["oak"], &[1]),
        numbered("a name that comes again", &["oak", "ash", "oak", "ash", "oak"], &[1, 2, 1, 2, 1]),
        numbered("blank names between", &["", "ash", "", "oak", "ash", ""], &[0, 1, 0, 2, 1, 0]),
        numbered("names that differ in a letter's size", &["oak", "Oak", "OAK"], &[1, 2, 3]),
        numbered("a space is no blank name", &[" ", "", "  ", " "], &[1, 0, 2, 1]),
        numbered("digits are names like others", &["7", "1", "07", "7"], &[1, 2, 3, 1]),
        numbered("quotes do not belong to the name", &["oak", "\"oak\"", "\"o;k\"", "\"\"", "\"o;k\"  "], &[1, 1, 2, 0, 2]),
        numbered("names that begin alike", &["ab", "a", "abc", "a", "ab"], &[1, 2, 3, 2, 1]),
        numbered("long names", &[&long, &long[1..], &long], &[1, 2, 1]),
        numbered("letters of Latin-1", &["Gr\u{fc}n", "Gr\u{dc}n", "Gr\u{fc}n"], &[1, 2, 1]),
        many(),
    ]
}

fn numbered(shows: &str, names: &[&str], numbers: &[u32]) -> Vector {
    let file: String = names.iter().map(|name| format!("A1;;S;B;1;{name};1;1;EUR;20240101;20241231;0;\n")).collect();
    let rows: Vec<_> = numbers.iter().map(|number| plain().text(*number)).collect();
    read(shows, &file, &rows)
}

/// Three hundred names, and the first and the last of them again.
fn many() -> Vector {
    let names: Vec<String> = (0..300).chain([0, 299]).map(|number| format!("n{number}")).collect();
    let numbers: Vec<u32> = (1..=300).chain([1, 300]).collect();
    numbered("many names", &names.iter().map(String::as_str).collect::<Vec<_>>(), &numbers)
}
