//! Lines of a price file: where they end, which say nothing, and which is the first bad one; then the room.

use super::{bad, plain, read, Vector, PLAIN};

pub fn vectors() -> Vec<Vector> {
    [ends(), silent(), first_bad(), room()].concat()
}

fn ends() -> Vec<Vector> {
    let two = [plain(), plain()];
    vec![
        read("no line at all", "", &[]),
        read("a line with its end", &format!("{PLAIN}\n"), &two[..1]),
        read("a line that the file ends", PLAIN, &two[..1]),
        read("two lines", &format!("{PLAIN}\n{PLAIN}\n"), &two),
        read("two lines, the last without its end", &format!("{PLAIN}\n{PLAIN}"), &two),
        bad("line ends of two bytes", &format!("{PLAIN}\r\n{PLAIN}\r\n"), 1),
        bad("a byte 0 behind the last line", &format!("{PLAIN}\n\0"), 2),
    ]
}

fn silent() -> Vec<Vector> {
    let one = [plain()];
    vec![
        read("line ends alone", "\n\n\n", &[]),
        read("spaces and tabs, with and without a line end", " \t \n\t", &[]),
        read("remarks around a row", &format!("#\n# a remark; \"\n{PLAIN}\n#{PLAIN}"), &one),
        read("blank lines around a row", &format!("\n  \n{PLAIN}\n\n"), &one),
        read("a remark of bytes that are no name's", "#\u{1}\r\u{7f}\u{9f}\0\n", &[]),
        bad("a remark that does not begin its line", " # a remark", 1),
        bad("a carriage return alone", "\r\n", 1),
        bad("a no-break space", "\u{a0}\n", 1),
        bad("a form feed", "\u{c}\n", 1),
        bad("two quotes", "\"\"\n", 1),
    ]
}

fn first_bad() -> Vec<Vector> {
    vec![
        bad("the first line", "x", 1),
        bad("the first of two bad ones", &format!("{PLAIN}\nx\n{PLAIN}\ny\n"), 2),
        bad("blank lines and remarks are counted", &format!("\n#\n \n{PLAIN}\n\nx\n"), 6),
        bad("the last, without its end", &format!("{PLAIN}\n{PLAIN}\n;"), 3),
        bad("line 300", &format!("{}x\n", "\n".repeat(299)), 300),
        bad("a bad line where no room is either", &format!("{PLAIN}\nx"), 2).room(0),
    ]
}

/// A record of `A1` has 36 bytes.
fn room() -> Vec<Vector> {
    let file = format!("{PLAIN}\n{PLAIN}\n");
    let all = read("just enough room", &file, &[plain(), plain()]);
    let refused = |shows: &str, room| Vector::refused(shows, &all.strings[0], &[], 7).room(room);
    vec![
        all.clone().room(72),
        refused("a byte short", 71),
        refused("room for the first record", 36),
        refused("no room", 0),
        read("nothing to write, and no room", "#\n", &[]).room(0),
    ]
}
