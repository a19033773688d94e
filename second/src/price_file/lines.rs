//! A price file cut into lines, and a line cut into fields.

/// The lines without their ends. What stands behind the last line end is a line as well; where nothing stands there, that line is
/// blank and says nothing.
pub fn lines(file: &[u8]) -> Vec<&[u8]> {
    file.split(|&byte| byte == b'\n').collect()
}

/// A comment begins with `#` as its very first byte; a blank line is empty or has only spaces and tabs.
pub fn says_nothing(line: &[u8]) -> bool {
    line.starts_with(b"#") || line.iter().all(|byte| b" \t".contains(byte))
}

/// The fields between the semicolons, without the quotes around them; `None` if a quoted field is not as it must be.
pub fn fields(line: &[u8]) -> Option<Vec<Vec<u8>>> {
    let mut fields = Vec::new();
    let mut rest = line;
    loop {
        let (field, behind) = field(rest)?;
        fields.push(field);
        match behind {
            [] => return Some(fields),
            [b';', next @ ..] => rest = next,
            // Something stands behind a closing quote.
            _ => return None,
        }
    }
}

/// The first field, and what is left behind it. A field is quoted if its first byte is a quote; a quote further in is a byte like
/// any other.
fn field(bytes: &[u8]) -> Option<(Vec<u8>, &[u8])> {
    match bytes {
        [b'"', behind @ ..] => quoted(behind),
        _ => Some(unquoted(bytes)),
    }
}

fn unquoted(bytes: &[u8]) -> (Vec<u8>, &[u8]) {
    let end = bytes.iter().position(|&byte| byte == b';').unwrap_or(bytes.len());
    (bytes[..end].to_vec(), &bytes[end..])
}

/// Begins behind the opening quote. Two quotes stand for one, one alone closes the field, and the spaces behind it go; `None` if
/// none closes it.
fn quoted(bytes: &[u8]) -> Option<(Vec<u8>, &[u8])> {
    let mut content = Vec::new();
    let mut rest = bytes;
    loop {
        match rest {
            [b'"', b'"', behind @ ..] => {
                content.push(b'"');
                rest = behind;
            }
            [b'"', behind @ ..] => return Some((content, without_spaces(behind))),
            [byte, behind @ ..] => {
                content.push(*byte);
                rest = behind;
            }
            [] => return None,
        }
    }
}

fn without_spaces(bytes: &[u8]) -> &[u8] {
    let spaces = bytes.iter().take_while(|&&byte| byte == b' ').count();
    &bytes[spaces..]
}
