//! Small letters and their capitals, in Latin-1.

/// Between a small letter and its capital.
const STEP: u8 = 32;

/// What a small letter is raised to, or the byte itself. Sharp s (223), the sign of division (247) and y with two dots (255) stay:
/// what stands 32 before them is no capital of theirs.
pub fn capital(byte: u8) -> u8 {
    match byte {
        b'a'..=b'z' | 224..=246 | 248..=254 => byte - STEP,
        _ => byte,
    }
}

/// Some small letter that is raised to this byte, or the byte itself where there is none.
pub fn small(byte: u8) -> u8 {
    match byte {
        b'A'..=b'Z' | 192..=214 | 216..=222 => byte + STEP,
        _ => byte,
    }
}

/// A name with its small letters raised.
pub fn raised(name: &[u8]) -> Vec<u8> {
    name.iter().map(|&byte| capital(byte)).collect()
}

#[cfg(test)]
mod tests {
    use super::{capital, raised, small};
    use crate::reader::is_name_byte;

    /// Every small letter and, at the same place, its capital.
    const SMALL: [&[u8]; 3] = [
        b"abcdefghijklmnopqrstuvwxyz",
        b"\xe0\xe1\xe2\xe3\xe4\xe5\xe6\xe7\xe8\xe9\xea\xeb\xec\xed\xee\xef\xf0\xf1\xf2\xf3\xf4\xf5\xf6",
        b"\xf8\xf9\xfa\xfb\xfc\xfd\xfe",
    ];
    const CAPITALS: [&[u8]; 3] = [
        b"ABCDEFGHIJKLMNOPQRSTUVWXYZ",
        b"\xc0\xc1\xc2\xc3\xc4\xc5\xc6\xc7\xc8\xc9\xca\xcb\xcc\xcd\xce\xcf\xd0\xd1\xd2\xd3\xd4\xd5\xd6",
        b"\xd8\xd9\xda\xdb\xdc\xdd\xde",
    ];

    /// Every character of Latin-1 is its own byte.
    fn latin1(text: &str) -> Vec<u8> {
        text.chars().map(|letter| u8::try_from(letter).expect("a byte of Latin-1")).collect()
    }

    fn pairs() -> Vec<(u8, u8)> {
        SMALL.concat().into_iter().zip(CAPITALS.concat()).collect()
    }

    /// The request word for word: a to z as before; 224 to 254 other than 247 become 32 less; 223 and 255 stay.
    fn requested(byte: u8) -> u8 {
        let ascii = (97..=122).contains(&byte);
        let umlaut = (224..=254).contains(&byte) && byte != 247;
        if ascii || umlaut {
            byte - 32
        } else {
            byte
        }
    }

    #[test]
    fn the_chart_is_whole() {
        assert_eq!((SMALL.concat().len(), CAPITALS.concat().len()), (26 + 30, 26 + 30));
        for pairs in pairs().windows(2) {
            assert!(pairs[0].0 < pairs[1].0 && pairs[0].1 < pairs[1].1);
        }
    }

    #[test]
    fn every_byte_by_the_request() {
        for byte in 0..=255 {
            assert_eq!(capital(byte), requested(byte), "{byte}");
            assert_eq!(raised(&[byte]), [requested(byte)], "{byte}");
        }
    }

    #[test]
    fn every_byte_by_the_chart() {
        for byte in 0..=255 {
            let up = pairs().into_iter().find(|pair| pair.0 == byte).map_or(byte, |pair| pair.1);
            let down = pairs().into_iter().find(|pair| pair.1 == byte).map_or(byte, |pair| pair.0);
            assert_eq!((capital(byte), small(byte)), (up, down), "{byte}");
        }
    }

    /// Unicode has the same capitals but for three letters: those of micro (181) and of y with two dots (255) are not in Latin-1, and
    /// of sharp s (223) there are two. The request leaves all three as they are.
    #[test]
    fn every_byte_by_unicode() {
        for byte in 0..=255 {
            let up: Vec<char> = char::from(byte).to_uppercase().collect();
            match byte {
                181 => assert_eq!((up, capital(byte)), (vec!['\u{39c}'], byte)),
                223 => assert_eq!((up, capital(byte)), (vec!['S', 'S'], byte)),
                255 => assert_eq!((up, capital(byte)), (vec!['\u{178}'], byte)),
                _ => assert_eq!(up, [char::from(capital(byte))], "{byte}"),
            }
            // To the small letters there is no exception.
            let down: Vec<char> = char::from(byte).to_lowercase().collect();
            assert_eq!(down, [char::from(small(byte))], "{byte}");
        }
    }

    #[test]
    fn the_ends_of_the_ranges() {
        let expected = [
            (96, 96),
            (97, 65),
            (122, 90),
            (123, 123),
            (181, 181),
            (192, 192),
            (215, 215),
            (222, 222),
            (223, 223),
            (224, 192),
            (246, 214),
            (247, 247),
            (248, 216),
            (254, 222),
            (255, 255),
        ];
        for (byte, up) in expected {
            assert_eq!(capital(byte), up, "{byte}");
        }
    }

    #[test]
    fn every_byte_there_and_back() {
        for byte in 0..=255 {
            // Raising twice is raising once.
            assert_eq!(capital(capital(byte)), capital(byte), "{byte}");
            // What is made small is raised to the same as before, and a small letter is found wherever there is one.
            assert_eq!(capital(small(byte)), capital(byte), "{byte}");
            let has_one = (0..=255).any(|other| other != byte && capital(other) == byte);
            assert_eq!(small(byte) != byte, has_one, "{byte}");
            // A name's byte becomes a name's byte, and ASCII stays apart from what is not.
            assert_eq!(capital(byte).is_ascii(), byte.is_ascii(), "{byte}");
            assert_eq!(is_name_byte(capital(byte)), is_name_byte(byte), "{byte}");
            assert_eq!(is_name_byte(small(byte)), is_name_byte(byte), "{byte}");
        }
    }

    #[test]
    fn whole_names() {
        for (name, expected) in [
            ("", ""),
            ("gr\u{fc}n", "GR\u{dc}N"),
            ("Gr\u{dc}n", "GR\u{dc}N"),
            ("GR\u{dc}N", "GR\u{dc}N"),
            ("gruen", "GRUEN"),
            ("wei\u{df}", "WEI\u{df}"),
            ("weiss", "WEISS"),
            ("cr\u{e8}me br\u{fb}l\u{e9}e", "CR\u{c8}ME BR\u{db}L\u{c9}E"),
            ("nu\u{df}baum, ge\u{f6}lt", "NU\u{df}BAUM, GE\u{d6}LT"),
            ("\u{ff}\u{f7}\u{d7}\u{df}", "\u{ff}\u{f7}\u{d7}\u{df}"),
            ("\u{b5}m \u{a0}\u{bd}", "\u{b5}M \u{a0}\u{bd}"),
            ("\u{fe}or\u{f0} 2 \u{e6}\u{f8}\u{e5}", "\u{de}OR\u{d0} 2 \u{c6}\u{d8}\u{c5}"),
            ("a_{z}`", "A_{Z}`"),
        ] {
            assert_eq!(raised(&latin1(name)), latin1(expected), "{name}");
        }
    }
}
