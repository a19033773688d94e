//! The reader of relations against the written grammar, held in another way: a text is cut into tokens, each becomes a letter, and
//! what the grammar makes of some letters is put in their place until nothing is left to do.

use second::random::Random;
use second::refusal::{BAD_RELATION, TOO_DEEP};
use second::relation::{is_blank, Refused, Relation};
use second::relation_cases::{RelationCase, RelationScene};

// Tokens. A letter each: `v` for `$VARCOND`, `n` for a name, `s` for a string, `d` for a number, `=` for itself, `o` for any other
// comparison, `(`, `)` and `,` for themselves, and `I`, `i`, `A`, `O`, `N`, `S` for IF, IN, AND, OR, NOT, SPECIFIED.

fn run_length(bytes: &[u8], fits: impl Fn(u8) -> bool) -> usize {
    bytes.iter().take_while(|&&byte| fits(byte)).count()
}

fn is_word_byte(byte: u8) -> bool {
    byte.is_ascii_alphanumeric() || byte == b'_'
}

fn word_letter(word: &[u8]) -> Option<char> {
    let word = String::from_utf8(word.to_ascii_uppercase()).ok()?;
    let letter = match &word[..] {
        "IF" => 'I',
        "IN" => 'i',
        "AND" => 'A',
        "OR" => 'O',
        "NOT" => 'N',
        "SPECIFIED" => 'S',
        "EQ" | "NE" | "LT" | "LE" | "GT" | "GE" => 'o',
        "BAN" | "SET_PCKG_FACTOR" | "SET_PRICING_FACTOR" => return None,
        _ => 'n',
    };
    Some(letter)
}

/// The letter of the first token, and how long the token is.
fn token(bytes: &[u8]) -> Option<(char, usize)> {
    match bytes[0] {
        b'\'' => {
            let length = run_length(&bytes[1..], |byte| byte != b'\'');
            (bytes.len() > length + 1).then_some(('s', length + 2))
        }
        b'$' => {
            let length = run_length(&bytes[1..], is_word_byte);
            bytes[1..=length].eq_ignore_ascii_case(b"VARCOND").then_some(('v', length + 1))
        }
        b'-' | b'0'..=b'9' => {
            let sign = usize::from(bytes[0] == b'-');
            let digits = run_length(&bytes[sign..], |byte| byte.is_ascii_digit());
            (1..=18).contains(&digits).then_some(('d', sign + digits))
        }
        b'(' | b')' | b',' => Some((char::from(bytes[0]), 1)),
        b'<' | b'=' | b'>' => {
            let twins: [&[u8]; 4] = [b"<=", b"<>", b"=>", b">="];
            match bytes.get(..2) {
                Some(two) if twins.contains(&two) => Some(('o', 2)),
                _ => Some((if bytes[0] == b'=' { '=' } else { 'o' }, 1)),
            }
        }
        byte if is_word_byte(byte) => {
            let length = run_length(bytes, is_word_byte);
            Some((word_letter(&bytes[..length])?, length))
        }
        _ => None,
    }
}

fn letters(text: &[u8]) -> Option<String> {
    let mut letters = String::new();
    let mut rest = text;
    loop {
        rest = &rest[run_length(rest, is_blank)..];
        if rest.is_empty() {
            return Some(letters);
        }
        let (letter, length) = token(rest)?;
        letters.push(letter);
        rest = &rest[length..];
    }
}

// What the grammar makes of letters: `V` is an assignment up to its string, `a` a whole one, `B` a condition, `L` a list of
// constants behind an IN. A `$` stands at the end.

const STEPS: [(&str, &str); 24] = [
    ("i(s", "i(L"),
    ("i(d", "i(L"),
    ("L,s", "L"),
    ("L,d", "L"),
    ("ni(L)", "B"),
    ("Sn", "B"),
    ("non", "B"),
    ("nos", "B"),
    ("nod", "B"),
    ("son", "B"),
    ("sos", "B"),
    ("sod", "B"),
    ("don", "B"),
    ("dos", "B"),
    ("dod", "B"),
    ("NB", "B"),
    ("(B)", "B"),
    ("BAB", "B"),
    ("BOB", "B"),
    ("VIB,", "a,"),
    ("VIB$", "a$"),
    ("V,", "a,"),
    ("V$", "a$"),
    ("a,a", "a"),
];

/// Whether the text is of the grammar, however deep its conditions are.
fn is_relation(text: &[u8]) -> bool {
    let Some(letters) = letters(text) else { return false };
    let mut letters = (letters + "$").replace("v=s", "V").replace('=', "o");
    loop {
        let before = letters.clone();
        for (from, to) in STEPS {
            letters = letters.replace(from, to);
        }
        if letters == before {
            return letters == "a$";
        }
    }
}

/// How deep the conditions are within parentheses.
fn deepest(text: &[u8]) -> usize {
    let (mut deep, mut deepest, mut before) = (0_usize, 0, ' ');
    for letter in letters(text).unwrap_or_default().replace("i(", "i").chars() {
        match letter {
            '(' => deep += 1,
            ')' if before != 'L' => deep = deep.saturating_sub(1),
            _ => {}
        }
        deepest = deepest.max(deep);
        before = if letter == 'i' || before == 'L' && letter != ')' { 'L' } else { letter };
    }
    deepest
}

fn shown(text: &[u8]) -> String {
    text.escape_ascii().to_string()
}

#[test]
fn the_steps_themselves() {
    for good in ["$VARCOND='A'", "$VARCOND='A' IF A=1 AND NOT(B<2 OR 'x'=IN_), $varcond=''"] {
        assert!(is_relation(good.as_bytes()), "{good}");
    }
    for bad in ["", "$VARCOND=A", "$VARCOND='A' IF", "$VARCOND='A',", "$VARCOND='A' IF A", "$VARCOND='A' IF (A=1", "A=1"] {
        assert!(!is_relation(bad.as_bytes()), "{bad}");
    }
    assert_eq!(deepest(b"$VARCOND='A' IF ((A IN (1,2)) AND (B=1)) OR NOT((C=1))"), 2);
}

/// Texts of many cases, good, spoilt and damaged.
fn texts() -> impl Iterator<Item = Vec<u8>> {
    (0..12_000).map(|index| RelationCase::generate_small(21, index).relation)
}

#[test]
fn exactly_the_grammar_is_read() {
    let (mut good, mut bad, mut deep) = (0, 0, 0);
    for text in texts() {
        match Relation::read(&text) {
            Ok(_) => {
                good += 1;
                assert!(is_relation(&text) && deepest(&text) <= 16, "{}", shown(&text));
            }
            Err(Refused { number: TOO_DEEP, place }) => {
                deep += 1;
                assert_eq!(text[place as usize - 1], b'(');
                assert!(!is_relation(&text) || deepest(&text) > 16, "{}", shown(&text));
            }
            Err(_) => {
                bad += 1;
                assert!(!is_relation(&text), "{}", shown(&text));
            }
        }
    }
    assert!(good > 8_000 && bad > 1_500 && deep > 100, "{good} good, {bad} bad, {deep} too deep");
}

// Places.

/// Wherever a text of the grammar is cut, one of these ends makes it one again, with some parentheses behind it.
fn ends() -> Vec<Vec<u8>> {
    let wholes = ["$VARCOND='A'", "IF 1=1", "AND 1=1", "OR 1=1", "LT 1", "LE 1", "EQ 1", "NE 1", "GE 1", "GT 1", "IN(1)"];
    let mut ends: Vec<String> = wholes.iter().flat_map(|whole| (0..whole.len()).map(|start| whole[start..].to_string())).collect();
    ends.extend(["", "X", " X", "X=1", "'=1", "')"].map(str::to_string));
    ends.sort();
    ends.dedup();
    let closed = |end: &String| (0..=3).map(|count| format!("{end}{}", ")".repeat(count)).into_bytes()).collect::<Vec<_>>();
    ends.iter().flat_map(closed).collect()
}

fn can_end(start: &[u8], ends: &[Vec<u8>]) -> bool {
    ends.iter().any(|end| is_relation(&[start, end].concat()))
}

#[test]
fn a_place_is_the_first_byte_with_which_nothing_goes_on() {
    let ends = ends();
    let mut seen = 0;
    let parentheses = |text: &Vec<u8>| text.iter().filter(|&&byte| byte == b'(').count();
    for text in texts().filter(|text| text.len() < 90 && parentheses(text) <= 3) {
        let Err(Refused { number: BAD_RELATION, place }) = Relation::read(&text) else { continue };
        let before = place as usize - 1;
        assert!(can_end(&text[..before], &ends), "{} at {place}: too late", shown(&text));
        if before < text.len() {
            assert!(!can_end(&text[..=before], &ends), "{} at {place}: too early", shown(&text));
        }
        seen += 1;
    }
    assert!(seen > 900, "{seen}");
}

#[test]
fn every_start_of_a_good_text_is_cut_off_behind_its_end() {
    for index in 0..300 {
        let mut scene = RelationScene::new(Random::stream(22, index));
        let tokens = scene.assignments(&[b"OAK".to_vec()]);
        let text = scene.spelled(&tokens);
        if Relation::read(&text).is_err() {
            continue;
        }
        for end in 0..text.len() {
            match Relation::read(&text[..end]) {
                Ok(_) => assert!(is_relation(&text[..end])),
                Err(refused) => assert_eq!(refused, Refused { number: BAD_RELATION, place: end as u64 + 1 }),
            }
        }
    }
}
