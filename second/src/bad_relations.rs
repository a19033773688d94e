//! Texts that cover the grammar of relations, every start of each, and each with one byte changed to every other of a hundred.

use crate::make::{self, latin1, Listed, Question};
use crate::relation_cases::{plain_relation_case, RelationInputs};

/// Good texts, but for what is said beside them; of the properties below most of their conditions are true.
const TEXTS: [&str; 15] = [
    "$VARCOND='OAK'",
    " $varcond = 'oak' ,\r\n$VarCond\t='ash'\n",
    "$VARCOND='A' IF size<=900 OR size>=1000 AND NOT(wood<>'ASH')",
    "$VARCOND='A' IF size=>900AND size=900AND size<1000AND size>-1",
    "$VARCOND='A'IF'A'<'a'AND-5>=-900AND 1EQ 1AND'B'NE'b'",
    "$VARCOND='A' IF a LT b OR size LE 900 AND size GE 900 AND wood GT 'A'",
    "$VARCOND='A' IF SPECIFIED wood AND NOT NOT SPECIFIED _x1 OR SPECIFIED a",
    "$VARCOND='A' IF wood IN ('ASH' , '','oak',1) AND not size in(-1,0)",
    "$VARCOND='A' IF ((((((((((((((((size=900))))))))))))))))",
    // Reserved words, but for a byte more or less.
    "$VARCOND='A' IF ANDREA=IFA OR NOTE<>BANK AND SET_PCKG_FACTORS=NET OR INN=1 OR LTD=2 OR BA=3 OR SPECIFIEDS=4",
    "$VARCOND='A' IF size<999999999999999999 AND _x1>-000000000000000001",
    // 15.
    "$VARCOND='A' IF NOT((((((((((((((((((size=900))))))))))))))))))",
    // 16: a name that is too long, none at all, and a byte that no name has.
    "$VARCOND='A',$VARCOND='' IF a=1,$VARCOND='123456789012345678901',$VARCOND=''",
    "$VARCOND='B' IF wood='OAK',$VARCOND='A\u{7f}',$VARCOND='\u{c4}'",
    "$VARCOND='A' IF (wood='Oak' OR a=1) AND (size IN (900) OR b='x'), $VARCOND='B' IF NOT a=1, $VARCOND='C'",
];

/// The text with a name too many.
fn many_names() -> String {
    ["$VARCOND='A'"; 33].join(",")
}

/// Every printable character, and some that are none. Whatever byte of a text is changed, a hundred others are left.
fn bytes() -> impl Iterator<Item = u8> {
    (b' '..=b'~').chain([b'\t', b'\n', b'\r', 0, 0xc4, 0xff])
}

/// What stands beside the texts.
pub fn beside() -> RelationInputs {
    let plain = plain_relation_case();
    let properties = [Listed::text("Wood", "oak"), Listed::number("SIZE", 900), Listed::number("_X1", 0), Listed::none("b")];
    let question = Question { properties: Vec::new(), ..plain.question };
    RelationInputs {
        book: make::book(&plain.book),
        question: question.bytes(),
        properties: make::properties(&properties),
        relation: Vec::new(),
    }
}

/// The texts themselves.
pub fn texts() -> Vec<Vec<u8>> {
    TEXTS.iter().map(|text| latin1(text)).chain([many_names().into_bytes()]).collect()
}

/// Each text, cut off behind every byte, and with every byte changed.
pub fn bad_relations() -> impl Iterator<Item = Vec<u8>> {
    texts().into_iter().flat_map(|text| {
        let cut = text.clone();
        let cuts = (0..=text.len()).map(move |end| cut[..end].to_vec());
        let changes = (0..text.len()).flat_map(|place| bytes().map(move |byte| (place, byte)));
        let changed = changes.filter_map(move |(place, byte)| {
            let mut other = text.clone();
            other[place] = byte;
            (other != text).then_some(other)
        });
        cuts.chain(changed)
    })
}
