//! Which texts are relations, and where a text goes wrong. In the texts below `|` stands in front of the byte that is wrong, or at
//! the end of a text that is cut off; it is taken out before the text is read.

use second::make::latin1;
use second::refusal::{BAD_RELATION, TOO_DEEP};
use second::relation::{Comparison, Condition, Operand, Refused, Relation, Value};

fn read(text: &str) -> Result<Relation, Refused> {
    Relation::read(&latin1(text))
}

/// The text without its mark, and the place of the mark.
fn marked(text: &str) -> (Vec<u8>, u64) {
    let bytes = latin1(text);
    let place = bytes.iter().position(|&byte| byte == b'|').expect("a mark");
    ([&bytes[..place], &bytes[place + 1..]].concat(), place as u64 + 1)
}

fn assert_wrong(text: &str) {
    let (bytes, place) = marked(text);
    assert_eq!(Relation::read(&bytes).err(), Some(Refused { number: BAD_RELATION, place }), "{text}");
}

fn assert_good(text: &str) {
    assert!(read(text).is_ok(), "{text}: {:?}", read(text).err());
}

/// Conditions behind an IF, each wrong at its mark.
fn assert_wrong_if(conditions: &[&str]) {
    for condition in conditions {
        assert_wrong(&format!("$VARCOND='A' IF {condition}"));
    }
}

fn assert_good_if(conditions: &[&str]) {
    for condition in conditions {
        assert_good(&format!("$VARCOND='A' IF {condition}"));
    }
}

const RESERVED: [&str; 15] = [
    "AND",
    "BAN",
    "EQ",
    "GE",
    "GT",
    "IF",
    "IN",
    "LE",
    "LT",
    "NE",
    "NOT",
    "OR",
    "SET_PCKG_FACTOR",
    "SET_PRICING_FACTOR",
    "SPECIFIED",
];

// Assignments.

#[test]
fn good_assignments() {
    for text in [
        "$VARCOND='A'",
        "$varcond = 'A'",
        "$VarCond='',$vARcOND=' '",
        " \t\r\n$VARCOND \t\r\n= \t\r\n'A' \t\r\n, \t\r\n$VARCOND='B' \t\r\n",
        "$VARCOND='$VARCOND=\"A\", IF \0\n\r\t\u{ff}'",
        "$VARCOND='A'IF'A'='A',$VARCOND='B'",
        "$VARCOND='A' IF 1=1,$VARCOND='B' if 1=1",
    ] {
        assert_good(text);
    }
}

#[test]
fn wrong_assignments() {
    for text in [
        "|",
        " \t\r\n|",
        "|,",
        "|A",
        "|\u{c4}",
        "|\0$VARCOND='A'",
        "|'A'",
        "|VARCOND='A'",
        "$|",
        "$| VARCOND='A'",
        "$|BAN='A'",
        "$|SET_PRICING_FACTOR('A',1)",
        "$VARCON|",
        "$VARCON|='A'",
        "$VAR| COND='A'",
        "$VARCOND|",
        "$VARCOND|X='A'",
        "$VARCOND|1='A'",
        "$VARCOND|_='A'",
        "$VARCOND |'A'",
        "$VARCOND |EQ 'A'",
        "$VARCOND=|",
        "$VARCOND= \n|",
        "$VARCOND=|>'A'",
        "$VARCOND=|='A'",
        "$VARCOND=|1",
        "$VARCOND=|-1",
        "$VARCOND=|A",
        "$VARCOND=|\"A\"",
        "$VARCOND='|",
        "$VARCOND='A|",
        "$VARCOND='A, $VARCOND='|B'",
        "$VARCOND='A'|'B'",
        "$VARCOND='A'|;",
        "$VARCOND='A'|$VARCOND='B'",
        "$VARCOND='A' |$VARCOND='B'",
        "$VARCOND='A' |AND $VARCOND='B'",
        "$VARCOND='A' |(",
        "$VARCOND='A' |# a comment",
        "$VARCOND='A',|",
        "$VARCOND='A', |",
        "$VARCOND='A',|,",
        "$VARCOND='A' IF 1=1,|",
        "$VARCOND='A' I|",
        "$VARCOND='A' I| ",
        "$VARCOND='A' I|N",
        "$VARCOND='A' IF|",
        "$VARCOND='A' IF |",
        "$VARCOND='A' IF|F",
        "$VARCOND='A' IF|A=1",
        "$VARCOND='A' IF|1=1",
        "$VARCOND='A' IF 1=1 |IF 1=1",
    ] {
        assert_wrong(text);
    }
}

#[test]
fn where_assignments_begin() {
    let relation = read(" $VARCOND='A' ,\n\t$varcond='' IF A=1,$VARCOND='A'").unwrap();
    let places: Vec<u64> = relation.assignments.iter().map(|assignment| assignment.place).collect();
    assert_eq!(places, [2, 18, 37]);
    let names: Vec<&[u8]> = relation.assignments.iter().map(|assignment| &assignment.name[..]).collect();
    assert_eq!(names, [&b"A"[..], b"", b"A"]);
}

// Words.

#[test]
fn a_reserved_word_for_a_name_is_wrong_behind_it() {
    for word in RESERVED {
        for spelled in [word.to_string(), word.to_lowercase()] {
            if !["NOT", "SPECIFIED"].contains(&word) {
                assert_wrong_if(&[
                    &format!("{spelled}| =1"),
                    &format!("{spelled}|=1"),
                    &format!("{spelled}|"),
                    &format!("({spelled}|("),
                ]);
            }
            assert_wrong_if(&[
                &format!("A = {spelled}| "),
                &format!("A={spelled}|,"),
                &format!("1 < {spelled}|"),
                &format!("SPECIFIED {spelled}|)"),
                &format!("SPECIFIED {spelled}|"),
            ]);
            // One byte more, and it is a name.
            assert_good_if(&[
                &format!("{spelled}S=1"),
                &format!("A={spelled}_"),
                &format!("SPECIFIED {spelled}0"),
                &format!("_{spelled} IN (1)"),
            ]);
        }
    }
}

#[test]
fn words_of_other_languages_are_names() {
    assert_good_if(&["VARCOND=1", "TABLE='A'", "FALSE=1", "SELF=1", "SET_PRICING_FACTORS=1", "X_=_", "_=__"]);
}

#[test]
fn a_wrong_word_is_wrong_at_its_first_wrong_letter() {
    assert_wrong_if(&[
        "A=1 AN|B=1",
        "A=1 AN| B=1",
        "A=1 AND|B=1",
        "A=1 AND|1=1",
        "A=1 O|",
        "A=1 O|F",
        "A=1 OR|R",
        "A=1 |XOR B=1",
        "A=1 |NOT B=1",
        "A=1 |IN (1)",
        "A=1 |_",
        "A=1|B",
        "A=1|_",
        "A=1A|S",
        "A='X'|X",
        "A L|S 1",
        "A L| 1",
        "A LT|E 1",
        "A LT|1",
        "A |B",
        "A |AND",
        "A N|OT 1",
        "A I|F (1)",
        "A I|S 1",
        "A IN|1",
        "1 |IN (1)",
        "'A'|IN('A')",
        "1 |AND 1",
        "1|A",
    ]);
}

#[test]
fn the_longest_run_is_the_word() {
    assert_good_if(&["NOT1=1", "NOTA=1", "SPECIFIEDA=1", "ANDREA=1", "IFA=1", "A1B2_3=1", "A=B"]);
    assert_wrong_if(&["SPECIFIEDA|", "NOTA|", "A=BOR |C", "A=BAND |C=1", "A |SPECIFIED B"]);
}

#[test]
fn numbers_and_strings_may_touch_words() {
    assert_good_if(&[
        "A=1AND B=2",
        "A=1OR B=2AND C='X'OR'Y'='Z'",
        "'A'EQ'B'",
        "1LT 2",
        "1LT-2",
        "NOT'A'='B'",
        "NOT-1=1",
        "NOT(A=1)AND(B=1)",
        "A IN(1)AND B IN('X')OR(C=1)",
        "A IN('X','Y')",
    ]);
}

#[test]
fn words_in_any_case() {
    let upper =
        read("$VARCOND='A' IF NOT WOOD IN (1) AND SPECIFIED B OR C LT 1 AND C LE 1 AND C EQ 1 OR C NE D AND C GE 1 AND C GT 1");
    let lower =
        read("$varcond='A' if not wood in (1) and specified b or c lt 1 and c le 1 and c eq 1 or c ne d and c ge 1 and c gt 1");
    let mixed =
        read("$vArCOnD='A' iF nOT wOoD In (1) anD SpecifieD b oR c lT 1 aNd C Le 1 AnD c eQ 1 Or c nE d ANd c gE 1 ANd c Gt 1");
    assert_eq!(upper, lower);
    assert_eq!(upper, mixed);
}

// Comparisons.

fn condition(text: &str) -> Condition {
    let mut relation = read(&format!("$VARCOND='A' IF {text}")).unwrap();
    relation.assignments.remove(0).condition.unwrap()
}

#[test]
fn every_sign_and_its_word() {
    let signs = [
        ("<", "LT", Comparison::Less),
        ("<=", "LE", Comparison::LessOrEqual),
        ("=", "EQ", Comparison::Equal),
        ("<>", "NE", Comparison::Unequal),
        ("=>", "GE", Comparison::GreaterOrEqual),
        (">=", "GE", Comparison::GreaterOrEqual),
        (">", "GT", Comparison::Greater),
    ];
    for (sign, word, comparison) in signs {
        let compared = Condition::Compared(Operand::Property(b"WOOD".to_vec()), comparison, Operand::Constant(Value::Number(-7)));
        let whole = Condition::Any(vec![Condition::All(vec![compared])]);
        assert_eq!(condition(&format!("wood{sign}-7")), whole);
        assert_eq!(condition(&format!("wood {sign} -7")), whole);
        assert_eq!(condition(&format!("wood {word}\n-7")), whole);
    }
}

#[test]
fn wrong_comparisons() {
    assert_wrong_if(&[
        "A|",
        "A |",
        "A=|",
        "A= |",
        "A|,",
        "A |)",
        "A |'X'",
        "A |1",
        "1 |1",
        "'X'|'X'",
        "1 |,",
        "A=|<1",
        "A=|=1",
        "A< |=1",
        "A< |>1",
        "A= |>1",
        "A> |=1",
        "A<|<1",
        "A>|>1",
        "A>=|=1",
        "A<>|=1",
        "A<=|>1",
        "A|!=1",
        "A=|(1)",
        "A=|)",
        "A=|$BAN",
        "A=|\"X\"",
        "A=1|+1",
        "A=1 |- 1",
        "A=1|.5",
        "A=1|=1",
        "A=1 |B=1",
        "A=B|.C",
        "A=B |C",
        "A=1 |1",
        "A=1|'X'",
        "|=1",
        "|<1",
        "|$BAN='A'",
        "|,",
        "|)",
        "|*",
        "|.5=1",
        "|\u{c4}=1",
        "A|\u{c4}=1",
        "A=1|\u{a0}",
        "A=1 |\0",
        "A=1 |\u{b}",
    ]);
}

#[test]
fn numbers_of_up_to_18_digits() {
    let number = |text: &str| match condition(&format!("{text}=A")) {
        Condition::Any(mut any) => match any.remove(0) {
            Condition::All(mut all) => match all.remove(0) {
                Condition::Compared(Operand::Constant(Value::Number(number)), ..) => number,
                other => panic!("{other:?}"),
            },
            other => panic!("{other:?}"),
        },
        other => panic!("{other:?}"),
    };
    for (text, expected) in [
        ("0", 0),
        ("-0", 0),
        ("007", 7),
        ("-12", -12),
        ("999999999999999999", 999_999_999_999_999_999),
        ("-999999999999999999", -999_999_999_999_999_999),
        ("000000000000000001", 1),
    ] {
        assert_eq!(number(text), expected);
    }
    assert_wrong_if(&[
        "A=123456789012345678|9",
        "A=-123456789012345678|9",
        "A=000000000000000000|0",
        "123456789012345678|9=A",
        "A IN (123456789012345678|9)",
        "A=-|",
        "A=-| 1",
        "A=-|-1",
        "A=-|A",
        "A=-|'X'",
        "A=|+1",
        "-|",
        "-|=1",
    ]);
}

#[test]
fn strings_hold_every_byte_but_the_quote() {
    for byte in (0..=255).filter(|&byte| byte != b'\'') {
        let text = [b"$VARCOND='", &[byte, byte][..], b"' IF '", &[byte], b"'='", &[byte], b"'"].concat();
        assert_eq!(Relation::read(&text).unwrap().assignments[0].name, [byte, byte]);
    }
    assert_wrong_if(&["A='|", "A='X AND B=1|", "'|", "A IN ('X|", "A='X'|'Y'"]);
}

// IN, SPECIFIED and NOT.

#[test]
fn good_special_conditions() {
    assert_good_if(&[
        "A IN ('X')",
        "A in('X','Y',1,-2)",
        "A IN\n(\t'X' , 1\r)",
        "A IN ('')",
        "SPECIFIED A",
        "NOT SPECIFIED A",
        "NOT NOT NOT A=1",
        "NOT (NOT (A=1))",
        "NOT A IN (1)",
        "A=1 AND NOT B=1 OR NOT C=1",
    ]);
}

#[test]
fn wrong_special_conditions() {
    assert_wrong_if(&[
        "A IN|",
        "A IN |",
        "A IN |'X'",
        "A IN(|",
        "A IN (|)",
        "A IN (|B)",
        "A IN (|,1)",
        "A IN (|(",
        "A IN (1|",
        "A IN (1 |2)",
        "A IN (1,|)",
        "A IN (1,|,2)",
        "A IN (1,|B)",
        "A IN (1|;2)",
        "A IN (1)|)",
        "A IN (1) |IN (1)",
        "A N|OT IN (1)",
        "SPECIFIED|",
        "SPECIFIED |",
        "SPECIFIED|(A)",
        "SPECIFIED |(A)",
        "SPECIFIED|'A'",
        "SPECIFIED |1",
        "SPECIFIED |-1",
        "SPECIFIED A |=1",
        "SPECIFIED A |B",
        "SPECIFIED A |IN (1)",
        "SPECIFIED NOT| A",
        "NOT|",
        "NOT |",
        "NOT |)",
        "NOT |=1",
        "NOT AND| A",
        "NOT SPECIFIED NOT|",
    ]);
}

#[test]
fn a_hundred_thousand_times_not() {
    let relation = read(&format!("$VARCOND='A' IF {}A=1", "NOT ".repeat(100_000))).unwrap();
    assert_eq!(Some(condition("A=1")), relation.assignments[0].condition);
    let relation = read(&format!("$VARCOND='A' IF {}A=1", "NOT\n".repeat(100_001))).unwrap();
    assert_eq!(Some(condition("NOT A=1")), relation.assignments[0].condition);
}

// Parentheses.

#[test]
fn good_parentheses() {
    assert_good_if(&["(A=1)", "((A=1))", "(A=1)AND(B=1)", "( A=1 OR\tB=1 ) AND (C=1)", "(SPECIFIED A)", "((A=1)OR(B=1))"]);
}

#[test]
fn wrong_parentheses() {
    assert_wrong_if(&[
        "(|",
        "(|)",
        "(A=1|",
        "(A=1 |",
        "(A=1|,",
        "(A=1)|)",
        "A=1|)",
        "(A=1)|(B=1)",
        "(A|)=1",
        "(A=1)|=1",
        "(A=1) |IN (1)",
        "(|,A=1)",
        "(A=1 A|S B)",
        "(A=1), $|",
    ]);
}

/// So many parentheses around a comparison.
fn nested(deep: usize) -> String {
    format!("{}A IN (1){}", "(".repeat(deep), ")".repeat(deep))
}

fn too_deep(place: usize) -> Result<Relation, Refused> {
    Err(Refused { number: TOO_DEEP, place: place as u64 })
}

const BEFORE: &str = "$VARCOND='A' IF ";

#[test]
fn sixteen_deep_and_no_deeper() {
    for deep in 0..=16 {
        assert_good_if(&[&nested(deep)]);
    }
    for deep in 17..=40 {
        assert_eq!(read(&format!("{BEFORE}{}", nested(deep))), too_deep(BEFORE.len() + 17));
    }
    // Those that are closed again do not count, nor do those of IN; NOT is not deep.
    assert_good_if(&[&[nested(16), nested(16), nested(16)].join(" OR ")]);
    assert_good_if(&[&format!("{}A=1{}", "NOT NOT(".repeat(16), ")".repeat(16))]);
    let not_deep = format!("{BEFORE}(A=1) AND NOT NOT ");
    assert_eq!(read(&format!("{not_deep}{}", nested(17))), too_deep(not_deep.len() + 17));
}

#[test]
fn the_earlier_place_counts() {
    let cut = format!("{BEFORE}{}", "(".repeat(17));
    assert_eq!(read(&cut), too_deep(BEFORE.len() + 17));
    assert_eq!(read(&format!("{cut}|")), too_deep(BEFORE.len() + 17));
    assert_wrong_if(&[&format!("{}|", "(".repeat(16)), &format!("{}|)", "(".repeat(16)), &format!("|=1 {}", nested(17))]);
    assert_wrong_if(&[
        &format!("{}A IN (|(", "(".repeat(16)),
        &format!("{}A=|(", "(".repeat(16)),
        &format!("{}AND|(", "(".repeat(16)),
    ]);
    // A relation that is good up to there, and a wrong one behind it.
    let second = format!("$VARCOND='A',{BEFORE}");
    assert_eq!(read(&format!("{second}{},|", nested(18))), too_deep(second.len() + 17));
}

// What binds first.

#[test]
fn and_before_or() {
    assert_eq!(condition("A=1 OR B=1 AND C=1"), condition("A = 1 or b=1 and c=1"));
    let single = |text: &str| match condition(text) {
        Condition::Any(mut any) => any.remove(0),
        other => panic!("{other:?}"),
    };
    let Condition::Any(parts) = condition("A=1 OR B=1 AND C=1 OR D=1") else { panic!("no OR") };
    assert_eq!(parts[0], single("A=1"));
    assert_eq!(parts[1], single("B=1 AND C=1"));
    assert_eq!(parts[2], single("D=1"));
    assert_eq!(parts.len(), 3);
}
