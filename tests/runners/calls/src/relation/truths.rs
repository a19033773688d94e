//! Conditions over the desk: comparisons, SPECIFIED, IN, and truth of three values. A name is granted only where its condition is
//! plainly true.

use super::{derives, granted, lost, nothing, under, Vector};
use crate::parts::{ask, DAY};

pub fn vectors() -> Vec<Vector> {
    [strings(), numbers(), signs(), unlike(), tables(), lists(), order(), touching()].concat()
}

/// Conditions that are true and their opposites, which are then false; neither is undefined.
fn either_way(conditions: &[&str]) -> Vec<Vector> {
    let both = |condition: &&str| [granted(condition), lost(&format!("NOT {condition}"))];
    conditions.iter().flat_map(both).collect()
}

/// Conditions that are undefined, and so are their opposites.
fn undefined(conditions: &[&str]) -> Vec<Vector> {
    let both = |condition: &&str| [lost(condition), lost(&format!("NOT {condition}"))];
    conditions.iter().flat_map(both).collect()
}

fn strings() -> Vec<Vector> {
    either_way(&[
        "COLOUR='rot'",
        "colour='ROT'",
        "'RoT'=coLOUR",
        "COLOUR<>'rott'",
        "COLOUR<'rott'",
        "COLOUR>'ro'",
        "COLOUR>''",
        "COLOUR<'S'",
        "COLOUR<'s'",
        "COLOUR=COLOUR",
        "COLOUR<'[' ",
        "COLOUR<'\u{fc}'",
        "STAIN='gr\u{fc}n'",
        "'GR\u{dc}N'=STAIN",
        "STAIN IN ('blau','gr\u{dc}n')",
        "MARKS='\u{df}\u{f7}\u{ff}'",
        "MARKS<>'\u{bf}\u{f7}\u{ff}'",
        "MARKS<>'\u{df}\u{d7}\u{ff}'",
        "MARKS<>'\u{df}\u{f7}\u{df}'",
        "'900'>'1000'",
        "'A'<'a'",
        "'A'<>'a'",
        "'Z'<'a'",
        "''=''",
        "''<' '",
        "'\u{dc}'<>'\u{fc}'",
        "'a\nb'='a\nb'",
        "'\"'='\"'",
    ])
}

fn numbers() -> Vec<Vector> {
    either_way(&[
        "WIDTH=900",
        "WIDTH=0900",
        "WIDTH<>-900",
        "WIDTH>-900",
        "-5<-4",
        "-5<0",
        "-0=0",
        "900<1000",
        "WIDTH<1000",
        "999999999999999999>999999999999999998",
        "-999999999999999999<-999999999999999998",
        "-1<1",
        "000000000000000007=7",
    ])
}

fn signs() -> Vec<Vector> {
    either_way(&[
        "1<2", "1 LT 2", "1<=2", "2<=2", "2 LE 2", "2=2", "2 EQ 2", "1<>2", "1 NE 2", "2=>2", "3=>2", "2>=2", "3 GE 2", "3>2",
        "3 GT 2", "2 lt 3", "2 gE 2", "NOT 2<2", "NOT 2>2", "NOT 3<=2", "NOT 1>=2", "NOT 1=>2", "NOT 2<>2",
    ])
}

/// A property without a value, one that is not listed, and a string beside a number.
fn unlike() -> Vec<Vector> {
    let mut all = undefined(&[
        "FINISH='OIL'",
        "FINISH<>'OIL'",
        "HEIGHT=1",
        "1=HEIGHT",
        "HEIGHT=HEIGHT",
        "FINISH=HEIGHT",
        "WIDTH='900'",
        "WIDTH<>'900'",
        "'900'=WIDTH",
        "COLOUR<1",
        "1='1'",
        "'A'>1",
        "COLOUR=WIDTH",
        "COLOUR=FINISH",
        "HEIGHT IN (1)",
    ]);
    all.extend(either_way(&["SPECIFIED WIDTH", "specified colour", "NOT SPECIFIED FINISH", "NOT SPECIFIED HEIGHT"]));
    all
}

/// Every pair of true, false and undefined.
fn tables() -> Vec<Vector> {
    let truths = [("1=1", Some(true)), ("1=2", Some(false)), ("HEIGHT=1", None)];
    let pairs = truths.iter().flat_map(|one| truths.iter().map(move |other| (one, other)));
    pairs
        .flat_map(|((left, x), (right, y))| {
            let either = if *x == Some(true) || *y == Some(true) { Some(true) } else { x.and(*y) };
            let both = if *x == Some(false) || *y == Some(false) { Some(false) } else { x.and(*y) };
            [told(&format!("{left} OR {right}"), either), told(&format!("{left} AND {right}"), both)].concat()
        })
        .collect()
}

/// A condition by its truth: it grants a name if it is true, and its opposite does if it is false.
fn told(condition: &str, truth: Option<bool>) -> Vec<Vector> {
    let opposite = format!("NOT ({condition})");
    let plainly = |condition: &str, so: bool| if so { granted(condition) } else { lost(condition) };
    vec![plainly(condition, truth == Some(true)), plainly(&opposite, truth == Some(false))]
}

fn lists() -> Vec<Vector> {
    [
        either_way(&[
            "WIDTH IN (900)",
            "WIDTH IN (1,900,2)",
            "WIDTH IN ('900',900)",
            "WIDTH IN (900,'900')",
            "COLOUR IN('blau','ROT')",
            "NOT COLOUR IN ('blau', 'gelb')",
            "NOT WIDTH IN (-900)",
        ]),
        undefined(&["WIDTH IN ('900')", "WIDTH IN ('900',800)", "WIDTH IN (800,'900')", "FINISH IN ('OIL','WAX')"]),
    ]
    .concat()
}

/// AND before OR, NOT before both, parentheses before all.
fn order() -> Vec<Vector> {
    vec![
        granted("1=2 AND 1=2 OR 1=1"),
        granted("1=1 OR 1=1 AND 1=2"),
        lost("1=2 AND (1=2 OR 1=1)"),
        lost("(1=1 OR 1=1) AND 1=2"),
        granted("1=2 OR 1=1 AND 1=1 OR 1=2"),
        granted("NOT 1=2 AND 1=1"),
        granted("NOT 1=1 OR 1=1"),
        lost("NOT (1=2 OR 1=1)"),
        granted("NOT NOT 1=1"),
        lost("NOT NOT NOT 1=1"),
        granted("NOT(NOT(1=1))"),
        granted("HEIGHT=1 AND 1=2 OR 1=1"),
        lost("HEIGHT=1 OR 1=1 AND 1=2"),
        granted("((((((((((((((((1=1))))))))))))))))"),
        granted("((((((((((((((((WIDTH IN (900)))))))))))))))))"),
        granted("(((1=1) AND (1=1)) OR ((1=2)))"),
        granted(&format!("{}1=1", "NOT ".repeat(1_000))),
    ]
}

/// Tokens that touch, blanks of every sort, words in any letters, and names that begin with a word.
fn touching() -> Vec<Vector> {
    let plain = |shows, relation, names: &[&str]| derives(shows, &ask(DAY), &nothing(), relation, names);
    vec![
        granted("COLOUR='rot'AND 1=1AND(1=1)OR'A'='B'"),
        granted("not(COLOUR<>'rot')and NOT 1=2"),
        granted("\t\r\n1\n=\r1\t \n"),
        granted("_=1 OR AND_1=2 OR ifs=3 OR SPECIFIEDS='A' OR NOTWIDTH=4 OR 1=1"),
        granted("NOT SPECIFIED NOT_ AND NOT SPECIFIED _0"),
        plain("no blank at all", "$VARCOND='A'IF(1=1),$VARCOND='B'", &["A", "B"]),
        plain("blanks around everything", " $VARCOND \n = \t 'A' \r IF 1 = 1 , $VARCOND = 'B' ", &["A", "B"]),
        plain("words in any letters", "$varcond='A'if 1=1,$VarCond='B'If 1 eQ 1", &["A", "B"]),
        derives(
            "a name that is 300 letters long",
            &ask(DAY),
            &nothing(),
            &under(&format!("NOT SPECIFIED {}", "N".repeat(300))),
            &["X"],
        ),
    ]
}
