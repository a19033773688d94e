//! Where a relation is refused: 14 at the first byte that no relation has there, 15 at a parenthesis that is too deep, 16 at an
//! assignment whose name no question can grant.

use super::{derives, nothing, refused, under, Vector, DEEP, UNFIT, WRONG};
use crate::parts::{ask, DAY};

pub fn vectors() -> Vec<Vector> {
    [assignments(), conditions(), tokens(), every_cut(), deep(), unfit(), before_the_name()].concat()
}

fn assignments() -> Vec<Vector> {
    [
        ("", 1),
        (" \n", 3),
        ("$", 2),
        ("$VARCON", 8),
        ("$VARCOND", 9),
        ("$VARCOND=", 10),
        ("$VARCOND='", 11),
        ("$VARCOND='A", 12),
        ("VARCOND='A'", 1),
        ("$BAN='A'", 2),
        ("$VARCONDX='A'", 9),
        ("$VARCOND_='A'", 9),
        ("$VARCOND1='A'", 9),
        ("$ VARCOND='A'", 2),
        ("$VARCOND EQ 'A'", 10),
        ("$VARCOND=='A'", 10),
        ("$VARCOND=1", 10),
        ("$VARCOND=A", 10),
        ("$VARCOND=\"A\"", 10),
        ("$VARCOND='A',", 14),
        ("$VARCOND='A', ", 15),
        ("$VARCOND='A',,$VARCOND='B'", 14),
        ("$VARCOND='A'$VARCOND='B'", 13),
        ("$VARCOND='A';", 13),
        ("$VARCOND='A'.", 13),
        ("$VARCOND='A'\0", 13),
        ("$VARCOND='A'\u{a0}", 13),
        ("$VARCOND='A' I", 15),
        ("$VARCOND='A' IF", 16),
        ("$VARCOND='A' IF ", 17),
        ("$VARCOND='A' IFA=1", 16),
        ("$VARCOND='A' IN", 15),
        ("#", 1),
        ("$VARCOND='A' 1", 14),
        ("$VARCOND='A''B'", 13),
        ("A=1", 1),
        ("$VARCOND='A' IF 1=1 IF 1=1", 21),
    ]
    .map(|(relation, place)| refused(relation, WRONG, place))
    .to_vec()
}

/// Each by its place in the condition.
fn conditions() -> Vec<Vector> {
    [
        ("AND", 4),
        ("AND ", 4),
        ("and=1", 4),
        ("NE=1", 3),
        ("BAN=1", 4),
        ("SET_PCKG_FACTOR=1", 16),
        ("SET_PRICING_FACTOR=1", 19),
        ("IF 1=1", 3),
        ("A", 2),
        ("A ", 3),
        ("A B", 3),
        ("A 'B'", 3),
        ("A 1", 3),
        ("A(", 2),
        ("A=", 3),
        ("A=AND", 6),
        ("A==1", 3),
        ("A=<1", 3),
        ("A<=>1", 4),
        ("A< =1", 4),
        ("A!=1", 2),
        ("A LESS 1", 5),
        ("A LT5", 5),
        ("A L", 4),
        ("A G T", 4),
        ("A EQB", 5),
        ("A I", 4),
        ("A IS 1", 4),
        ("A IN", 5),
        ("A IN 1", 6),
        ("A IN (", 7),
        ("A IN ()", 7),
        ("A IN (B)", 7),
        ("A IN (1", 8),
        ("A IN (1,", 9),
        ("A IN (1,)", 9),
        ("A IN (1 2)", 9),
        ("A IN ('B)", 10),
        ("A IN ((1))", 7),
        ("A INS (1)", 5),
        ("1 IN (1)", 3),
        ("'A' IN ('A')", 5),
        ("SPECIFIED", 10),
        ("SPECIFIED ", 11),
        ("SPECIFIED (A)", 11),
        ("SPECIFIED 'A'", 11),
        ("SPECIFIED NOT A", 14),
        ("NOT", 4),
        ("NOT)", 4),
        ("NOT AND", 8),
        ("(", 2),
        ("()", 2),
        ("(A)", 3),
        ("(A=1", 5),
        ("A=1)", 4),
        ("(A=1))", 6),
        ("(A=1,", 5),
        ("A=1 AND", 8),
        ("A=1 AN", 7),
        ("A=1 ANB=1", 7),
        ("A=1 AND5=5", 8),
        ("A=1 ORB=1", 7),
        ("A=1 XOR B=1", 5),
        ("A=1 B=1", 5),
        ("A=1 (B=1)", 5),
        ("A=1 NOT B=1", 5),
        ("A=1 1", 5),
        ("A=1.5", 4),
        ("A=1+1", 4),
        ("A=1 OR OR", 10),
        ("A=B=C", 4),
        ("A=\u{fc}", 3),
        ("\u{fc}=1", 1),
        ("A\u{fc}=1", 2),
        ("TRUE", 5),
        ("A=-", 4),
        ("A=- 1", 4),
        ("A=--1", 4),
        ("A=+1", 3),
        ("-", 2),
        ("-A=1", 2),
        ("A=1-", 4),
        ("A='B", 5),
        ("A='B\n", 6),
        ("$VARCOND='B'", 1),
        ("A=$VARCOND", 3),
        ("A=1,", 5),
        ("A=1,B=1", 5),
    ]
    .map(|(condition, place)| refused(&under(condition), WRONG, 16 + place))
    .to_vec()
}

fn tokens() -> Vec<Vector> {
    let nineteen = "1234567890123456789";
    vec![
        refused(&under(&format!("A={nineteen}")), WRONG, 16 + 21),
        refused(&under(&format!("A=-{nineteen}")), WRONG, 16 + 22),
        refused(&under(&format!("A={}", "0".repeat(500))), WRONG, 16 + 21),
        refused(&under(&format!("{nineteen}A")), WRONG, 16 + 19),
        refused(&under("A=123456789012345678B"), WRONG, 16 + 21),
        refused(&under("A=123456789012345678A"), WRONG, 16 + 22),
        refused(&under("NOTE NOT"), WRONG, 16 + 7),
        refused("\n\n$VARCOND\n=\n'A'\n?", WRONG, 18),
    ]
}

/// A relation cut behind each of its bytes: the place is one past the end, but where what is left is a relation.
fn every_cut() -> Vec<Vector> {
    let first = "$VARCOND = 'A'";
    let [group, chain] = ["NOT (B IN (-1, 'C') OR SPECIFIED D)", "AND 'E' GE F"];
    let whole = format!("{first} IF {group} {chain}, $VARCOND='G'");
    let granted = |relation: &str| match relation.trim_end() {
        one if one == first => Some(vec!["A"]),
        one if one == format!("{first} IF {group}") || one == format!("{first} IF {group} {chain}") => Some(vec![]),
        one if one == whole => Some(vec!["G"]),
        _ => None,
    };
    let cut = |length: usize| {
        let (front, shows) = (&whole[..length], format!("cut behind byte {length}"));
        match granted(front) {
            Some(names) => derives(&shows, &ask(DAY), &nothing(), front, &names),
            None => Vector { shows, ..refused(front, WRONG, length as u64 + 1) },
        }
    };
    (0..=whole.len()).map(cut).collect()
}

fn deep() -> Vec<Vector> {
    let open = |count: usize| under(&"(".repeat(count));
    vec![
        refused(&open(16), WRONG, 16 + 17),
        refused(&open(17), DEEP, 16 + 17),
        refused(&open(100), DEEP, 16 + 17),
        refused(&format!("{}1=1{}", open(17), ")".repeat(17)), DEEP, 16 + 17),
        refused(&format!("{}1=1 AND (", open(16)), DEEP, 16 + 17 + 8),
        refused(&format!("{}NOT (", open(16)), DEEP, 16 + 17 + 4),
        refused(&format!("{}A=1) (", open(16)), WRONG, 16 + 17 + 5),
        refused(&format!("{}A=1) OR ((", open(16)), DEEP, 16 + 17 + 9),
        refused(&format!("{}A (", open(16)), WRONG, 16 + 17 + 2),
        refused(&format!("{}SPECIFIED (", open(16)), WRONG, 16 + 17 + 10),
        refused(&format!("{}?", open(17)), DEEP, 16 + 17),
        refused(&format!("? {}", open(17)), WRONG, 1),
        refused(&format!("$VARCOND='' IF 1=1, {}", open(17)), DEEP, 20 + 16 + 17),
        refused(&format!("{}\n(", open(16)), DEEP, 16 + 18),
    ]
}

fn unfit() -> Vec<Vector> {
    let many = |count: usize| vec!["$VARCOND='A'"; count].join(",");
    let of = |shows, relation: &str, names: &[&str]| derives(shows, &ask(DAY), &nothing(), relation, names);
    vec![
        refused("$VARCOND=''", UNFIT, 1),
        refused("\n $VARCOND=''", UNFIT, 3),
        refused("$VARCOND='ABCDEFGHIJKLMNOPQRSTU'", UNFIT, 1),
        refused("$VARCOND='A\tB'", UNFIT, 1),
        refused("$VARCOND='A\u{7f}'", UNFIT, 1),
        refused("$VARCOND='\u{9f}'", UNFIT, 1),
        refused("$VARCOND='a',$VARCOND=''", UNFIT, 14),
        refused("$VARCOND='' IF 1=2,$VARCOND='',$VARCOND='\n'", UNFIT, 20),
        refused(&many(33), UNFIT, 32 * 13 + 1),
        refused(&format!("{},$VARCOND=''", many(32)), UNFIT, 32 * 13 + 1),
        refused(&format!("$VARCOND='',{}", many(33)), UNFIT, 1),
        of("what is not granted is not judged", "$VARCOND='' IF 1=2,$VARCOND='A\n' IF HEIGHT=1,$VARCOND='A'", &["A"]),
        of("32 names", &many(32), &["A"; 32]),
        of("32 names, and one that is not granted", &format!("{},$VARCOND='B' IF 1=2", many(32)), &["A"; 32]),
    ]
}

/// A relation is read to its end before a name is judged.
fn before_the_name() -> Vec<Vector> {
    vec![
        refused("$VARCOND='',", WRONG, 13),
        refused("$VARCOND='', $VARCOND=1", WRONG, 23),
        refused(&format!("$VARCOND='',{}", under(&"(".repeat(17))), DEEP, 12 + 16 + 17),
    ]
}
