//! Relations for the benchmark: one as a maker writes it, and long ones. A question has room for 32 names, so most assignments grant
//! none.

use crate::dice::Dice;
use second::make::{self, Listed};

/// A relation, and the properties that it is judged by.
pub struct Relation {
    pub what: &'static str,
    pub text: Vec<u8>,
    pub properties: Vec<u8>,
    pub assignments: usize,
}

// As a maker writes it.

/// Five of its ten names are granted: the first five conditions of a catalogue.
const MAKERS_TEXT: &[u8] = b"\
$VARCOND = 'OAK0'     IF WOOD = 'OAK',
$VARCOND = 'CHROME6'  IF BASE = 'CHROME' AND NOT SPECIFIED CASTORS,
$VARCOND = 'ASH1'     IF EDGE IN ('ASH', 'ASH_OILED', 'ASH_WHITE') AND DEPTH >= 800,
$VARCOND = 'BEECH2'   IF WIDTH > 1800 OR WIDTH > 1200 AND DEPTH > 700,
$VARCOND = 'GLASS7'   IF TOP = 'GLASS' AND (WIDTH <= 1200 OR DEPTH < 700),
$VARCOND = 'STEEL3'   IF BASE = 'STEEL' AND (LOWEST <> HIGHEST OR SPECIFIED DRIVE),
$VARCOND = 'FELT5'    IF SCREEN IN ('FELT_GREY', 'FELT_GREEN', 'FELT_BLUE') AND WIDTH GE 1400,
$VARCOND = 'LEATHER4' IF COVER >= 'L1' AND COVER <= 'L9' AND SEATS > 0,
$VARCOND = 'OAK8'     IF WOOD = 'OAK' AND SURFACE = 'OILED' AND NOT (WIDTH < 1800 OR DEPTH < 900),
$VARCOND = 'ASH9'     IF CABLES NE 0 AND TOP IN ('LAMINATE', 'LINOLEUM')
";

pub fn makers() -> Relation {
    let properties = [
        Listed::text("WOOD", "Oak"),
        Listed::text("EDGE", "ASH_OILED"),
        Listed::text("TOP", "VENEER"),
        Listed::text("BASE", "Steel"),
        Listed::text("COVER", "L3"),
        Listed::text("SURFACE", "OILED"),
        Listed::none("SCREEN"),
        Listed::none("CASTORS"),
        Listed::number("WIDTH", 1_600),
        Listed::number("DEPTH", 800),
        Listed::number("LOWEST", 650),
        Listed::number("HIGHEST", 1_250),
        Listed::number("SEATS", 2),
        Listed::number("CABLES", 0),
    ];
    let properties = make::properties(&properties);
    Relation { what: "a maker's ten assignments", text: MAKERS_TEXT.to_vec(), properties, assignments: 10 }
}

// Long ones.

/// How a long relation is made.
pub struct Manner {
    what: &'static str,
    properties: Vec<Listed>,
    /// What an assignment asks for besides its series; AND may follow it.
    condition: fn(&mut Dice) -> String,
}

impl Manner {
    pub fn many_assignments() -> Manner {
        Manner { what: "many assignments", properties: properties(), condition: three_comparisons }
    }

    pub fn sixteen_deep() -> Manner {
        Manner { what: "conditions sixteen deep", properties: properties(), condition: |dice| nested(dice, 16) }
    }

    pub fn long_lists() -> Manner {
        Manner { what: "IN lists of 500", properties: properties(), condition: |dice| in_list(dice, 500) }
    }

    /// Those that conditions are about stand behind all others.
    pub fn many_properties() -> Manner {
        let named = properties();
        let others = (named.len()..64).map(|number| Listed::number(&format!("FITTING_{number}"), number as i64));
        let properties = others.chain(named).collect();
        Manner { what: "64 properties, the last of them named", properties, condition: three_comparisons }
    }
}

const WORDS: [&str; 8] = ["OAK", "ASH", "BEECH", "STEEL", "LEATHER", "FELT", "CHROME", "GLASS"];
const OF_WORDS: [&str; 5] = ["WOOD", "EDGE", "COVER", "BASE", "ARMREST"];
const OF_SIZES: [&str; 5] = ["WIDTH", "DEPTH", "HEIGHT", "SEAT_HEIGHT", "LENGTH"];
const SIGNS: [&str; 9] = ["=", "<>", "<", "<=", ">", ">=", "EQ", "LT", "GE"];
const SERIES: &str = "ALTO";
/// An assignment for another series than the article's grants nothing.
const OTHER_SERIES: [&str; 4] = ["BASSO", "TENOR", "VIOLA", "CELLO"];
const MOST_NAMES: usize = 32;

fn properties() -> Vec<Listed> {
    let words = OF_WORDS.iter().zip(WORDS).map(|(name, word)| Listed::text(name, word));
    let sizes = OF_SIZES.iter().map(|name| Listed::number(name, 1_200));
    words.chain(sizes).chain([Listed::none("SCREEN"), Listed::text("SERIES", SERIES)]).collect()
}

/// A relation of at least so many bytes. At 32 places, spread over the text, an assignment is for the article's series.
pub fn long(dice: &mut Dice, manner: &Manner, bytes: usize) -> Relation {
    let mut text = String::new();
    let (mut assignments, mut of_series) = (0, 0);
    while text.len() < bytes {
        let is_place = of_series < MOST_NAMES && text.len() >= of_series * bytes / MOST_NAMES;
        of_series += usize::from(is_place);
        let series = if is_place { SERIES } else { dice.one_of(&OTHER_SERIES) };
        let (comma, name) = (if assignments == 0 { "" } else { ",\n" }, WORDS[assignments % WORDS.len()]);
        let condition = (manner.condition)(dice);
        text += &format!("{comma}$VARCOND = '{name}{assignments}' IF {condition} AND SERIES = '{series}'");
        assignments += 1;
    }
    Relation { what: manner.what, text: text.into_bytes(), properties: make::properties(&manner.properties), assignments }
}

fn three_comparisons(dice: &mut Dice) -> String {
    let [one, other, third] = [(); 3].map(|()| comparison(dice));
    format!("({one} OR {other}) AND {third}")
}

/// A comparison within so many parentheses, with another one in each.
fn nested(dice: &mut Dice, deep: usize) -> String {
    let comparison = comparison(dice);
    if deep == 0 {
        return comparison;
    }
    let joint = dice.one_of(&["AND", "OR", "AND NOT", "OR NOT"]);
    format!("({comparison} {joint} {})", nested(dice, deep - 1))
}

/// At most the last of those listed is the property's value.
fn in_list(dice: &mut Dice, count: usize) -> String {
    if dice.index(2) == 0 {
        let listed: String = (1..count).map(|number| format!("'{}{number}', ", dice.one_of(&WORDS))).collect();
        format!("{} IN ({listed}'{}')", dice.one_of(&OF_WORDS), dice.one_of(&WORDS))
    } else {
        let listed: String = (1..count).map(|number| format!("{}, ", 1_200 + number)).collect();
        format!("{} IN ({listed}{})", dice.one_of(&OF_SIZES), dice.one_of(&[900, 1_200]))
    }
}

fn comparison(dice: &mut Dice) -> String {
    match dice.index(8) {
        0 => format!("SPECIFIED {}", dice.one_of(&["SCREEN", "ARMREST"])),
        1 => format!("SCREEN = '{}'", dice.one_of(&WORDS)),
        2 | 3 => format!("{} {} '{}'", dice.one_of(&OF_WORDS), dice.one_of(&["=", "<>"]), dice.one_of(&WORDS)),
        _ => format!("{} {} {}", dice.one_of(&OF_SIZES), dice.one_of(&SIGNS), dice.between(4, 24) * 100),
    }
}
