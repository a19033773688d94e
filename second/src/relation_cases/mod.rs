//! Makes cases for relations: a book, a question that grants nothing, properties beside it, a text, and how much room is lent.
//!
//! Book and question are those of a random case of prices; the names that its question granted are assigned by the text. The text
//! is made of tokens that are spelled with blanks and small letters here and there. A part of the texts is spoilt in a token, or
//! damaged once it is finished; the same goes for the properties.

mod conditions;
mod lists;
mod long;
mod spelling;
mod spoil;

pub use spelling::Token;

use crate::cases::{plain_case, Case, Damage, Room, Target};
use crate::make::{self, latin1, Granted, Listed, Question, Record};
use crate::random::Random;

#[derive(Debug, Clone)]
pub struct RelationCase {
    pub book: Vec<Record>,
    pub question: Question,
    pub properties: Vec<Listed>,
    /// The finished text, with its damages done.
    pub relation: Vec<u8>,
    /// Done to the other inputs once they are finished, in this order.
    pub damages: Vec<(Damaged, Damage)>,
    pub price_room: Room,
    pub derive_room: Room,
}

/// Which bytes are damaged.
#[derive(Debug, Clone, Copy, PartialEq, Eq)]
pub enum Damaged {
    Book,
    Question,
    Properties,
    Relation,
}

/// The bytes that the calls get.
#[derive(Debug, Clone, PartialEq, Eq)]
pub struct RelationInputs {
    pub book: Vec<u8>,
    pub question: Vec<u8>,
    pub properties: Vec<u8>,
    pub relation: Vec<u8>,
}

/// Draws the parts of one case.
pub struct RelationScene {
    random: Random,
    /// In so many of a hundred gaps blanks stand where none are needed.
    blanks: usize,
    /// So many of a hundred letters of words are small.
    small: usize,
    /// What the conditions are about.
    properties: Vec<Listed>,
}

impl RelationCase {
    /// The case of a seed and an index, now and then one with a very long text.
    pub fn generate(seed: u64, index: u64) -> RelationCase {
        let (mut scene, case) = RelationScene::of(seed, index);
        let mut case = scene.case(case);
        if index % 500 == 31 {
            case.relation = scene.long_relation();
        }
        case
    }

    /// The case of a seed and an index, its text never a very long one.
    pub fn generate_small(seed: u64, index: u64) -> RelationCase {
        let (mut scene, case) = RelationScene::of(seed, index);
        scene.case(case)
    }

    pub fn inputs(&self) -> RelationInputs {
        let damaged = |target: Damaged, mut bytes: Vec<u8>| {
            for (_, damage) in self.damages.iter().filter(|(at, _)| *at == target) {
                damage.apply(&mut bytes);
            }
            bytes
        };
        RelationInputs {
            book: damaged(Damaged::Book, make::book(&self.book)),
            question: damaged(Damaged::Question, make::question(&self.question)),
            properties: damaged(Damaged::Properties, make::properties(&self.properties)),
            relation: damaged(Damaged::Relation, self.relation.clone()),
        }
    }
}

// Every value of every byte.

/// A small case on which both calls succeed.
pub fn plain_relation_case() -> RelationCase {
    let case = plain_case();
    RelationCase {
        book: case.book,
        question: Question { granted: Vec::new(), ..case.question },
        properties: vec![Listed::text("Wood", "oak"), Listed::number("SIZE", -900), Listed::none("x")],
        relation: b"$VARCOND='oak' IF wood IN('OAK',1)AND NOT(size>=-9 OR SPECIFIED X),$Varcond = 'Ash'".to_vec(),
        damages: Vec::new(),
        price_room: Room::Longer(30),
        derive_room: Room::Longer(30),
    }
}

/// The plain case with one byte of one input changed, for every byte and every other value. Books are left out: the case that they
/// belong to has them.
pub fn sweep_relations() -> impl Iterator<Item = RelationCase> {
    let inputs = plain_relation_case().inputs();
    let lengths = [
        (Damaged::Question, inputs.question.len()),
        (Damaged::Properties, inputs.properties.len()),
        (Damaged::Relation, inputs.relation.len()),
    ];
    lengths.into_iter().flat_map(|(damaged, length)| (0..length * 256).map(move |step| (damaged, step))).map(|(damaged, step)| {
        let change = Damage::Change { place: step / 256, mask: (step % 256) as u8 };
        RelationCase { damages: vec![(damaged, change)], ..plain_relation_case() }
    })
}

// Random cases.

/// Assigned where the question granted too few names.
const NAMES: [&str; 6] = ["OAK", "ash", "Elm", "N1", "YEW", "ABCDEFGHIJKLMNOPQRST"];

/// None that a condition can have, and some that just can.
const BAD_NAMES: [&str; 8] = ["", "ABCDEFGHIJKLMNOPQRSTU", "\n", "A\0", "\u{1f}", "\u{7f}A", "\u{9f}", "\u{a0}"];

impl RelationScene {
    pub fn new(mut random: Random) -> Self {
        let blanks = random.pick(&[0, 5, 20, 100]);
        let small = random.pick(&[0, 0, 50, 100]);
        let mut scene = RelationScene { random, blanks, small, properties: Vec::new() };
        scene.properties = scene.list();
        scene
    }

    /// The scene of a seed and an index, and the case whose book and question it takes.
    fn of(seed: u64, index: u64) -> (RelationScene, Case) {
        (RelationScene::new(Random::stream(!seed, index)), Case::generate_small(seed, index))
    }

    fn case(&mut self, case: Case) -> RelationCase {
        let mut damages = taken_over(&case.damages);
        let mut properties = self.properties.clone();
        if self.random.percent(6) {
            self.spoil_list(&mut properties, &mut damages);
        }
        let relation = self.relation(&case.question.granted);
        let granted = if self.random.percent(3) { case.question.granted } else { Vec::new() };
        RelationCase {
            book: case.book,
            question: Question { granted, ..case.question },
            properties,
            relation,
            damages,
            price_room: case.rooms.price,
            derive_room: self.room(),
        }
    }

    fn room(&mut self) -> Room {
        let longer = Room::Longer(self.random.between(1, 40));
        let any = Room::Any(self.random.below(300));
        self.random.weighted(&[(45, Room::Exact), (12, Room::OneShort), (3, Room::Empty), (30, longer), (10, any)])
    }

    // The text.

    /// A text that assigns these names, good or not.
    fn relation(&mut self, granted: &[Granted]) -> Vec<u8> {
        let names = self.names(granted);
        let mut tokens = self.assignments(&names);
        if self.random.percent(12) {
            self.spoil_tokens(&mut tokens);
        }
        let mut text = self.spelled(&tokens);
        if self.random.percent(16) {
            self.spoil_text(&mut text);
        }
        text
    }

    /// Those that the question granted, as far as they can stand between quotes; sometimes too many or bad ones beside them.
    fn names(&mut self, granted: &[Granted]) -> Vec<Vec<u8>> {
        let quotable = |name: &Vec<u8>| !name.contains(&b'\'');
        let mut names: Vec<Vec<u8>> = granted.iter().map(|granted| granted.name.clone()).filter(quotable).collect();
        if names.is_empty() || self.random.percent(5) {
            names.extend((0..self.random.between(1, 3)).map(|_| latin1(self.random.pick(&NAMES))).collect::<Vec<_>>());
        }
        if self.random.percent(4) {
            let count = self.random.pick(&[31, 32, 33, 34, 40, 70]);
            names.extend((names.len()..count).map(|number| latin1(&format!("N{number}"))).collect::<Vec<_>>());
        }
        if self.random.percent(7) {
            let bad = latin1(self.random.pick(&BAD_NAMES));
            names.insert(self.random.below(names.len() + 1), bad);
        }
        names
    }

    /// An assignment for each name. Some are nested too deep, but nothing else is wrong with them.
    pub fn assignments(&mut self, names: &[Vec<u8>]) -> Vec<Token> {
        let conditioned = self.random.pick(&[0, 40, 80, 100]);
        let mut tokens = Vec::new();
        for name in names {
            if !tokens.is_empty() {
                tokens.push(Token::sign(","));
            }
            tokens.extend([Token::word("$VARCOND"), Token::sign("="), Token::Text(name.clone())]);
            if self.random.percent(conditioned) {
                tokens.push(Token::word("IF"));
                self.condition(&mut tokens, names.len());
            }
        }
        tokens
    }
}

/// The damages of a case of prices that hit the book or the question.
fn taken_over(damages: &[(Target, Damage)]) -> Vec<(Damaged, Damage)> {
    let taken_over = |(target, damage): &(Target, Damage)| match target {
        Target::Book => Some((Damaged::Book, damage.clone())),
        Target::Question => Some((Damaged::Question, damage.clone())),
        _ => None,
    };
    damages.iter().filter_map(taken_over).collect()
}
