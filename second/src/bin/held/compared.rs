//! What a case has to be able to do to be compared, and how a case on which the implementations differ is shown.

use std::fmt::Debug;
use std::path::Path;

use second::compare::Difference;
use second::counts::Counts;

/// How a difference is seen, also in a smaller case.
pub type Differ<C> = Box<dyn Fn(&C) -> Option<Difference>>;

/// A case for some of the calls.
pub trait Compared: Debug + Sized {
    /// Compares all these calls, and the other program if one is given, and counts the numbers.
    fn held(&self, other_program: Option<&Path>, counts: &mut Counts) -> Result<(), Differ<Self>>;

    /// The case made smaller while something stays true of it.
    fn shrunk(&self, still: &dyn Fn(&Self) -> bool) -> Self;

    /// Prints what the call gets.
    fn print_inputs(&self, call: &str);
}

/// Prints the beginning of a text; the seed and the number of the case give the whole.
pub fn print_clipped(label: &str, text: &str) {
    const LONGEST: usize = 20_000;
    match text.char_indices().nth(LONGEST) {
        Some((end, _)) => println!("{label:<9} {} ...", &text[..end]),
        None => println!("{label:<9} {text}"),
    }
}

/// Makes a case on which the implementations differ smaller, and prints it with its inputs.
pub fn show<C: Compared>(name: &str, case: &C, differ: &dyn Fn(&C) -> Option<Difference>) {
    println!("{name} differs; as small as it was made:");
    let small = case.shrunk(&|case| differ(case).is_some());
    let Some(difference) = differ(&small) else {
        println!("the difference was seen once and not again");
        return;
    };
    print_clipped("call", &difference.call);
    print_clipped("ours", &difference.ours);
    print_clipped("theirs", &difference.theirs);
    small.print_inputs(&difference.call);
    print_clipped("made of", &format!("{small:?}"));
}
