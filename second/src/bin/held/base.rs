//! A case of a book, questions and text books: the calls that take them, and the calendar program.

use std::io::{Read, Write};
use std::path::Path;
use std::process::{Command, Stdio};
use std::thread;

use second::calls::{Calls, THEIRS};
use second::cases::{Case, Inputs};
use second::compare::{compare, hex, Call, Difference, Plan, ALL_CALLS};
use second::counts::Counts;
use second::program;
use second::shrink::shrunk;

use crate::compared::{print_clipped, Compared, Differ};

/// The number at the end of `refusal n`, or 0 for a printed calendar.
fn printed_number(printed: &[u8]) -> u8 {
    String::from_utf8_lossy(printed).strip_prefix("refusal ").and_then(|rest| rest.trim_end().parse().ok()).unwrap_or(0)
}

/// Runs the other program on an input.
fn run_program(path: &Path, input: &[u8]) -> std::io::Result<Vec<u8>> {
    let mut child = Command::new(path).stdin(Stdio::piped()).stdout(Stdio::piped()).spawn()?;
    let mut stdin = child.stdin.take().expect("stdin was asked for");
    let input = input.to_vec();
    // The program may stop reading early, so a failed write says nothing.
    let feeder = thread::spawn(move || {
        let _ = stdin.write_all(&input);
    });
    let mut printed = Vec::new();
    let mut stdout = child.stdout.take().expect("stdout was asked for");
    stdout.read_to_end(&mut printed)?;
    child.wait()?;
    feeder.join().expect("the feeding thread does not panic");
    Ok(printed)
}

fn compare_program(path: &Path, inputs: &Inputs) -> Option<Difference> {
    let ours = program(&inputs.program);
    let (printed, same) = match run_program(path, &inputs.program) {
        Ok(printed) => (String::from_utf8_lossy(&printed).into_owned(), printed == ours),
        Err(error) => (format!("cannot be run: {error}"), false),
    };
    (!same).then(|| Difference { call: "program".to_string(), ours: String::from_utf8_lossy(&ours).into_owned(), theirs: printed })
}

fn compare_call(call: Call, theirs: &dyn Calls, case: &Case) -> Option<Difference> {
    let inputs = case.inputs();
    compare(call, theirs, &inputs, Plan::of(case, &inputs).sizes).1
}

impl Compared for Case {
    fn held(&self, other_program: Option<&Path>, counts: &mut Counts) -> Result<(), Differ<Case>> {
        let inputs = self.inputs();
        let plan = Plan::of(self, &inputs);
        for call in ALL_CALLS {
            let (outcome, difference) = compare(call, &THEIRS, &inputs, plan.sizes);
            if difference.is_some() {
                return Err(Box::new(move |case| compare_call(call, &THEIRS, case)));
            }
            counts.call(call, outcome.answer.number());
        }
        for stretch in plan.stretches {
            counts.stretch(stretch.refusal);
        }
        for number in plan.questions {
            counts.question(number);
        }
        counts.program(printed_number(&program(&inputs.program)));
        if let Some(path) = other_program {
            if compare_program(path, &inputs).is_some() {
                let path = path.to_path_buf();
                return Err(Box::new(move |case| compare_program(&path, &case.inputs())));
            }
        }
        Ok(())
    }

    fn shrunk(&self, still: &dyn Fn(&Case) -> bool) -> Case {
        shrunk(self, still)
    }

    fn print_inputs(&self, call: &str) {
        let inputs = self.inputs();
        if call == "program" {
            print_clipped("input", &hex(&inputs.program));
        } else if call.starts_with(Call::Text.name()) {
            print_clipped("asked", &hex(&inputs.asked));
            print_clipped("fallback", &hex(&inputs.fallback));
            println!("{:<9} {}", "number", inputs.text_number);
        } else if call.starts_with(Call::Basket.name()) {
            print_clipped("book", &hex(&inputs.book));
            print_clipped("questions", &hex(&inputs.basket));
        } else {
            print_clipped("book", &hex(&inputs.book));
            print_clipped("question", &hex(&inputs.question));
            println!("{:<9} {}", "end", inputs.end);
        }
    }
}
