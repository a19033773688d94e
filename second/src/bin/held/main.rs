//! Holds another implementation against this one.
//!
//! `held [--seed N [--from N]] [--cases N | --seconds N] [--threads N] [--program PATH [--every N]]`
//!
//! Changes every byte of a small case to every value, and puts each known fault into a price file or
//! a book; then makes cases from the seed, which is a new one each time if none is given, runs every
//! call of each case through both implementations, and compares answers and lent memory. Every tenth
//! case has a price file beside it, and every fifth a relation. Built with the feature `archive` the other implementation is the
//! linked archive, otherwise this library itself. If the path of a calendar program is given, its
//! output is compared as well, in every 100th case or as often as asked for.
//!
//! With `--from` the cases of the seed start at that one, so that one case can be run again alone.
//!
//! At the first difference the case is made smaller and its inputs are printed, and the exit code
//! is 1. It is 1 as well if a number that a call can give has not come up.

mod base;
mod compared;
mod price_file;
mod relation;

use std::path::{Path, PathBuf};
use std::process::ExitCode;
use std::sync::atomic::{AtomicBool, AtomicU64, Ordering::Relaxed};
use std::thread;
use std::time::{Duration, Instant, SystemTime, UNIX_EPOCH};

use second::cases::{sweep, Case};
use second::counts::Counts;
use second::file_cases::{sweep_files, FileCase};
use second::file_faults::faults;
use second::relation_cases::{sweep_relations, RelationCase};

use compared::{show, Compared};

const USAGE: &str = "usage: held [--seed N [--from N]] [--cases N | --seconds N] [--threads N] [--program PATH [--every N]]";

/// So often a case has a price file beside it.
const FILE_EVERY: u64 = 10;

/// So often a case has a relation beside it.
const RELATION_EVERY: u64 = 5;

struct Arguments {
    seed: u64,
    from: u64,
    cases: u64,
    longest: Duration,
    threads: u64,
    program: Option<PathBuf>,
    every: u64,
}

fn arguments() -> Option<Arguments> {
    let mut arguments = Arguments {
        seed: fresh_seed(),
        from: 0,
        cases: u64::MAX,
        longest: Duration::MAX,
        threads: thread::available_parallelism().map_or(1, |count| count.get() as u64),
        program: None,
        every: 100,
    };
    let mut words = std::env::args().skip(1);
    while let Some(word) = words.next() {
        let value = words.next()?;
        let number = value.parse();
        match word.as_str() {
            "--seed" => arguments.seed = number.ok()?,
            "--from" => arguments.from = number.ok()?,
            "--cases" => arguments.cases = number.ok()?,
            "--seconds" => arguments.longest = Duration::from_secs(number.ok()?),
            "--threads" => arguments.threads = number.ok().filter(|&count| count > 0)?,
            "--program" => arguments.program = Some(PathBuf::from(value)),
            "--every" => arguments.every = number.ok().filter(|&every| every > 0)?,
            _ => return None,
        }
    }
    let ends = arguments.cases != u64::MAX || arguments.longest != Duration::MAX;
    ends.then_some(arguments)
}

fn fresh_seed() -> u64 {
    SystemTime::now().duration_since(UNIX_EPOCH).map_or(0, |since| since.as_nanos() as u64)
}

// All cases.

/// What the threads of a run share.
struct Run {
    next: AtomicU64,
    done: AtomicU64,
    differs: AtomicBool,
    started: Instant,
}

impl Run {
    fn new() -> Self {
        Run { next: AtomicU64::new(0), done: AtomicU64::new(0), differs: AtomicBool::new(false), started: Instant::now() }
    }

    /// Compares a case; only the first thread that meets a difference shows it.
    fn one<C: Compared>(&self, name: &str, case: &C, program: Option<&Path>, counts: &mut Counts) {
        match case.held(program, counts) {
            Ok(()) => _ = self.done.fetch_add(1, Relaxed),
            Err(differ) if !self.differs.swap(true, Relaxed) => show(name, case, &*differ),
            Err(_) => {}
        }
    }

    /// The cases that this thread takes, one after the other, until there is none or the time is up.
    fn take_cases(&self, arguments: &Arguments) -> Counts {
        let mut counts = Counts::default();
        while !self.differs.load(Relaxed) && self.started.elapsed() < arguments.longest {
            let taken = self.next.fetch_add(1, Relaxed);
            if taken >= arguments.cases {
                break;
            }
            let index = arguments.from + taken;
            let in_turn = index % arguments.every == 0;
            let other_program = arguments.program.as_deref().filter(|_| in_turn);
            let name = format!("case {index} of seed {}", arguments.seed);
            self.one(&name, &Case::generate(arguments.seed, index), other_program, &mut counts);
            if index % FILE_EVERY == 0 {
                let case = FileCase::generate(arguments.seed, index / FILE_EVERY);
                self.one(&format!("the price file of {name}"), &case, None, &mut counts);
            }
            if index % RELATION_EVERY == 0 {
                let case = RelationCase::generate(arguments.seed, index / RELATION_EVERY);
                self.one(&format!("the relation of {name}"), &case, None, &mut counts);
            }
        }
        counts
    }

    /// A line a minute, until the threads have ended.
    fn watch(&self, ended: impl Fn() -> bool) {
        let mut minutes = 0;
        while !ended() {
            thread::sleep(Duration::from_millis(100));
            if self.started.elapsed().as_secs() / 60 > minutes {
                minutes += 1;
                println!("{minutes} min: {} cases agree", self.done.load(Relaxed));
            }
        }
    }
}

/// Every value of every byte of a small case, of its price file and of its book to write one from, of its relation with what stands
/// beside it, and all known faults of price files and books.
fn known_cases_agree() -> bool {
    all_agree("every value of every byte of a small case", sweep().map(|case| (String::new(), case)))
        && all_agree(
            "every value of every byte of a small price file and its book",
            sweep_files().map(|case| (String::new(), case)),
        )
        && all_agree(
            "every value of every byte of a small relation, its properties and its question",
            sweep_relations().map(|case| (String::new(), case)),
        )
        && all_agree("known faults of price files", faults().map(|fault| (fault.what, fault.case)))
}

/// Compares one case after the other, each with its name, until two implementations differ.
fn all_agree<C: Compared>(what: &str, cases: impl Iterator<Item = (String, C)>) -> bool {
    let run = Run::new();
    for (index, (name, case)) in cases.enumerate() {
        run.one(&format!("{what}: case {index} {name}"), &case, None, &mut Counts::default());
        if run.differs.load(Relaxed) {
            return false;
        }
    }
    println!("{what}: {} cases agree", run.done.into_inner());
    true
}

fn random_cases_agree(arguments: &Arguments) -> bool {
    let run = Run::new();
    let mut counts = Counts::default();
    thread::scope(|scope| {
        let threads: Vec<_> = (0..arguments.threads).map(|_| scope.spawn(|| run.take_cases(arguments))).collect();
        run.watch(|| threads.iter().all(|thread| thread.is_finished()));
        for thread in threads {
            counts.add(&thread.join().expect("a thread that compares does not panic"));
        }
    });
    let seconds = run.started.elapsed().as_secs();
    let done = run.done.into_inner();
    println!("{done} cases of seed {} agree; {seconds} s", arguments.seed);
    if run.differs.into_inner() {
        return false;
    }
    for line in counts.table() {
        println!("{line}");
    }
    let complaints = counts.complaints();
    for complaint in &complaints {
        println!("{complaint}");
    }
    complaints.is_empty()
}

fn main() -> ExitCode {
    let Some(arguments) = arguments() else {
        eprintln!("{USAGE}");
        return ExitCode::from(2);
    };
    println!("seed {}", arguments.seed);
    if known_cases_agree() && random_cases_agree(&arguments) {
        ExitCode::SUCCESS
    } else {
        ExitCode::FAILURE
    }
}
