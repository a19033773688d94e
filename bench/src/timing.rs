//! Best times of several functions on one input, and the table that shows them. No time is judged here.

use std::hint::black_box;
use std::time::{Duration, Instant};

type Run<'a> = dyn Fn(&[u8]) -> u64 + 'a;

/// What is timed. Its turn comes in the first round and then in every so-many-th: a slow one goes less often.
pub struct Subject<'a> {
    every: usize,
    run: Box<Run<'a>>,
}

impl<'a> Subject<'a> {
    pub fn new(every: usize, run: impl Fn(&[u8]) -> u64 + 'a) -> Subject<'a> {
        Subject { every, run: Box::new(run) }
    }
}

/// The best time of each subject. They take turns, so that a slower or faster while of the machine meets all of them alike.
pub fn best_times(subjects: &[Subject], input: &[u8], rounds: usize) -> Vec<Duration> {
    let mut best = vec![Duration::MAX; subjects.len()];
    for round in 0..rounds {
        for (subject, best) in subjects.iter().zip(&mut best) {
            if round % subject.every == 0 {
                let start = Instant::now();
                black_box((subject.run)(black_box(input)));
                *best = start.elapsed().min(*best);
            }
        }
    }
    best
}

/// A row of the table of figures: what was timed on what, the times of a, b and c, what a plain pass over the same book takes, and what
/// else is to be said.
pub struct Row {
    pub call: &'static str,
    pub input: String,
    pub size: String,
    pub times: [Duration; 3],
    pub pass: Option<Pass>,
    pub beside: String,
}

/// A book's records, and the time of its byte sum.
#[derive(Clone, Copy)]
pub struct Pass {
    pub records: usize,
    pub time: Duration,
}

/// The plain pass: every byte is read once, and next to nothing is done with it.
pub fn byte_sum(book: &[u8]) -> u64 {
    book.iter().map(|&byte| u64::from(byte)).sum()
}

/// The table of all figures, in Markdown.
pub fn print_table(rows: &[Row]) {
    println!("\n| call | input | size | a | b | c | c/a | c/b | c, a record | c/pass | beside |");
    println!("|---|---|---|---:|---:|---:|---:|---:|---:|---:|---|");
    for row in rows {
        let [a, b, c] = row.times;
        let times = row.times.map(milliseconds).join(" | ");
        let (by_a, by_b) = (ratio(c, a), ratio(c, b));
        let (each, by_pass) = row.pass.map_or_else(Default::default, |pass| (nanoseconds(c, pass.records), ratio(c, pass.time)));
        println!(
            "| {} | {} | {} | {times} | {by_a} | {by_b} | {each} | {by_pass} | {} |",
            row.call, row.input, row.size, row.beside
        );
    }
}

fn nanoseconds(time: Duration, records: usize) -> String {
    format!("{:.1} ns", time.as_secs_f64() * 1e9 / records as f64)
}

fn milliseconds(time: Duration) -> String {
    format!("{:.2} ms", time.as_secs_f64() * 1e3)
}

/// Megabytes in a second.
pub fn speed(bytes: usize, time: Duration) -> String {
    format!("{:.0}", bytes as f64 / time.as_secs_f64() / 1e6)
}

/// The first time as a multiple of the second.
pub fn ratio(time: Duration, other: Duration) -> String {
    let ratio = time.as_secs_f64() / other.as_secs_f64();
    if ratio < 0.1 {
        format!("{ratio:.4}")
    } else {
        format!("{ratio:.2}")
    }
}
