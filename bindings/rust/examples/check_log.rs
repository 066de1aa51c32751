//! The logs of `examples/c/check_log.c`, of another product, a table that threads work on: five answered operations of
//! three workers, with the positions of their calls and answers as that product counts them. Worker 2 looks up account
//! 1000 while the others post to it, and finds the first post's total alone: the first order that explains that is
//! shown as the places of the operations in the log. In the second log each post was answered with its own amount, as
//! if the other had not been: no order explains that. A refusal ends the run with a line on standard error and exit
//! status 1.

use std::error::Error;
use std::io::{self, Write};
use std::process::ExitCode;

use totals::Operation::{Delete, Insert, Lookup, Post};
use totals::{check_log, Answer, Logged};

const CAPACITY: u64 = 4;
const DEPTH: u64 = 2;

const RIGHT: [Logged; 5] = [
    Logged { worker: 0, operation: Post(12500), account: 1000, answer: Answer::Posted(12500), call: 1, end: 4 },
    Logged { worker: 1, operation: Post(2900), account: 1000, answer: Answer::Posted(15400), call: 2, end: 6 },
    Logged { worker: 2, operation: Lookup, account: 1000, answer: Answer::Found(12500), call: 3, end: 5 },
    Logged { worker: 0, operation: Insert(4000), account: 1001, answer: Answer::Added, call: 7, end: 10 },
    Logged { worker: 1, operation: Delete, account: 1001, answer: Answer::Absent, call: 8, end: 9 },
];

/// Shows the verdict.
fn judge(out: &mut impl Write, title: &str, log: &[Logged]) -> Result<(), Box<dyn Error>> {
    let verdict = match check_log(log, CAPACITY, DEPTH)? {
        Some(order) => order.iter().fold("order".to_string(), |text, place| format!("{text} {place}")),
        None => "no".to_string(),
    };
    Ok(writeln!(out, "{title}: {verdict}")?)
}

fn judge_both() -> Result<(), Box<dyn Error>> {
    let mut out = io::stdout().lock();
    let mut lost = RIGHT;
    lost[1].answer = Answer::Posted(2900);
    judge(&mut out, "both posts count", &RIGHT)?;
    judge(&mut out, "one post is lost", &lost)?;
    Ok(out.flush()?)
}

fn main() -> ExitCode {
    match judge_both() {
        Ok(()) => ExitCode::SUCCESS,
        Err(error) => {
            eprintln!("{error}");
            ExitCode::FAILURE
        }
    }
}
