//! Random search: draws orders from a seed and judges them until so many steps were made.

use crate::check::Counts;
use crate::fault::Fault;
use crate::judge::{External, Internal, Judge};
use crate::lines::Line;
use crate::machine::LastTickets;
use crate::mutate::variation;
use crate::prng::Prng;
use crate::random::Generator;
use crate::shrink::shrink;
use crate::starts::Start;
use crate::violation::Violation;

/// Which statement an order is judged by.
#[derive(Clone, Copy, PartialEq, Eq, Debug)]
pub enum By {
    /// Refusal 7, moments, invariants, tariff and step bounds.
    AllAssertions,
    /// Refusal 7, answers, listings, tariff and step bounds only.
    External,
}

impl By {
    pub const BOTH: [By; 2] = [By::AllAssertions, By::External];
}

/// A failing order, as drawn and as shrunk, and the machine that it fails on.
#[derive(Clone, Debug)]
pub struct Failure {
    pub start: Start,
    pub violation: Violation,
    pub drawn: Vec<Line>,
    pub shrunk: Vec<Line>,
}

pub fn new_judge(by: By, start: impl Into<Start>) -> Box<dyn Judge> {
    match by {
        By::AllAssertions => Box::new(Internal::new(start)),
        By::External => Box::new(External::new(start)),
    }
}

/// Judges a whole order.
pub fn verdict(
    by: By,
    start: impl Into<Start>,
    lines: &[Line],
) -> Result<Counts, (usize, Violation)> {
    crate::judge::judge(new_judge(by, start).as_mut(), lines)
}

/// Draws and judges one order of about so many steps. Answers the lines as well.
pub fn one_order(
    by: By,
    start: impl Into<Start>,
    seed: u64,
    steps: u64,
) -> (Vec<Line>, Result<Counts, Violation>) {
    let mut judge = new_judge(by, start);
    let mut generator = Generator::new(seed, by == By::External);
    let mut lines = vec![generator.opening()];
    let mut line = lines[0];
    // Every fourth line or more makes a step, so this many lines are enough; unless calls are
    // refused 7, and the order has fewer steps.
    for _ in 0..4 * steps {
        if let Err(violation) = judge.take(&line) {
            return (lines, Err(violation));
        }
        if judge.counts().steps >= steps {
            break;
        }
        let machine = judge.machine().expect("the opening was accepted");
        line = generator.next(machine);
        lines.push(line);
    }
    (lines, Ok(judge.counts()))
}

/// Judges a variation of a stored order.
pub fn one_variation(
    by: By,
    start: impl Into<Start>,
    seed: u64,
) -> (Vec<Line>, Result<Counts, Violation>) {
    let lines = variation(&mut Prng::new(seed));
    let outcome = verdict(by, start, &lines).map_err(|(_, violation)| violation);
    (lines, outcome)
}

/// Draws orders until so many steps were made or one failed. The counts include the last order
/// only if it did not fail.
pub fn search(by: By, fault: Fault, seed: u64, steps: u64) -> (Counts, Option<Failure>) {
    search_from(by, fault, seed, steps, &|_| LastTickets::default())
}

/// The same, each order from the last tickets that are given for its seed.
pub fn search_from(
    by: By,
    fault: Fault,
    seed: u64,
    steps: u64,
    last_tickets: &dyn Fn(u64) -> LastTickets,
) -> (Counts, Option<Failure>) {
    let mut seeds = Prng::new(seed);
    let mut counts = Counts::default();
    while counts.steps < steps {
        let order_seed = seeds.draw();
        let length = match by {
            By::AllAssertions => seeds.between(100, 700),
            By::External => seeds.between(50, 400),
        };
        let varies = by == By::AllAssertions && seeds.percent(40);
        let start = Start::new(fault, last_tickets(order_seed));
        let (drawn, outcome) = match varies {
            true => one_variation(by, start, order_seed),
            false => one_order(by, start, order_seed, length),
        };
        match outcome {
            Ok(more) => counts.add(&more),
            Err(violation) => return (counts, Some(failure(by, start, violation, drawn))),
        }
    }
    (counts, None)
}

fn failure(by: By, start: Start, violation: Violation, drawn: Vec<Line>) -> Failure {
    let shrunk = shrink(&drawn, &|lines| verdict(by, start, lines).is_err());
    Failure {
        start,
        violation,
        drawn,
        shrunk,
    }
}
