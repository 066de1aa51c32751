//! Logs of the machine's own runs: random short orders, everything answered in the end. A position
//! is an entry of the list: a call, a step, a listing, or one of them that was refused.

use crate::judging::MOST;
use crate::lines::Line;
use crate::log::{total_of, Log, Logged, Word};
use crate::machine::{Machine, Stepped};
use crate::prng::Prng;
use crate::random::Generator;
use crate::records::Kind;

/// Entries at most before every worker is only stepped to its answer.
const ENTRIES: u64 = 2_000;

/// A run under way.
struct Run {
    machine: Machine,
    log: Log,
    /// Per worker the place of its operation.
    places: Vec<usize>,
    /// The entries so far.
    entry: u64,
    left: usize,
}

/// The log of a run of at most 12 operations.
pub fn run_log(prng: &mut Prng) -> Log {
    let share = prng.one_of(&[0, 50, 100, 100, 100]);
    let mut generator = Generator::sharing(Prng::new(prng.draw()), false, share);
    let settings = generator.settings;
    if prng.percent(70) {
        generator.pool.truncate(prng.between(1, 4) as usize);
    }
    let mut run = Run {
        machine: Machine::fresh(settings),
        log: Log {
            b: settings.bucket_size as u64,
            m: u64::from(settings.greatest_depth),
            operations: Vec::new(),
        },
        places: vec![0; settings.workers],
        entry: 0,
        left: prng.between(1, MOST as u64) as usize,
    };
    while run.left > 0 && run.entry < ENTRIES {
        let line = generator.next(&run.machine);
        run.take(line);
    }
    run.finish(prng);
    run.log
}

impl Run {
    fn take(&mut self, line: Line) {
        match line {
            Line::Call {
                kind,
                worker,
                account,
                total,
            } => self.call(worker, kind, account, total),
            Line::Step { worker, count } => self.steps(worker, count),
            Line::Open { .. } | Line::List => self.entry += 1,
        }
    }

    fn call(&mut self, w: usize, kind: Kind, account: u32, total: i64) {
        self.entry += 1;
        if self.machine.call(w, kind.number(), account, total).is_err() {
            return;
        }
        self.left -= 1;
        self.places[w] = self.log.operations.len();
        self.log.operations.push(Logged {
            worker: w as u64,
            kind: kind.number(),
            account,
            total,
            answer: Word::None,
            answer_total: 0,
            call: self.entry,
            end: self.entry,
        });
    }

    fn steps(&mut self, w: usize, count: u64) {
        for _ in 0..count {
            self.entry += 1;
            match self.machine.step(w).stepped {
                Stepped::Moved => {}
                Stepped::Refused(_) => return,
                Stepped::Answered { answer, .. } => {
                    let one = &mut self.log.operations[self.places[w]];
                    one.answer = Word::of(answer);
                    one.answer_total = total_of(answer).unwrap_or(0);
                    one.end = self.entry;
                    return;
                }
            }
        }
    }

    /// Steps the workers in a random order until all are answered.
    fn finish(&mut self, prng: &mut Prng) {
        loop {
            let all = 0..self.places.len();
            let busy = all.filter(|w| self.machine.workers[*w].task.is_some());
            let busy: Vec<usize> = busy.collect();
            match prng.pick(&busy) {
                Some(w) => self.steps(w, prng.between(1, 30)),
                None => return,
            }
        }
    }
}
