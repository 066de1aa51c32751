//! Judges orders given as driver lines: with all assertions, or by the external statement.

use crate::check::{Checker, Counts};
use crate::explain::Explainer;
use crate::lines::Line;
use crate::machine::{Machine, Report, Stepped};
use crate::moments::Moment;
use crate::records::{Kind, Update};
use crate::spent::Numbers;
use crate::starts::Start;
use crate::tariff::Meter;
use crate::totals::PLACES;
use crate::violation::Violation;

/// Takes driver lines one at a time.
pub trait Judge {
    fn take(&mut self, line: &Line) -> Result<(), Violation>;
    /// The machine after the lines so far, if one was opened.
    fn machine(&self) -> Option<&Machine>;
    fn counts(&self) -> Counts;
}

/// One accepted step of a judged order, for traces.
#[derive(Clone, PartialEq, Eq, Debug)]
pub struct Event {
    pub worker: usize,
    pub report: Report,
    pub moments: Vec<Moment>,
}

/// All assertions: refusal 7, moments, invariants, tariff, step bounds.
#[derive(Debug, Default)]
pub struct Internal {
    start: Start,
    /// Kept only if `record` is set.
    pub events: Vec<Event>,
    pub record: bool,
    checker: Option<Checker>,
    before: Counts,
}

impl Internal {
    pub fn new(start: impl Into<Start>) -> Internal {
        Internal {
            start: start.into(),
            ..Internal::default()
        }
    }

    fn open(&mut self, n: u64, b: u64, m: u64) {
        if let Ok(machine) = self.start.open(n, b, m) {
            self.before = self.counts();
            self.checker = Some(Checker::new(machine));
        }
    }

    fn steps(&mut self, worker: usize, count: u64) -> Result<(), Violation> {
        let Some(checker) = self.checker.as_mut() else {
            return Ok(());
        };
        for _ in 0..count {
            let (report, moments) = checker.step(worker)?;
            let stop = report.stepped != Stepped::Moved;
            if self.record {
                self.events.push(Event {
                    worker,
                    report,
                    moments,
                });
            }
            if stop {
                break;
            }
        }
        Ok(())
    }
}

impl Judge for Internal {
    fn take(&mut self, line: &Line) -> Result<(), Violation> {
        match *line {
            Line::Open { n, b, m } => self.open(n, b, m),
            Line::Call {
                kind,
                worker,
                account,
                total,
            } => {
                // A refused call changes nothing; the refusals but for 7 are the driver's tests'
                // business.
                if let Some(checker) = self.checker.as_mut() {
                    let _ = checker.call(worker, kind.number(), account, total)?;
                }
            }
            Line::Step { worker, count } => self.steps(worker, count)?,
            // A listing is compared after every step anyway.
            Line::List => {}
        }
        Ok(())
    }

    fn machine(&self) -> Option<&Machine> {
        self.checker.as_ref().map(|checker| &checker.machine)
    }

    fn counts(&self) -> Counts {
        let mut counts = self.before;
        if let Some(checker) = &self.checker {
            counts.add(&checker.counts);
        }
        counts
    }
}

/// A machine with what its outputs are held against.
#[derive(Debug)]
struct Seen {
    machine: Machine,
    explainer: Explainer,
    numbers: Numbers,
    meter: Meter,
}

/// The external statement: answers, listings asked for, refusal 7, the tariff, and the step bounds
/// of document 01.
#[derive(Debug, Default)]
pub struct External {
    start: Start,
    counts: Counts,
    present: Option<Seen>,
}

impl External {
    pub fn new(start: impl Into<Start>) -> External {
        External {
            start: start.into(),
            ..External::default()
        }
    }

    fn open(&mut self, n: u64, b: u64, m: u64) {
        if let Ok(machine) = self.start.open(n, b, m) {
            self.present = Some(Seen {
                explainer: Explainer::new(&machine.settings),
                numbers: Numbers::new(&machine),
                meter: Meter::new(machine.settings),
                machine,
            });
            self.counts.orders += 1;
        }
    }

    fn steps(&mut self, worker: usize, count: u64) -> Result<(), Violation> {
        let Some(seen) = self.present.as_mut() else {
            return Ok(());
        };
        for _ in 0..count {
            self.counts.steps += 1;
            let Some(operation) = task_of(&seen.machine, worker) else {
                return Ok(());
            };
            let stepped = seen.machine.step(worker).stepped;
            seen.meter.step(worker, operation.kind, stepped)?;
            match stepped {
                Stepped::Answered { answer, .. } => return seen.explainer.answered(worker, answer),
                _ => seen.explainer.moved(),
            }
        }
        Ok(())
    }
}

impl Seen {
    fn call(&mut self, w: usize, kind: Kind, account: u32, total: i64) -> Result<(), Violation> {
        let machine = &mut self.machine;
        let called = self
            .numbers
            .call(machine, w, kind.number(), account, total)?;
        if let (Ok(()), Some(operation)) = (called, task_of(machine, w)) {
            self.explainer.called(w, operation);
        }
        Ok(())
    }
}

impl Judge for External {
    fn take(&mut self, line: &Line) -> Result<(), Violation> {
        match *line {
            Line::Open { n, b, m } => self.open(n, b, m),
            Line::Call {
                kind,
                worker,
                account,
                total,
            } => {
                if let Some(seen) = self.present.as_mut() {
                    seen.call(worker, kind, account, total)?;
                }
            }
            Line::Step { worker, count } => self.steps(worker, count)?,
            Line::List => {
                if let Some(seen) = self.present.as_mut() {
                    if let Ok(items) = seen.machine.listing(PLACES, PLACES) {
                        seen.explainer.listed(&items)?;
                    }
                }
            }
        }
        Ok(())
    }

    fn machine(&self) -> Option<&Machine> {
        self.present.as_ref().map(|seen| &seen.machine)
    }

    fn counts(&self) -> Counts {
        self.counts
    }
}

/// The operation under way of a worker that has one.
fn task_of(machine: &Machine, worker: usize) -> Option<Update> {
    let task = machine.workers.get(worker)?.task.as_ref()?;
    Some(task.operation)
}

/// The checks told with the answers of an order, in turn; every assertion has to hold.
pub fn checks_told(start: impl Into<Start>, lines: &[Line]) -> Result<Vec<u8>, (usize, Violation)> {
    let mut all = Internal::new(start);
    all.record = true;
    judge(&mut all, lines)?;
    let told = |event: &Event| match event.report.stepped {
        Stepped::Answered { check, .. } => Some(check),
        _ => None,
    };
    Ok(all.events.iter().filter_map(told).collect())
}

/// Judges a whole order; the place of the line at which it fails, from 0, and the violation.
pub fn judge(judge: &mut dyn Judge, lines: &[Line]) -> Result<Counts, (usize, Violation)> {
    for (place, line) in lines.iter().enumerate() {
        judge.take(line).map_err(|violation| (place, violation))?;
    }
    Ok(judge.counts())
}
