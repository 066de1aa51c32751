//! Records a run: the driver gives the output of each line, and a machine under all assertions
//! makes the same steps and knows the moments.

use super::leaf::{leaves, split};
use super::{words, Effect, Leaf, List, Listing, Met, Operation, Split, Step};
use crate::check::Checker;
use crate::lines::{read_line, Line};
use crate::machine::{Machine, Report, Stepped};
use crate::moments::Moment;
use crate::plain::Plain;
use crate::task::Task;
use crate::totals::{next_line, Driver, LENT};
use crate::violation::Violation;

/// Records every line of an input; the assertion that fails, if one does.
pub fn record(mut input: &[u8]) -> Result<Vec<List>, Violation> {
    let mut recorder = Recorder::default();
    let mut bytes = Vec::new();
    let mut number = 0;
    while next_line(&mut input, &mut bytes).expect("reading memory does not fail") {
        number += 1;
        recorder.take(number, &bytes)?;
    }
    let kept = |list: &List| list.opening.is_some() || list.places > 0;
    recorder.lists.push(recorder.list);
    recorder.lists.retain(kept);
    Ok(recorder.lists)
}

#[derive(Default)]
struct Recorder {
    driver: Driver,
    present: Option<(Checker, Plain)>,
    /// Per worker its last operation.
    last: Vec<usize>,
    list: List,
    lists: Vec<List>,
}

impl Recorder {
    fn take(&mut self, number: usize, bytes: &[u8]) -> Result<(), Violation> {
        let output = self.driver.answer(bytes).trim_end().to_string();
        let first = self.list.places + 1;
        let mut met = Met {
            number,
            text: words::line(bytes),
            output,
            first,
            last: first,
        };
        let read = read_line(bytes).filter(|_| !met.is_refused());
        match read {
            Some(Line::Open { n, b, m }) => {
                self.open(number, n, b, m);
                return Ok(());
            }
            Some(Line::Step { worker, count }) => self.steps(worker, count)?,
            Some(Line::Call {
                kind,
                worker,
                account,
                total,
            }) => self.call(worker, kind.number(), account, total)?,
            Some(Line::List) => self.listing(),
            None => self.list.places += 1,
        }
        met.last = self.list.places;
        self.list.lines.push(met);
        Ok(())
    }

    fn checker(&mut self) -> &mut Checker {
        &mut self.present.as_mut().expect("a table was opened").0
    }

    fn open(&mut self, number: usize, n: u64, b: u64, m: u64) {
        let machine = Machine::open(n, b, m, LENT).expect("accepted");
        let settings = machine.settings;
        self.present = Some((Checker::new(machine), Plain::new(&settings)));
        self.last = vec![0; settings.workers];
        let fresh = List {
            opening: Some((number, settings)),
            ..List::default()
        };
        self.lists.push(std::mem::replace(&mut self.list, fresh));
    }

    fn call(
        &mut self,
        worker: usize,
        kind: u64,
        account: u32,
        total: i64,
    ) -> Result<(), Violation> {
        let checker = self.checker();
        let called = checker.call(worker, kind, account, total)?;
        called.expect("accepted");
        let update = task(&checker.machine, worker).operation;
        self.list.places += 1;
        self.last[worker] = self.list.operations.len();
        self.list.operations.push(Operation {
            worker,
            update,
            call: self.list.places,
            steps: Vec::new(),
            answer: None,
        });
        Ok(())
    }

    fn listing(&mut self) {
        let items = self.checker().machine.items();
        self.list.places += 1;
        let place = self.list.places;
        self.list.listings.push(Listing { place, items });
    }

    fn steps(&mut self, worker: usize, count: u64) -> Result<(), Violation> {
        for _ in 0..count {
            if self.step(worker)?.stepped != Stepped::Moved {
                break;
            }
        }
        Ok(())
    }

    fn step(&mut self, worker: usize) -> Result<Report, Violation> {
        let checker = self.checker();
        let before = task(&checker.machine, worker).clone();
        let leaves_before = leaves(&checker.machine.directory.entries);
        let (report, moments) = checker.step(worker)?;
        let splits = splits(&checker.machine, worker, &before, &leaves_before);
        let note = words::note(&before, &checker.machine, worker, report.kind);
        self.list.places += 1;
        let place = self.list.places;
        let own = self.last[worker];
        let operation = &mut self.list.operations[own];
        operation.steps.push(place);
        if let Stepped::Answered { answer, check, .. } = report.stepped {
            operation.answer = Some((answer, check));
        }
        self.list.steps.push(Step {
            place,
            operation: own,
            number: operation.steps.len(),
            kind: report.kind,
            note,
            splits,
        });
        self.effects(&moments);
        Ok(report)
    }

    fn effects(&mut self, moments: &[Moment]) {
        let (_, plain) = self.present.as_mut().expect("a table was opened");
        for moment in moments {
            let update = moment.operation;
            plain.apply(update.kind, update.account, update.total);
            let contents = plain.accounts.iter().map(|(a, t)| (*a, *t)).collect();
            self.list.effects.push(Effect {
                place: self.list.places,
                operation: self.last[moment.worker],
                answer: moment.answer,
                contents,
            });
        }
    }
}

/// The operation under way of a worker that has one.
fn task(machine: &Machine, worker: usize) -> &Task {
    let task = machine.workers[worker].task.as_ref();
    task.expect("an operation is under way")
}

/// What the step split: in the current directory, or in the worker's working copy.
fn splits(machine: &Machine, worker: usize, before: &Task, current: &[Leaf]) -> Vec<Split> {
    let shared = split(current, &leaves(&machine.directory.entries));
    let after = machine.workers[worker].task.as_ref();
    let copies = (
        before.working.as_ref(),
        after.and_then(|task| task.working.as_ref()),
    );
    match copies {
        (Some(old), Some(new)) => split(&leaves(&old.entries), &leaves(&new.entries)),
        _ => shared,
    }
}
