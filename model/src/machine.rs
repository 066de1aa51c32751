//! The machine: the shared cells, and the calls open, call, step and listing.

use crate::fault::Fault;
use crate::records::{Answer, Bucket, Directory, Kind, State, Update};
use crate::refusal;
use crate::settings::Settings;
use crate::task::{StepKind, Task};
use std::rc::Rc;

/// One worker: the ticket number last taken, and the operation under way.
#[derive(Clone, Debug, Default)]
pub struct Worker {
    pub last_ticket: u64,
    pub task: Option<Task>,
}

/// The ticket that each worker took last, of as many as there are.
pub type LastTickets = [u64; Settings::GREATEST_WORKERS as usize];

/// The outcome of a step.
#[derive(Clone, Copy, PartialEq, Eq, Debug)]
pub enum Stepped {
    Moved,
    /// The answer, the operation's steps in all, and which check answered an update, 1 to 4; 0 with
    /// any other operation's answer.
    Answered {
        answer: Answer,
        steps: u64,
        check: u8,
    },
    Refused(u8),
}

/// The outcome of a step and what the step did; a refused step did nothing.
#[derive(Clone, Copy, PartialEq, Eq, Debug)]
pub struct Report {
    pub stepped: Stepped,
    pub kind: StepKind,
}

impl Report {
    /// The check told with an answer; 0 where there is none.
    pub fn answering_check(&self) -> u8 {
        match self.stepped {
            Stepped::Answered { check, .. } => check,
            _ => 0,
        }
    }
}

/// The table with its workers.
#[derive(Debug)]
pub struct Machine {
    pub settings: Settings,
    pub fault: Fault,
    /// The current directory.
    pub directory: Rc<Directory>,
    /// Each worker's announced update.
    pub slots: Vec<Option<Update>>,
    pub workers: Vec<Worker>,
}

impl Machine {
    /// Opens a table over so many lent words: refusals 1 and 2.
    pub fn open(n: u64, b: u64, m: u64, lent: u64) -> Result<Machine, u8> {
        let settings = Settings::new(n, b, m)?;
        if lent < settings.words() {
            return Err(refusal::SHORT);
        }
        Ok(Machine::fresh(settings))
    }

    /// Depth 0, one empty bucket, ticket numbers 0, all bits 0.
    pub fn fresh(settings: Settings) -> Machine {
        let bucket = Bucket::new(0, 0, State::empty(settings.workers));
        let directory = Rc::new(Directory {
            depth: 0,
            entries: vec![bucket],
        });
        Machine {
            settings,
            fault: Fault::None,
            directory,
            slots: vec![None; settings.workers],
            workers: vec![Worker::default(); settings.workers],
        }
    }

    /// Calls a worker: refusals 3, 4, 6 and 7, in this order.
    pub fn call(&mut self, w: usize, kind: u64, account: u32, total: i64) -> Result<(), u8> {
        let Some(worker) = self.workers.get_mut(w) else {
            return Err(refusal::STRANGER);
        };
        if worker.task.is_some() {
            return Err(refusal::BUSY);
        }
        let kind = Kind::of(kind).ok_or(refusal::KIND)?;
        let last = self.fault.machine().last_ticket(kind, worker.last_ticket);
        worker.last_ticket = last.ok_or(refusal::SPENT)?;
        let ticket = match kind {
            Kind::Lookup => 0,
            _ => worker.last_ticket,
        };
        worker.task = Some(Task::new(Update {
            kind,
            account,
            total,
            ticket,
        }));
        Ok(())
    }

    /// One step of a worker: refusals 3 and 5.
    pub fn step(&mut self, w: usize) -> Report {
        let refused = |number| Report {
            stepped: Stepped::Refused(number),
            kind: StepKind::Nothing,
        };
        let Some(worker) = self.workers.get_mut(w) else {
            return refused(refusal::STRANGER);
        };
        let Some(mut task) = worker.task.take() else {
            return refused(refusal::IDLE);
        };
        task.steps += 1;
        let (kind, told) = self.fault.machine().perform(self, w, &mut task);
        let steps = task.steps;
        let stepped = match told {
            Some((answer, check)) => Stepped::Answered {
                answer,
                steps,
                check,
            },
            None => {
                self.workers[w].task = Some(task);
                Stepped::Moved
            }
        };
        Report { stepped, kind }
    }

    /// The accounts ascending with their totals: refusal 10.
    pub fn listing(&self, accounts: usize, totals: usize) -> Result<Vec<(u32, i64)>, u8> {
        let items = self.items();
        if items.len() > accounts.min(totals) {
            return Err(refusal::NARROW);
        }
        Ok(items)
    }

    /// What the current directory's buckets hold, ascending by account.
    pub fn items(&self) -> Vec<(u32, i64)> {
        let steps = self.fault.machine();
        let mut items = steps.held(&self.directory);
        steps.sort(&mut items);
        items
    }
}
