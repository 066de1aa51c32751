//! The terms in which the invariants are stated, read off the machine between two steps.

use crate::machine::Machine;
use crate::records::{Bucket, State, Update};
use crate::task::{Position, Task};
use crate::working::Working;
use std::rc::Rc;

/// The machine, its current buckets, and the retired ones (once current, not any more).
pub struct Scene<'a> {
    pub machine: &'a Machine,
    pub current: &'a [Rc<Bucket>],
    pub retired: &'a [Rc<Bucket>],
}

impl<'a> Scene<'a> {
    /// The current bucket of an account.
    pub fn leaf(&self, account: u32) -> &'a Rc<Bucket> {
        self.machine.directory.bucket(account)
    }

    /// Every bucket that was ever current.
    pub fn ever(&self) -> impl Iterator<Item = &'a Rc<Bucket>> {
        self.current.iter().chain(self.retired)
    }

    /// What holds an update back: full below depth M.
    pub fn is_full_below(&self, bucket: &Bucket) -> bool {
        let state = bucket.state.borrow();
        state.is_full_below(&self.machine.settings, bucket.depth)
    }

    /// Done: settled in the account's current bucket.
    pub fn is_done(&self, worker: usize, update: &Update) -> bool {
        crate::moments::is_done(self.machine, worker, update)
    }

    /// Workers with an announced update under way.
    pub fn updates(&self) -> impl Iterator<Item = (usize, &'a Task)> {
        self.tasks().filter(|(_, task)| task.is_announced())
    }

    /// Workers with an operation under way.
    pub fn tasks(&self) -> impl Iterator<Item = (usize, &'a Task)> {
        let workers = self.machine.workers.iter().enumerate();
        workers.filter_map(|(w, worker)| worker.task.as_ref().map(|task| (w, task)))
    }

    /// In the rounds of a bucket pass at this bucket.
    pub fn in_rounds_at(&self, worker: usize, bucket: &Rc<Bucket>) -> bool {
        let task = self.machine.workers[worker].task.as_ref();
        task.is_some_and(|task| task.in_bucket_rounds() && Rc::ptr_eq(task.pass_bucket(), bucket))
    }

    /// Workers that are fresh at the bucket and past the toggle read.
    pub fn fresh_past_toggle(
        &self,
        bucket: &'a Rc<Bucket>,
    ) -> impl Iterator<Item = (usize, &'a Task)> {
        let state = bucket.current();
        self.tasks().filter(move |(_, task)| {
            is_fresh(task, bucket, &state)
                && matches!(task.next, Position::ReadSlot(_) | Position::SwapState)
        })
    }

    /// Past the directory read of a round of the directory pass, and that directory is current.
    pub fn is_directory_fresh(&self, task: &Task) -> bool {
        task.working.is_some() && Rc::ptr_eq(task.directory(), &self.machine.directory)
    }

    pub fn directory_fresh(&self) -> impl Iterator<Item = (usize, &'a Task)> + '_ {
        self.tasks()
            .filter(|(_, task)| self.is_directory_fresh(task))
    }

    /// If p is past its state step j: j is Done, or its leaf is among the buckets p splits.
    pub fn covers(&self, p: &Task, j: usize, update: &Update) -> bool {
        let past = match p.next {
            Position::ResizeState(next) => next > j,
            Position::SwapDirectory => true,
            _ => false,
        };
        // For a directory-fresh p the leaf is split exactly if its place holds a made bucket.
        let splits = |working: &Working| working.is_made(working.bucket(update.account));
        !past || self.is_done(j, update) || p.working.as_ref().is_some_and(splits)
    }
}

/// In a round of the bucket pass at the bucket, past the state read, and that state is current.
pub fn is_fresh(task: &Task, bucket: &Rc<Bucket>, current: &Rc<State>) -> bool {
    let here = task.in_bucket_rounds() && Rc::ptr_eq(task.pass_bucket(), bucket);
    here && task
        .state
        .as_ref()
        .is_some_and(|read| Rc::ptr_eq(read, current))
}
