//! What has to be remembered from step to step: buckets ever current, which references read are
//! out of date, and the shared cells as they stood, so that a step changes at most one.

use super::{assert_all, Scene};
use crate::machine::Machine;
use crate::records::{Bucket, Directory, State, Update};
use crate::violation::Violation;
use std::rc::Rc;

/// A shared bucket's two cells as they stood after the step before.
#[derive(Clone, Debug)]
struct Cells {
    state: Rc<State>,
    toggle: Vec<bool>,
}

/// See the head of the file.
#[derive(Clone, Debug)]
pub struct Ledger {
    directory: Rc<Directory>,
    slots: Vec<Option<Update>>,
    current: Vec<Rc<Bucket>>,
    retired: Vec<Rc<Bucket>>,
    current_cells: Vec<Cells>,
    retired_cells: Vec<Cells>,
    outdated: Vec<Option<Outdated>>,
}

/// References that a worker read and that are not current any more.
#[derive(Clone, Debug, Default)]
struct Outdated {
    state: Option<Rc<State>>,
    directory: Option<Rc<Directory>>,
}

fn distinct(directory: &Directory) -> Vec<Rc<Bucket>> {
    let mut buckets: Vec<Rc<Bucket>> = Vec::new();
    for bucket in &directory.entries {
        if !buckets.last().is_some_and(|last| Rc::ptr_eq(last, bucket)) {
            buckets.push(Rc::clone(bucket));
        }
    }
    buckets
}

fn cells(buckets: &[Rc<Bucket>]) -> Vec<Cells> {
    let read = |bucket: &Rc<Bucket>| Cells {
        state: bucket.current(),
        toggle: bucket.toggle.borrow().clone(),
    };
    buckets.iter().map(read).collect()
}

fn changed(buckets: &[Rc<Bucket>], before: &[Cells]) -> usize {
    let pairs = buckets.iter().zip(before);
    let count = |(bucket, cells): (&Rc<Bucket>, &Cells)| {
        let state = !Rc::ptr_eq(&bucket.state.borrow(), &cells.state);
        let toggle = *bucket.toggle.borrow() != cells.toggle;
        usize::from(state) + usize::from(toggle)
    };
    pairs.map(count).sum()
}

impl Ledger {
    pub fn new(machine: &Machine) -> Ledger {
        let current = distinct(&machine.directory);
        Ledger {
            directory: Rc::clone(&machine.directory),
            slots: machine.slots.clone(),
            current_cells: cells(&current),
            current,
            retired: Vec::new(),
            retired_cells: Vec::new(),
            outdated: vec![None; machine.settings.workers],
        }
    }

    /// To be told after every step: makes all assertions.
    pub fn after_step(&mut self, machine: &Machine) -> Result<(), Violation> {
        self.one_cell(machine)?;
        self.keep_buckets(machine)?;
        self.identity(machine)?;
        assert_all(&self.scene(machine))
    }

    pub fn scene<'a>(&'a self, machine: &'a Machine) -> Scene<'a> {
        Scene {
            machine,
            current: &self.current,
            retired: &self.retired,
        }
    }

    /// At most one shared cell has changed since the step before.
    fn one_cell(&self, machine: &Machine) -> Result<(), Violation> {
        let directory = usize::from(!Rc::ptr_eq(&machine.directory, &self.directory));
        let pairs = machine.slots.iter().zip(&self.slots);
        let slots = pairs.filter(|(now, before)| now != before).count();
        let current = changed(&self.current, &self.current_cells);
        let retired = changed(&self.retired, &self.retired_cells);
        let count = directory + slots + current + retired;
        if count > 1 {
            let detail = format!("a step changed {count} shared cells");
            return Err(Violation::new("one cell", detail));
        }
        Ok(())
    }

    /// Moves buckets that are not current any more to the retired ones.
    fn keep_buckets(&mut self, machine: &Machine) -> Result<(), Violation> {
        if !Rc::ptr_eq(&machine.directory, &self.directory) {
            let now = distinct(&machine.directory);
            let is_in = |b: &Rc<Bucket>, all: &[Rc<Bucket>]| all.iter().any(|c| Rc::ptr_eq(c, b));
            let back = self.retired.iter().any(|bucket| is_in(bucket, &now));
            if back {
                let detail = "a retired bucket is current again".to_string();
                return Err(Violation::new("identity", detail));
            }
            let gone = self.current.drain(..).filter(|bucket| !is_in(bucket, &now));
            self.retired.extend(gone);
            self.current = now;
            self.directory = Rc::clone(&machine.directory);
        }
        self.slots.clone_from(&machine.slots);
        self.current_cells = cells(&self.current);
        self.retired_cells = cells(&self.retired);
        Ok(())
    }

    /// A state or directory that a worker read and that is not current any more never becomes
    /// current again while the worker refers to it.
    fn identity(&mut self, machine: &Machine) -> Result<(), Violation> {
        for (w, worker) in machine.workers.iter().enumerate() {
            let Some(task) = &worker.task else {
                self.outdated[w] = None;
                continue;
            };
            let known = self.outdated[w].get_or_insert_with(Outdated::default);
            if let (Some(state), Some(bucket)) = (&task.state, &task.bucket) {
                let is_current = Rc::ptr_eq(state, &bucket.state.borrow());
                returned(&mut known.state, state, is_current)?;
            }
            if let (Some(directory), true) = (&task.directory, task.working.is_some()) {
                let is_current = Rc::ptr_eq(directory, &machine.directory);
                returned(&mut known.directory, directory, is_current)?;
            }
        }
        Ok(())
    }
}

/// Remembers a reference that is out of date; fails if it is current again.
fn returned<T>(known: &mut Option<Rc<T>>, read: &Rc<T>, is_current: bool) -> Result<(), Violation> {
    if !is_current {
        *known = Some(Rc::clone(read));
        return Ok(());
    }
    if known.as_ref().is_some_and(|old| Rc::ptr_eq(old, read)) {
        let detail = "a reference is current a second time".to_string();
        return Err(Violation::new("identity", detail));
    }
    Ok(())
}
