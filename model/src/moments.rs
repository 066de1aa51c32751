//! The forward choice of linearization points (moments): at each step, from the machine before
//! and after it, which operations take effect now and in which order.

use crate::machine::{Machine, Report, Stepped};
use crate::plain::Plain;
use crate::records::{Answer, Bucket, Kind, Update};
use crate::settings::Settings;
use crate::task::{Position, Task};
use crate::violation::Violation;
use std::rc::Rc;

/// One operation that takes effect at a step, with the plain table's answer.
#[derive(Clone, Copy, PartialEq, Eq, Debug)]
pub struct Moment {
    pub worker: usize,
    pub operation: Update,
    pub answer: Answer,
    /// Before it, b accounts' places agreed with its own in the first M bits.
    pub amid_full: bool,
}

/// The plain table, and per worker the answer of the operation under way once it took effect.
#[derive(Clone, Debug)]
pub struct Moments {
    pub plain: Plain,
    taken: Vec<Option<Answer>>,
    under_way: Vec<Option<Before>>,
}

/// What must be known of an operation before the step.
#[derive(Clone, Debug)]
struct Before {
    operation: Update,
    announced: bool,
    done: bool,
    /// The bucket a lookup holds after its first step.
    held: Option<Rc<Bucket>>,
    held_is_current: bool,
}

/// Done: the ticket is settled in the state of the account's current bucket.
pub fn is_done(machine: &Machine, worker: usize, update: &Update) -> bool {
    let bucket = machine.directory.bucket(update.account);
    let settled = bucket.state.borrow().is_settled(worker, update.ticket);
    settled
}

/// An update is settled with the plain table's answer, whether or not its worker reads it.
fn compare_settled(machine: &Machine, moment: &Moment) -> Result<(), Violation> {
    let Moment {
        worker,
        operation,
        answer,
        ..
    } = *moment;
    let state = machine.directory.bucket(operation.account).current();
    let settled = state.settled[worker].answer;
    if operation.kind == Kind::Lookup || settled == Some(answer) {
        return Ok(());
    }
    let detail = format!("worker {worker}: {settled:?}, the plain table says {answer:?}");
    Err(Violation::new("settled", detail))
}

fn before(machine: &Machine, worker: usize, task: &Task) -> Before {
    let operation = task.operation;
    let held = match task.next {
        Position::LookupState => Some(Rc::clone(task.own_bucket())),
        _ => None,
    };
    let current = machine.directory.bucket(operation.account);
    Before {
        operation,
        announced: task.is_announced(),
        done: task.is_update() && is_done(machine, worker, &operation),
        held_is_current: held.as_ref().is_some_and(|h| Rc::ptr_eq(h, current)),
        held,
    }
}

impl Moments {
    pub fn new(settings: &Settings) -> Moments {
        Moments {
            plain: Plain::new(settings),
            taken: vec![None; settings.workers],
            under_way: vec![None; settings.workers],
        }
    }

    /// To be told before every step.
    pub fn before_step(&mut self, machine: &Machine) {
        for (w, worker) in machine.workers.iter().enumerate() {
            self.under_way[w] = worker.task.as_ref().map(|task| before(machine, w, task));
        }
    }

    /// To be told after every accepted step: chooses the moments of this step, feeds the plain
    /// table, and compares the answer and the listing.
    pub fn after_step(
        &mut self,
        machine: &Machine,
        w: usize,
        report: &Report,
    ) -> Result<Vec<Moment>, Violation> {
        let mut chosen = self.overtaken_lookups(machine);
        chosen.extend(self.newly_done(machine)?);
        chosen.extend(self.own_moment(w, report));
        let mut moments = Vec::new();
        for worker in chosen {
            let moment = self.take_effect(worker)?;
            compare_settled(machine, &moment)?;
            moments.push(moment);
        }
        if let Stepped::Answered { answer, .. } = report.stepped {
            self.compare_answer(w, answer)?;
        }
        self.compare_listing(machine)?;
        Ok(moments)
    }

    /// Lookups whose bucket this step's directory swap retired: before the updates of the swap.
    fn overtaken_lookups(&self, machine: &Machine) -> Vec<usize> {
        let overtaken = |entry: &Option<Before>| {
            entry.as_ref().is_some_and(|before| {
                let now = machine.directory.bucket(before.operation.account);
                let held = before.held.as_ref();
                before.held_is_current && held.is_some_and(|held| !Rc::ptr_eq(held, now))
            })
        };
        let all = 0..self.under_way.len();
        all.filter(|j| overtaken(&self.under_way[*j])).collect()
    }

    /// Updates that this step made Done, in worker order.
    fn newly_done(&self, machine: &Machine) -> Result<Vec<usize>, Violation> {
        let mut done = Vec::new();
        for (j, entry) in self.under_way.iter().enumerate() {
            let Some(before) = entry else { continue };
            if before.operation.kind == Kind::Lookup || before.done {
                continue;
            }
            if is_done(machine, j, &before.operation) {
                if !before.announced {
                    let detail = format!("update of worker {j} done before it was announced");
                    return Err(Violation::new("moment", detail));
                }
                done.push(j);
            }
        }
        Ok(done)
    }

    /// A lookup's moment is its second step unless it was overtaken. An update, crowded or not, has
    /// its moment where it becomes Done, which no check does.
    fn own_moment(&self, w: usize, report: &Report) -> Option<usize> {
        let answered = matches!(report.stepped, Stepped::Answered { .. });
        let before = self.under_way[w].as_ref()?;
        (answered && before.held_is_current).then_some(w)
    }

    fn take_effect(&mut self, worker: usize) -> Result<Moment, Violation> {
        let before = self.under_way[worker].as_ref().expect("an operation");
        let operation = before.operation;
        if self.taken[worker].is_some() {
            let detail = format!("operation of worker {worker} takes effect a second time");
            return Err(Violation::new("moment", detail));
        }
        let Update {
            kind,
            account,
            total,
            ..
        } = operation;
        let amid_full = self.plain.is_full_around(account);
        let answer = self.plain.apply(kind, account, total);
        self.taken[worker] = Some(answer);
        Ok(Moment {
            worker,
            operation,
            answer,
            amid_full,
        })
    }

    fn compare_answer(&mut self, w: usize, answer: Answer) -> Result<(), Violation> {
        let expected = self.taken[w].take();
        if expected == Some(answer) {
            return Ok(());
        }
        let detail = format!("worker {w} got {answer:?}, the plain table says {expected:?}");
        Err(Violation::new("answer", detail))
    }

    fn compare_listing(&self, machine: &Machine) -> Result<(), Violation> {
        let items = machine.items();
        if self.plain.lists_as(&items) {
            return Ok(());
        }
        let detail = format!("listing {items:?}, plain table {:?}", self.plain.accounts);
        Err(Violation::new("listing", detail))
    }
}
