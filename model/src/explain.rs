//! The external statement alone: is there any choice of moments by which the plain table gives
//! every answer and listing seen? A complete search over all choices, made step by step.

use crate::plain::Plain;
use crate::records::{Answer, Update};
use crate::settings::Settings;
use crate::violation::Violation;
use std::collections::BTreeSet;

/// More possibilities than this are not followed; the order is then undecided.
const MOST_POSSIBILITIES: usize = 50_000;
/// The name under which an undecided order is reported: it is no violation.
pub const UNDECIDED: &str = "undecided, too many possibilities";

/// Whether an operation took effect, and with which answer.
#[derive(Clone, Copy, PartialEq, Eq, PartialOrd, Ord, Debug)]
enum Status {
    Idle,
    Pending,
    Effective(Answer),
}

/// One possible present: a plain table, and which operations have had their moment.
#[derive(Clone, PartialEq, Eq, PartialOrd, Ord, Debug)]
struct Possible {
    plain: Plain,
    status: Vec<Status>,
}

/// All presents that agree with what was seen so far.
#[derive(Clone, Debug)]
pub struct Explainer {
    possible: BTreeSet<Possible>,
    operations: Vec<Option<Update>>,
    /// Called since the last accepted step: cannot have had a moment yet.
    too_new: Vec<bool>,
    gave_up: bool,
}

impl Explainer {
    pub fn new(settings: &Settings) -> Explainer {
        let start = Possible {
            plain: Plain::new(settings),
            status: vec![Status::Idle; settings.workers],
        };
        Explainer {
            possible: BTreeSet::from([start]),
            operations: vec![None; settings.workers],
            too_new: vec![false; settings.workers],
            gave_up: false,
        }
    }

    /// An accepted call.
    pub fn called(&mut self, w: usize, operation: Update) {
        self.operations[w] = Some(operation);
        self.too_new[w] = true;
        self.set_status(w, Status::Pending);
    }

    /// An accepted step without answer. Moments are chosen as late as anything seen allows.
    pub fn moved(&mut self) {
        self.too_new.fill(false);
    }

    /// An accepted step that answered.
    pub fn answered(&mut self, w: usize, answer: Answer) -> Result<(), Violation> {
        self.too_new.fill(false);
        self.close();
        self.possible
            .retain(|possible| possible.status[w] == Status::Effective(answer));
        self.set_status(w, Status::Idle);
        self.operations[w] = None;
        self.verdict(|| format!("worker {w} got {answer:?}"))
    }

    /// A listing.
    pub fn listed(&mut self, items: &[(u32, i64)]) -> Result<(), Violation> {
        self.close();
        self.possible
            .retain(|possible| possible.plain.lists_as(items));
        self.verdict(|| format!("listing {items:?}"))
    }

    fn verdict(&self, text: impl FnOnce() -> String) -> Result<(), Violation> {
        if self.gave_up {
            return Err(Violation::new(UNDECIDED, text()));
        }
        if self.possible.is_empty() {
            return Err(Violation::new("no choice of moments explains", text()));
        }
        Ok(())
    }

    fn set_status(&mut self, w: usize, status: Status) {
        let old = std::mem::take(&mut self.possible);
        let change = |mut possible: Possible| {
            possible.status[w] = status;
            possible
        };
        self.possible = old.into_iter().map(change).collect();
    }

    /// Adds every present in which more of the pending operations have taken effect.
    fn close(&mut self) {
        let mut open: Vec<Possible> = self.possible.iter().cloned().collect();
        while let Some(possible) = open.pop() {
            for w in 0..self.operations.len() {
                let Some(next) = self.take_effect(&possible, w) else {
                    continue;
                };
                if self.possible.len() > MOST_POSSIBILITIES {
                    self.gave_up = true;
                    return;
                }
                if self.possible.insert(next.clone()) {
                    open.push(next);
                }
            }
        }
    }

    fn take_effect(&self, possible: &Possible, w: usize) -> Option<Possible> {
        let operation = self.operations[w].as_ref()?;
        if self.too_new[w] || possible.status[w] != Status::Pending {
            return None;
        }
        let mut next = possible.clone();
        let answer = next
            .plain
            .apply(operation.kind, operation.account, operation.total);
        next.status[w] = Status::Effective(answer);
        Some(next)
    }
}
