//! Refusal 7, exactly: an update gets it when its worker's numbers do not suffice, and nothing else
//! does. An update needs one number, a lookup none.

use crate::machine::Machine;
use crate::records::{Kind, GREATEST_TICKET};
use crate::refusal;
use crate::tariff::words;
use crate::violation::Violation;

/// What a call came to: accepted, or the number of its refusal.
pub type Called = Result<(), u8>;

/// The last number that each worker has used, counted apart from the machine and in more bits.
#[derive(Debug)]
pub struct Numbers {
    used: Vec<u128>,
}

impl Numbers {
    /// From the last tickets of a table that was just opened.
    pub fn new(opened: &Machine) -> Numbers {
        let last = opened.workers.iter().map(|worker| worker.last_ticket);
        Numbers {
            used: last.map(u128::from).collect(),
        }
    }

    /// Calls a worker. A call that no earlier refusal is for is held against the count.
    pub fn call(
        &mut self,
        machine: &mut Machine,
        w: usize,
        kind: u64,
        account: u32,
        total: i64,
    ) -> Result<Called, Violation> {
        let worker = machine.workers.get(w);
        let is_idle = worker.is_some_and(|worker| worker.task.is_none());
        let called = machine.call(w, kind, account, total);
        match Kind::of(kind).filter(|_| is_idle) {
            Some(kind) => self.count(w, kind, called).map(|()| called),
            None => Ok(called),
        }
    }

    fn count(&mut self, w: usize, kind: Kind, called: Called) -> Result<(), Violation> {
        let needed = u128::from(kind != Kind::Lookup);
        let left = u128::from(GREATEST_TICKET) - self.used[w];
        if (called == Err(refusal::SPENT)) != (needed > left) {
            let told = called.map_or_else(|number| format!("refused {number}"), |()| "ok".into());
            let detail = format!("{} told {told}, numbers left {left}", words(w, kind));
            return Err(Violation::new("spent", detail));
        }
        if called.is_ok() {
            self.used[w] += needed;
        }
        Ok(())
    }
}
