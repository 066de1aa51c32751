//! Runs a machine with every assertion: at every call refusal 7, after every step moments,
//! invariants, tariff, step bounds.

use crate::invariants::Ledger;
use crate::machine::{Machine, Report, Stepped};
use crate::moments::{Moment, Moments};
use crate::plain::Plain;
use crate::records::{Answer, Kind, Update};
use crate::spent::{Called, Numbers};
use crate::tariff::{is_last_made, Meter};
use crate::task::StepKind;
use crate::violation::Violation;

/// What occurred in the orders checked.
#[derive(Clone, Copy, PartialEq, Eq, Debug, Default)]
pub struct Counts {
    pub orders: u64,
    pub steps: u64,
    pub updates: u64,
    pub lookups: u64,
    /// Updates answered by check 1, 2, 3 and 4.
    pub checks: [u64; 4],
    pub splits: u64,
    pub failed_state_swaps: u64,
    pub failed_directory_swaps: u64,
    pub crowded: u64,
    pub posted: u64,
    pub overruns: u64,
    /// Updates that took effect where b accounts' places agreed with their own in the first M bits.
    pub amid_full: AmidFull,
    /// Posts that took effect at a step of another worker.
    pub helped_posts: u64,
    /// Lookups whose bucket was split between their two steps.
    pub overtaken_lookups: u64,
}

/// The updates that took effect in a full bucket at depth M, by what they did.
#[derive(Clone, Copy, PartialEq, Eq, Debug, Default)]
pub struct AmidFull {
    pub crowded: u64,
    pub replaced: u64,
    pub removed: u64,
    pub absent: u64,
    pub posted: u64,
    pub overruns: u64,
    /// Those of them that another worker's step settled as crowded.
    pub helped_crowded: u64,
    /// Those that were answered crowded when there was room again.
    pub room_since: u64,
    /// Those that were removed and made room for an account added at the same step.
    pub made_room: u64,
}

impl AmidFull {
    pub fn add(&mut self, other: &AmidFull) {
        self.crowded += other.crowded;
        self.replaced += other.replaced;
        self.removed += other.removed;
        self.absent += other.absent;
        self.posted += other.posted;
        self.overruns += other.overruns;
        self.helped_crowded += other.helped_crowded;
        self.room_since += other.room_since;
        self.made_room += other.made_room;
    }

    /// Counts the moments of one step of worker w.
    fn count(&mut self, w: usize, plain: &Plain, moments: &[Moment]) {
        for (index, moment) in moments.iter().enumerate().filter(|(_, m)| m.amid_full) {
            let account = moment.operation.account;
            let same = |m: &&Moment| plain.agree(m.operation.account, account);
            let mut later = moments[index..].iter().filter(same);
            match moment.answer {
                Answer::Crowded => self.crowded += 1,
                Answer::Replaced => self.replaced += 1,
                Answer::Removed => self.removed += 1,
                Answer::Absent => self.absent += 1,
                Answer::Posted(_) => self.posted += 1,
                Answer::Overrun => self.overruns += 1,
                Answer::Added | Answer::Found(_) | Answer::None => continue,
            }
            let (crowded, removed) = (Answer::Crowded, Answer::Removed);
            let helped = moment.answer == crowded && moment.worker != w;
            let fills = moment.answer == removed && later.any(|m| m.answer == Answer::Added);
            self.helped_crowded += u64::from(helped);
            self.made_room += u64::from(fills);
        }
    }
}

impl Counts {
    pub fn add(&mut self, other: &Counts) {
        self.orders += other.orders;
        self.steps += other.steps;
        self.updates += other.updates;
        self.lookups += other.lookups;
        for (own, more) in self.checks.iter_mut().zip(other.checks) {
            *own += more;
        }
        self.splits += other.splits;
        self.failed_state_swaps += other.failed_state_swaps;
        self.failed_directory_swaps += other.failed_directory_swaps;
        self.crowded += other.crowded;
        self.posted += other.posted;
        self.overruns += other.overruns;
        self.amid_full.add(&other.amid_full);
        self.helped_posts += other.helped_posts;
        self.overtaken_lookups += other.overtaken_lookups;
    }
}

/// A machine under assertion.
#[derive(Debug)]
pub struct Checker {
    pub machine: Machine,
    pub moments: Moments,
    pub counts: Counts,
    numbers: Numbers,
    meter: Meter,
    /// Per worker the checks that its operation has made.
    made: Vec<u8>,
    ledger: Ledger,
}

impl Checker {
    /// A table that was just opened.
    pub fn new(machine: Machine) -> Checker {
        let settings = machine.settings;
        Checker {
            moments: Moments::new(&settings),
            numbers: Numbers::new(&machine),
            meter: Meter::new(settings),
            made: vec![0; settings.workers],
            ledger: Ledger::new(&machine),
            counts: Counts {
                orders: 1,
                ..Counts::default()
            },
            machine,
        }
    }

    /// A call, refused 7 exactly where it is due; it takes no moment and changes no shared cell.
    pub fn call(
        &mut self,
        w: usize,
        kind: u64,
        account: u32,
        total: i64,
    ) -> Result<Called, Violation> {
        let machine = &mut self.machine;
        self.numbers.call(machine, w, kind, account, total)
    }

    /// A step with all assertions; the moments of the step in their order.
    pub fn step(&mut self, w: usize) -> Result<(Report, Vec<Moment>), Violation> {
        let task = self.machine.workers.get(w).and_then(|x| x.task.as_ref());
        let operation = task.map(|task| task.operation);
        self.moments.before_step(&self.machine);
        let report = self.machine.step(w);
        let Some(operation) = operation else {
            return Ok((report, Vec::new()));
        };
        self.tariff(w, operation.kind, &report)?;
        let moments = self.moments.after_step(&self.machine, w, &report)?;
        self.ledger.after_step(&self.machine)?;
        self.count(w, &operation, &report, &moments);
        Ok((report, moments))
    }

    /// The steps are as the tariff has them, and the check told is the one that was made.
    fn tariff(&mut self, w: usize, kind: Kind, report: &Report) -> Result<(), Violation> {
        self.meter.step(w, kind, report.stepped)?;
        self.made[w] += u8::from(matches!(report.kind, StepKind::CheckState { .. }));
        match report.stepped {
            Stepped::Answered { check, .. } => {
                is_last_made(w, kind, check, std::mem::take(&mut self.made[w]))
            }
            _ => Ok(()),
        }
    }

    fn count(&mut self, w: usize, operation: &Update, report: &Report, moments: &[Moment]) {
        let counts = &mut self.counts;
        let kind = operation.kind;
        counts.steps += 1;
        match report.kind {
            StepKind::ResizeState { splits, .. } => counts.splits += u64::from(splits),
            StepKind::SwapState { succeeded: false } => counts.failed_state_swaps += 1,
            StepKind::SwapDirectory { succeeded: false } => counts.failed_directory_swaps += 1,
            _ => {}
        }
        if let Stepped::Answered { answer, .. } = report.stepped {
            counts.lookups += u64::from(kind == Kind::Lookup);
            counts.updates += u64::from(kind != Kind::Lookup);
            let crowded = answer == Answer::Crowded;
            let full = self.moments.plain.is_full_around(operation.account);
            counts.crowded += u64::from(crowded);
            counts.amid_full.room_since += u64::from(crowded && !full);
            counts.posted += u64::from(matches!(answer, Answer::Posted(_)));
            counts.overruns += u64::from(answer == Answer::Overrun);
            if let check @ 1.. = usize::from(report.answering_check()) {
                counts.checks[check - 1] += 1;
            }
        }
        let by_another = |kind: Kind| {
            let those = moments.iter().filter(|m| m.operation.kind == kind);
            those.filter(|m| m.worker != w).count() as u64
        };
        counts.overtaken_lookups += by_another(Kind::Lookup);
        counts.helped_posts += by_another(Kind::Post);
        counts.amid_full.count(w, &self.moments.plain, moments);
    }
}
