//! The wrong machines that the tariff shows: five tell another check and are otherwise the true one,
//! so that `totals`, which prints no check, prints the same; the others leave the plan.

use crate::machine::Machine;
use crate::records::Kind;
use crate::steps::{Done, Steps, True};
use crate::task::{Position, Task};
use crate::wrong::idle;

#[derive(Clone, Copy, PartialEq, Eq, Debug)]
pub enum OffTariff {
    /// An update is told the checks made before the one that answers it.
    CheckOneLess,
    /// An update is told the check after the one that answers it.
    CheckOneMore,
    /// A lookup is told check 1.
    LookupCheckOne,
    /// A delete is told check 0.
    DeleteCheckZero,
    /// An update is told the pass that answers it.
    PassTold,
    /// The second pass goes by the directory that the check before it read: a step too few.
    ThirdCheckEarly,
    /// The same, with the missing step counted.
    StepFilledIn,
    /// The second check touches nothing and answers nothing, but is counted.
    SecondCheckIdle,
    /// The directory pass of the first pass touches nothing.
    FirstDirectoryPassIdle,
}

impl OffTariff {
    /// Those that tell another check.
    pub const TELLING: [OffTariff; 5] = [
        OffTariff::CheckOneLess,
        OffTariff::CheckOneMore,
        OffTariff::LookupCheckOne,
        OffTariff::DeleteCheckZero,
        OffTariff::PassTold,
    ];

    pub const ALL: [OffTariff; 9] = [
        OffTariff::CheckOneLess,
        OffTariff::CheckOneMore,
        OffTariff::LookupCheckOne,
        OffTariff::DeleteCheckZero,
        OffTariff::PassTold,
        OffTariff::ThirdCheckEarly,
        OffTariff::StepFilledIn,
        OffTariff::SecondCheckIdle,
        OffTariff::FirstDirectoryPassIdle,
    ];

    pub fn name(self) -> &'static str {
        match self {
            OffTariff::CheckOneLess => "check-one-less",
            OffTariff::CheckOneMore => "check-one-more",
            OffTariff::LookupCheckOne => "lookup-check-one",
            OffTariff::DeleteCheckZero => "delete-check-zero",
            OffTariff::PassTold => "pass-told",
            OffTariff::ThirdCheckEarly => "third-check-early",
            OffTariff::StepFilledIn => "step-filled-in",
            OffTariff::SecondCheckIdle => "second-check-idle",
            OffTariff::FirstDirectoryPassIdle => "first-directory-pass-idle",
        }
    }

    pub(crate) fn machine(self) -> &'static dyn Steps {
        match self {
            OffTariff::CheckOneLess => &CheckOneLess,
            OffTariff::CheckOneMore => &CheckOneMore,
            OffTariff::LookupCheckOne => &LookupCheckOne,
            OffTariff::DeleteCheckZero => &DeleteCheckZero,
            OffTariff::PassTold => &PassTold,
            OffTariff::ThirdCheckEarly => &ThirdCheckEarly,
            OffTariff::StepFilledIn => &StepFilledIn,
            OffTariff::SecondCheckIdle => &SecondCheckIdle,
            OffTariff::FirstDirectoryPassIdle => &FirstDirectoryPassIdle,
        }
    }
}

struct CheckOneLess;

impl Steps for CheckOneLess {
    fn told(&self, task: &Task) -> u8 {
        True.told(task).saturating_sub(1)
    }
}

struct CheckOneMore;

impl Steps for CheckOneMore {
    fn told(&self, task: &Task) -> u8 {
        True.told(task) + u8::from(task.is_update())
    }
}

struct LookupCheckOne;

impl Steps for LookupCheckOne {
    fn told(&self, task: &Task) -> u8 {
        task.check()
    }
}

struct DeleteCheckZero;

impl Steps for DeleteCheckZero {
    fn told(&self, task: &Task) -> u8 {
        match task.operation.kind {
            Kind::Delete => 0,
            _ => True.told(task),
        }
    }
}

struct PassTold;

impl Steps for PassTold {
    fn told(&self, task: &Task) -> u8 {
        True.told(task).div_ceil(2)
    }
}

/// Leaves out the first step of the second pass where it comes next; says whether it did.
fn skip_reading(machine: &Machine, task: &mut Task) -> bool {
    let skipped = task.checks == 2 && task.next == Position::ReadDirectory;
    if skipped {
        task.advance(machine.settings.workers);
    }
    skipped
}

struct ThirdCheckEarly;

impl Steps for ThirdCheckEarly {
    fn perform(&self, machine: &mut Machine, w: usize, task: &mut Task) -> Done {
        skip_reading(machine, task);
        True.perform(machine, w, task)
    }
}

struct StepFilledIn;

impl Steps for StepFilledIn {
    fn perform(&self, machine: &mut Machine, w: usize, task: &mut Task) -> Done {
        task.steps += u64::from(skip_reading(machine, task));
        True.perform(machine, w, task)
    }
}

struct SecondCheckIdle;

impl Steps for SecondCheckIdle {
    fn perform(&self, machine: &mut Machine, w: usize, task: &mut Task) -> Done {
        let checking = matches!(task.next, Position::CheckDirectory | Position::CheckState);
        match task.check() == 2 && checking {
            true => idle(machine, task),
            false => True.perform(machine, w, task),
        }
    }
}

struct FirstDirectoryPassIdle;

impl Steps for FirstDirectoryPassIdle {
    fn perform(&self, machine: &mut Machine, w: usize, task: &mut Task) -> Done {
        match task.checks == 1 && task.in_directory_rounds() {
            true => idle(machine, task),
            false => True.perform(machine, w, task),
        }
    }
}
