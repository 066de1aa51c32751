//! The wrong machines: each is the true one but for one function, or two where it would not end.
//! Nothing but this, `off_tariff.rs`, `wrong_crowding.rs`, `wrong_places.rs`, `wrong_posts.rs` and
//! `wrong_tickets.rs` makes a step, a call or a listing wrong.

use crate::fault::Fault;
use crate::machine::Machine;
use crate::records::{Answer, Bucket, Kind, Settled, State, Update};
use crate::settings::Settings;
use crate::steps::{Done, Steps, True};
use crate::task::{StepKind, Task};
use crate::working::Working;
use std::rc::Rc;

impl Fault {
    /// The machine of this name; the true one for none.
    pub(crate) fn machine(self) -> &'static dyn Steps {
        match self {
            Fault::None => &True,
            Fault::OnePass => &OnePass,
            Fault::OneBucketRound => &OneBucketRound,
            Fault::OneDirectoryRound => &OneDirectoryRound,
            Fault::FullAsRead => &FullAsRead,
            Fault::OwnUpdateOnly => &OwnUpdateOnly,
            Fault::DeleteIntoFull => &DeleteIntoFull,
            Fault::CrowdedBelowDepth => &CrowdedBelowDepth,
            Fault::SettledNotCopied => &SettledNotCopied,
            Fault::AppliedNotReset => &AppliedNotReset,
            Fault::CheckOtherWorker => &CheckOtherWorker,
            Fault::BucketSwapBlind => &BucketSwapBlind,
            Fault::DirectorySwapBlind => &DirectorySwapBlind,
            Fault::DoubledInRow => &DoubledInRow,
            Fault::ToggleIgnored => &ToggleIgnored,
            Fault::SlotsBackwards => &SlotsBackwards,
            Fault::AnnounceApplies => &AnnounceApplies,
            Fault::AlwaysCrowded => &AlwaysCrowded,
            Fault::AlwaysAdded => &AlwaysAdded,
            Fault::Crowding(fault) => fault.machine(),
            Fault::Place(fault) => fault.machine(),
            Fault::Post(fault) => fault.machine(),
            Fault::OffTariff(fault) => fault.machine(),
            Fault::Ticket(fault) => fault.machine(),
        }
    }
}

struct OnePass;

impl Steps for OnePass {
    fn check_answer(&self, settings: &Settings, w: usize, task: &Task) -> Option<Answer> {
        let last = (task.check() == 2).then_some(Answer::Crowded);
        True.check_answer(settings, w, task).or(last)
    }
}

/// A step that touches nothing and counts.
pub(crate) fn idle(machine: &Machine, task: &mut Task) -> Done {
    task.advance(machine.settings.workers);
    (StepKind::Nothing, None)
}

struct OneBucketRound;

impl Steps for OneBucketRound {
    fn perform(&self, machine: &mut Machine, w: usize, task: &mut Task) -> Done {
        match task.round == 1 && task.in_bucket_rounds() {
            true => idle(machine, task),
            false => True.perform(machine, w, task),
        }
    }
}

struct OneDirectoryRound;

impl Steps for OneDirectoryRound {
    fn perform(&self, machine: &mut Machine, w: usize, task: &mut Task) -> Done {
        match task.round == 1 && task.in_directory_rounds() {
            true => idle(machine, task),
            false => True.perform(machine, w, task),
        }
    }
}

struct FullAsRead;

impl Steps for FullAsRead {
    /// With a bucket size by which every copy is full, or none.
    fn bucket_copy(&self, settings: &Settings, task: &Task) -> State {
        let bucket_size = match task.state_read().is_full(settings.bucket_size) {
            true => 0,
            false => usize::MAX,
        };
        let as_read = Settings {
            bucket_size,
            ..*settings
        };
        True.bucket_copy(&as_read, task)
    }
}

/// The slots with all but one empty.
fn only(slots: &[Option<Update>], j: usize) -> Vec<Option<Update>> {
    let kept = |(k, slot): (usize, &Option<Update>)| slot.filter(|_| k == j);
    slots.iter().enumerate().map(kept).collect()
}

struct OwnUpdateOnly;

impl Steps for OwnUpdateOnly {
    fn split_for(
        &self,
        settings: &Settings,
        working: &mut Working,
        slots: &[Option<Update>],
        j: usize,
        bucket: &Rc<Bucket>,
    ) -> u32 {
        True.split_for(settings, working, &only(slots, j), j, bucket)
    }
}

struct DeleteIntoFull;

impl Steps for DeleteIntoFull {
    fn holds_back(&self, settings: &Settings, depth: u32, copy: &State, update: &Update) -> bool {
        update.kind != Kind::Delete && True.holds_back(settings, depth, copy, update)
    }
}

struct CrowdedBelowDepth;

impl Steps for CrowdedBelowDepth {
    fn holds_back(&self, settings: &Settings, depth: u32, copy: &State, update: &Update) -> bool {
        !copy.creates(update) && True.holds_back(settings, depth, copy, update)
    }
}

struct SettledNotCopied;

impl Steps for SettledNotCopied {
    fn half(&self, state: &State, depth: u32, prefix: u32) -> State {
        let mut half = True.half(state, depth, prefix);
        if prefix % 2 == 1 {
            half.settled.fill(Settled::default());
        }
        half
    }
}

struct AppliedNotReset;

impl Steps for AppliedNotReset {
    fn half(&self, state: &State, depth: u32, prefix: u32) -> State {
        let mut half = True.half(state, depth, prefix);
        half.applied.clone_from(&state.applied);
        half
    }
}

struct CheckOtherWorker;

impl Steps for CheckOtherWorker {
    fn check_answer(&self, settings: &Settings, w: usize, task: &Task) -> Option<Answer> {
        True.check_answer(settings, (w + 1) % settings.workers, task)
    }
}

struct BucketSwapBlind;

impl Steps for BucketSwapBlind {
    /// The state that was read is put back before the swap compares with it.
    fn swap_state(&self, machine: &Machine, task: &Task) -> StepKind {
        *task.pass_bucket().state.borrow_mut() = Rc::clone(task.state_read());
        True.swap_state(machine, task)
    }
}

struct DirectorySwapBlind;

impl Steps for DirectorySwapBlind {
    /// The directory that was read is put back before the swap compares with it.
    fn swap_directory(&self, machine: &mut Machine, task: &mut Task) -> StepKind {
        machine.directory = Rc::clone(task.directory());
        True.swap_directory(machine, task)
    }
}

struct DoubledInRow;

impl Steps for DoubledInRow {
    fn doubled(&self, entries: &[Rc<Bucket>]) -> Vec<Rc<Bucket>> {
        [entries, entries].concat()
    }

    /// Stops at a bucket that is not the account's: it would be split without end.
    fn take(&self, settings: &Settings, working: &mut Working, k: usize, update: &Update) -> u32 {
        let place = self.place(update.account);
        let own = |working: &Working| working.at(place).has_place(place);
        let mut splits = 0;
        while own(working) && working.is_splittable(settings, place) {
            self.split(working, place);
            splits += 1;
        }
        if own(working) {
            self.carry_out_there(settings, working, k, update);
        }
        splits
    }
}

struct ToggleIgnored;

impl Steps for ToggleIgnored {
    fn bucket_copy(&self, settings: &Settings, task: &Task) -> State {
        let mut flipped = task.clone();
        let applied = &task.state_read().applied;
        flipped.toggle = applied.iter().map(|bit| !bit).collect();
        let mut copy = True.bucket_copy(settings, &flipped);
        copy.applied.clone_from(&task.toggle);
        copy
    }
}

struct SlotsBackwards;

impl Steps for SlotsBackwards {
    /// Stands before the slots read so far, which are those of the workers above.
    fn read_slot(&self, machine: &Machine, task: &mut Task, i: usize) -> StepKind {
        let kind = True.read_slot(machine, task, machine.settings.workers - 1 - i);
        task.slots.rotate_right(1);
        kind
    }

    fn resize_slot(&self, machine: &Machine, task: &mut Task, i: usize) -> StepKind {
        let kind = True.resize_slot(machine, task, machine.settings.workers - 1 - i);
        task.slots.rotate_right(1);
        kind
    }
}

struct AnnounceApplies;

impl Steps for AnnounceApplies {
    fn announce(&self, machine: &mut Machine, w: usize, task: &Task) -> StepKind {
        let settings = &machine.settings;
        let bucket = machine.directory.bucket(task.operation.account);
        let mut copy = State::clone(&bucket.current());
        True.carry_out(settings, bucket.depth, &mut copy, w, &task.operation);
        if copy != *bucket.current() {
            *bucket.state.borrow_mut() = Rc::new(copy);
        }
        True.announce(machine, w, task)
    }
}

struct AlwaysCrowded;

impl Steps for AlwaysCrowded {
    fn check_answer(&self, _: &Settings, _: usize, _: &Task) -> Option<Answer> {
        Some(Answer::Crowded)
    }
}

struct AlwaysAdded;

impl Steps for AlwaysAdded {
    fn check_answer(&self, settings: &Settings, w: usize, task: &Task) -> Option<Answer> {
        let answer = True.check_answer(settings, w, task);
        answer.map(|_| Answer::Added)
    }
}
