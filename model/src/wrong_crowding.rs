//! The wrong machines on crowding: what a full bucket at depth M does with an update, whether crowded
//! is settled, and whether it is tried again. While no b accounts agree in the first M bits each of
//! them does what the true one does.

use crate::records::{Answer, Kind, Settled, State, Update};
use crate::settings::Settings;
use crate::steps::{Steps, True};
use crate::task::Task;
use crate::working::Working;

#[derive(Clone, Copy, PartialEq, Eq, Debug)]
pub enum WrongCrowding {
    /// A crowded update is not settled, and so not answered.
    NotSettled,
    /// A crowded update is not settled: each check of a full bucket at depth M tells it anew.
    AtCheck,
    /// A check answers crowded where a full bucket at depth M does not have the ticket settled.
    Unsettled,
    /// A delete of an account that is there is crowded in a full bucket at depth M.
    Delete,
    /// A delete of an account that is not there is crowded in a full bucket at depth M.
    AbsentDelete,
    /// An insert to an account that is there is crowded in a full bucket at depth M.
    Replacement,
    /// A post to an account that is there is crowded in a full bucket at depth M.
    Post,
    /// A full bucket at depth M takes a new account.
    NewIntoFull,
    /// A full bucket at depth M holds updates back, as below it.
    HeldBack,
    /// The directory pass carries nothing out where the bucket is still full after the splits.
    HeldBackAfterSplits,
    /// A bucket pass tries an update whose bit is flipped again though it is settled as crowded.
    TriedAgain,
    /// A bucket pass tries every slot's update again that is settled as crowded, bit flipped or not.
    TriedAfterAnswer,
}

impl WrongCrowding {
    pub fn name(self) -> &'static str {
        match self {
            WrongCrowding::NotSettled => "crowded-not-settled",
            WrongCrowding::AtCheck => "crowded-at-check",
            WrongCrowding::Unsettled => "unsettled-crowded",
            WrongCrowding::Delete => "delete-crowded",
            WrongCrowding::AbsentDelete => "absent-delete-crowded",
            WrongCrowding::Replacement => "replacement-crowded",
            WrongCrowding::Post => "post-crowded",
            WrongCrowding::NewIntoFull => "new-into-full",
            WrongCrowding::HeldBack => "held-back-at-m",
            WrongCrowding::HeldBackAfterSplits => "held-back-after-splits",
            WrongCrowding::TriedAgain => "crowded-tried-again",
            WrongCrowding::TriedAfterAnswer => "crowded-tried-after-answer",
        }
    }

    pub(crate) fn machine(self) -> &'static dyn Steps {
        match self {
            WrongCrowding::NotSettled => &NotSettled,
            WrongCrowding::AtCheck => &AtCheck,
            WrongCrowding::Unsettled => &Unsettled,
            WrongCrowding::Delete => &Crowds(Kind::Delete, true),
            WrongCrowding::AbsentDelete => &Crowds(Kind::Delete, false),
            WrongCrowding::Replacement => &Crowds(Kind::Insert, true),
            WrongCrowding::Post => &Crowds(Kind::Post, true),
            WrongCrowding::NewIntoFull => &NewIntoFull,
            WrongCrowding::HeldBack => &HeldBack,
            WrongCrowding::HeldBackAfterSplits => &HeldBackAfterSplits,
            WrongCrowding::TriedAgain => &TriedAgain,
            WrongCrowding::TriedAfterAnswer => &TriedAfterAnswer,
        }
    }
}

struct NotSettled;

impl Steps for NotSettled {
    fn settle(&self, copy: &mut State, worker: usize, update: &Update, answer: Answer) {
        if answer != Answer::Crowded {
            True.settle(copy, worker, update, answer);
        }
    }
}

struct AtCheck;

impl Steps for AtCheck {
    fn settle(&self, copy: &mut State, worker: usize, update: &Update, answer: Answer) {
        NotSettled.settle(copy, worker, update, answer);
    }

    fn check_answer(&self, settings: &Settings, w: usize, task: &Task) -> Option<Answer> {
        let state = task.own_bucket().current();
        let no_room = True.is_crowded(settings, &state, &task.operation);
        let crowded = is_full_at_m(settings, task) && no_room;
        let answer = True.check_answer(settings, w, task);
        answer.or(crowded.then_some(Answer::Crowded))
    }
}

/// The bucket of a check is full at depth M.
fn is_full_at_m(settings: &Settings, task: &Task) -> bool {
    let bucket = task.own_bucket();
    let deepest = bucket.depth == settings.greatest_depth;
    deepest && bucket.current().is_full(settings.bucket_size)
}

struct Unsettled;

impl Steps for Unsettled {
    fn check_answer(&self, settings: &Settings, w: usize, task: &Task) -> Option<Answer> {
        let crowded = is_full_at_m(settings, task).then_some(Answer::Crowded);
        True.check_answer(settings, w, task).or(crowded)
    }
}

/// Crowded too: an update of this kind to an account that is there, or that is not.
struct Crowds(Kind, bool);

impl Steps for Crowds {
    fn is_crowded(&self, settings: &Settings, copy: &State, update: &Update) -> bool {
        let Crowds(kind, there) = *self;
        let meant = update.kind == kind && copy.find(update.account).is_some() == there;
        let full = copy.is_full(settings.bucket_size);
        True.is_crowded(settings, copy, update) || (full && meant)
    }
}

struct NewIntoFull;

impl Steps for NewIntoFull {
    fn is_crowded(&self, _: &Settings, _: &State, _: &Update) -> bool {
        false
    }
}

struct HeldBack;

impl Steps for HeldBack {
    fn holds_back(&self, settings: &Settings, _: u32, copy: &State, _: &Update) -> bool {
        copy.is_full(settings.bucket_size)
    }
}

struct HeldBackAfterSplits;

impl Steps for HeldBackAfterSplits {
    fn carry_out_there(&self, settings: &Settings, working: &Working, k: usize, update: &Update) {
        let state = working.bucket(update.account).current();
        if !state.is_full(settings.bucket_size) {
            True.carry_out_there(settings, working, k, update);
        }
    }
}

/// The update is settled as crowded.
fn is_settled_as_crowded(state: &State, worker: usize, update: &Update) -> bool {
    let crowded = Settled {
        ticket: update.ticket,
        answer: Some(Answer::Crowded),
    };
    state.settled[worker] == crowded
}

struct TriedAgain;

impl Steps for TriedAgain {
    fn is_pending(&self, copy: &State, worker: usize, update: &Update) -> bool {
        True.is_pending(copy, worker, update) || is_settled_as_crowded(copy, worker, update)
    }
}

struct TriedAfterAnswer;

impl Steps for TriedAfterAnswer {
    fn bucket_copy(&self, settings: &Settings, task: &Task) -> State {
        let read = task.state_read();
        let mut flipped = task.clone();
        for (j, slot) in task.slots.iter().enumerate() {
            if slot.is_some_and(|update| is_settled_as_crowded(read, j, &update)) {
                flipped.toggle[j] = !read.applied[j];
            }
        }
        let mut copy = TriedAgain.bucket_copy(settings, &flipped);
        copy.applied.clone_from(&task.toggle);
        copy
    }
}
