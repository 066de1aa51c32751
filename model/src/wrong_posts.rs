//! The wrong machines on posts: another sum, another total told, an overrun that is not settled, or
//! decided at the wrong place. Without posts each of them does what the true one does.

use crate::records::{Answer, Kind, State, Update};
use crate::settings::Settings;
use crate::steps::{Steps, True};
use crate::task::Task;

#[derive(Clone, Copy, PartialEq, Eq, Debug)]
pub enum WrongPost {
    /// The amount becomes the account's total.
    Replaces,
    /// A sum outside the range is taken modulo 2^64.
    OverrunWraps,
    /// A sum outside the range becomes the end that is nearer to it.
    OverrunSaturates,
    /// The right half of a split gets 0 for the total of each settled posted.
    TotalNotCopied,
    /// An amount of 0 does not make an account that is not there.
    ZeroMakesNothing,
    /// A post is carried out as a delete.
    Deletes,
    /// A bucket state has one total for all settled posted: that of the last post carried out.
    LastTotalTold,
    /// A bucket pass carries out a post whose bit is flipped though its ticket is settled.
    HelpedTwice,
    /// An overrun is not settled: each check of a bucket that holds nothing back tries it again.
    OverrunNotSettled,
}

impl WrongPost {
    pub const ALL: [WrongPost; 9] = [
        WrongPost::Replaces,
        WrongPost::OverrunWraps,
        WrongPost::OverrunSaturates,
        WrongPost::TotalNotCopied,
        WrongPost::ZeroMakesNothing,
        WrongPost::Deletes,
        WrongPost::LastTotalTold,
        WrongPost::HelpedTwice,
        WrongPost::OverrunNotSettled,
    ];

    pub fn name(self) -> &'static str {
        match self {
            WrongPost::Replaces => "post-replaces",
            WrongPost::OverrunWraps => "overrun-wraps",
            WrongPost::OverrunSaturates => "overrun-saturates",
            WrongPost::TotalNotCopied => "posted-total-not-copied",
            WrongPost::ZeroMakesNothing => "post-of-zero-makes-nothing",
            WrongPost::Deletes => "post-deletes",
            WrongPost::LastTotalTold => "last-total-told",
            WrongPost::HelpedTwice => "post-helped-twice",
            WrongPost::OverrunNotSettled => "overrun-not-settled",
        }
    }

    pub(crate) fn machine(self) -> &'static dyn Steps {
        match self {
            WrongPost::Replaces => &Replaces,
            WrongPost::OverrunWraps => &OverrunWraps,
            WrongPost::OverrunSaturates => &OverrunSaturates,
            WrongPost::TotalNotCopied => &TotalNotCopied,
            WrongPost::ZeroMakesNothing => &ZeroMakesNothing,
            WrongPost::Deletes => &Deletes,
            WrongPost::LastTotalTold => &LastTotalTold,
            WrongPost::HelpedTwice => &HelpedTwice,
            WrongPost::OverrunNotSettled => &OverrunNotSettled,
        }
    }
}

/// The account's total before an update, 0 where it is not there.
fn before(state: &State, update: &Update) -> i64 {
    state.find(update.account).unwrap_or(0)
}

/// A post whose sum is outside the range.
fn overruns(state: &State, update: &Update) -> bool {
    let sum = before(state, update).checked_add(update.total);
    update.kind == Kind::Post && sum.is_none()
}

/// Sets the account's total to this in place of the sum; any other update is as it should be.
fn post(copy: &mut State, update: &Update, total: i64) -> Answer {
    if update.kind != Kind::Post {
        return True.change(copy, update);
    }
    copy.put(update.account, total);
    Answer::Posted(total)
}

struct Replaces;

impl Steps for Replaces {
    fn change(&self, copy: &mut State, update: &Update) -> Answer {
        post(copy, update, update.total)
    }
}

struct OverrunWraps;

impl Steps for OverrunWraps {
    fn change(&self, copy: &mut State, update: &Update) -> Answer {
        let sum = before(copy, update).wrapping_add(update.total);
        post(copy, update, sum)
    }
}

struct OverrunSaturates;

impl Steps for OverrunSaturates {
    fn change(&self, copy: &mut State, update: &Update) -> Answer {
        let sum = before(copy, update).saturating_add(update.total);
        post(copy, update, sum)
    }
}

/// The settled answers of posts are told with this total.
fn tell(state: &mut State, total: i64) {
    for settled in &mut state.settled {
        if let Some(Answer::Posted(told)) = &mut settled.answer {
            *told = total;
        }
    }
}

struct TotalNotCopied;

impl Steps for TotalNotCopied {
    fn half(&self, state: &State, depth: u32, prefix: u32) -> State {
        let mut half = True.half(state, depth, prefix);
        if prefix % 2 == 1 {
            tell(&mut half, 0);
        }
        half
    }
}

struct ZeroMakesNothing;

impl Steps for ZeroMakesNothing {
    fn change(&self, copy: &mut State, update: &Update) -> Answer {
        let zero = update.kind == Kind::Post && update.total == 0;
        match zero && copy.find(update.account).is_none() {
            true => Answer::Posted(0),
            false => True.change(copy, update),
        }
    }
}

struct Deletes;

impl Steps for Deletes {
    fn change(&self, copy: &mut State, update: &Update) -> Answer {
        let kind = match update.kind {
            Kind::Post => Kind::Delete,
            kind => kind,
        };
        True.change(copy, &Update { kind, ..*update })
    }
}

struct LastTotalTold;

impl Steps for LastTotalTold {
    fn settle(&self, copy: &mut State, worker: usize, update: &Update, answer: Answer) {
        True.settle(copy, worker, update, answer);
        if let Answer::Posted(total) = answer {
            tell(copy, total);
        }
    }
}

struct HelpedTwice;

impl Steps for HelpedTwice {
    fn is_pending(&self, copy: &State, worker: usize, update: &Update) -> bool {
        update.kind == Kind::Post || True.is_pending(copy, worker, update)
    }
}

struct OverrunNotSettled;

impl Steps for OverrunNotSettled {
    fn settle(&self, copy: &mut State, worker: usize, update: &Update, answer: Answer) {
        if answer != Answer::Overrun {
            True.settle(copy, worker, update, answer);
        }
    }

    fn check_answer(&self, settings: &Settings, w: usize, task: &Task) -> Option<Answer> {
        let bucket = task.own_bucket();
        let state = bucket.current();
        let held_back = state.is_full_below(settings, bucket.depth);
        let tried = !held_back && overruns(&state, &task.operation);
        let overrun = tried.then_some(Answer::Overrun);
        True.check_answer(settings, w, task).or(overrun)
    }
}
