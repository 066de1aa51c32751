//! What operations answer, and what steps give.

use std::fmt;

use crate::raw::*;
use crate::Refusal;

/// What an operation answers.
#[derive(Clone, Copy, Debug, PartialEq, Eq, Hash)]
pub enum Answer {
    /// Insert: the account was not there.
    Added,
    /// Insert: the account was there.
    Replaced,
    /// Delete: the account was there.
    Removed,
    /// Delete: the account was not there.
    Absent,
    /// Lookup: the account's total.
    Found(i64),
    /// Lookup: the account is not there.
    None,
    /// Post: the account's new total. An account that was not there has started from 0.
    Posted(i64),
    /// Insert or post: the account was not there, and the [`place`](crate::place)s of b others agree with its place in
    /// the first M bits. Nothing changed: the update was not carried out. A delete, an insert that replaces and a post
    /// to an account that is there are never answered so.
    Crowded,
    /// Post: the account was there, and the sum is outside the 64-bit signed range. Nothing changed: the post was not
    /// carried out.
    Overrun,
}

impl Answer {
    /// The answer that a number from `TOTALS_ADDED` on is, with the word told for a total. The contracts leave no other
    /// number; one is never taken for an answer.
    fn of(number: u64, total: u64) -> Answer {
        match number {
            TOTALS_ADDED => Answer::Added,
            TOTALS_REPLACED => Answer::Replaced,
            TOTALS_REMOVED => Answer::Removed,
            TOTALS_ABSENT => Answer::Absent,
            TOTALS_FOUND => Answer::Found(total as i64),
            TOTALS_NONE => Answer::None,
            TOTALS_POSTED => Answer::Posted(total as i64),
            TOTALS_CROWDED => Answer::Crowded,
            TOTALS_OVERRUN => Answer::Overrun,
            _ => unreachable!("{number} is no answer of the library"),
        }
    }

    /// The number that a step returns with the answer, and the word that tells its total, 0 where it has none.
    pub(crate) fn words(self) -> [u64; 2] {
        match self {
            Answer::Added => [TOTALS_ADDED, 0],
            Answer::Replaced => [TOTALS_REPLACED, 0],
            Answer::Removed => [TOTALS_REMOVED, 0],
            Answer::Absent => [TOTALS_ABSENT, 0],
            Answer::Found(total) => [TOTALS_FOUND, total as u64],
            Answer::None => [TOTALS_NONE, 0],
            Answer::Posted(total) => [TOTALS_POSTED, total as u64],
            Answer::Crowded => [TOTALS_CROWDED, 0],
            Answer::Overrun => [TOTALS_OVERRUN, 0],
        }
    }
}

/// The answer's word, and the total where there is one: `found 700`, `posted 700`.
impl fmt::Display for Answer {
    fn fmt(&self, f: &mut fmt::Formatter<'_>) -> fmt::Result {
        match self {
            Answer::Added => f.write_str("added"),
            Answer::Replaced => f.write_str("replaced"),
            Answer::Removed => f.write_str("removed"),
            Answer::Absent => f.write_str("absent"),
            Answer::Found(total) => write!(f, "found {total}"),
            Answer::None => f.write_str("none"),
            Answer::Posted(total) => write!(f, "posted {total}"),
            Answer::Crowded => f.write_str("crowded"),
            Answer::Overrun => f.write_str("overrun"),
        }
    }
}

/// What one step gives.
#[derive(Clone, Copy, Debug, PartialEq, Eq, Hash)]
#[must_use = "an insert or a post that is answered crowded or overrun was not carried out"]
pub enum Stepped {
    /// The operation goes on.
    Moved,
    /// The operation has ended and its worker is idle again.
    Answered {
        /// The operation's answer.
        answer: Answer,
        /// The steps it took in all: 2 where it is a lookup, else
        /// [`Settings::steps_at_check`](crate::Settings::steps_at_check) of the check.
        steps: u64,
        /// Which of its four checks answered an update, 1 to 4; 0 where it is a lookup.
        check: u64,
    },
}

/// What up to so many steps give.
#[derive(Clone, Copy, Debug, PartialEq, Eq, Hash)]
#[must_use = "an insert or a post that is answered crowded or overrun was not carried out"]
pub enum Ran {
    /// So many steps were given, and the operation goes on.
    Moved(u64),
    /// The operation has ended and its worker is idle again.
    Answered {
        /// The operation's answer.
        answer: Answer,
        /// The steps it took in all: 2 where it is a lookup, else
        /// [`Settings::steps_at_check`](crate::Settings::steps_at_check) of the check.
        steps: u64,
        /// Which of its four checks answered an update, 1 to 4; 0 where it is a lookup.
        check: u64,
    },
}

/// What steps tell beside a number: how many there were, a total, and a check.
pub(crate) type Report = [u64; 3];

/// What a run's number and report say.
pub(crate) fn ran(number: u64, report: Report) -> Result<Ran, Refusal> {
    let [steps, total, check] = report;
    match number {
        TOTALS_MOVED => Ok(Ran::Moved(steps)),
        _ if number < TOTALS_ADDED => Err(Refusal::of(number)),
        _ => Ok(Ran::Answered { answer: Answer::of(number, total), steps, check }),
    }
}

/// What a step's number and report say.
pub(crate) fn stepped(number: u64, report: Report) -> Result<Stepped, Refusal> {
    match ran(number, report)? {
        Ran::Moved(_) => Ok(Stepped::Moved),
        Ran::Answered { answer, steps, check } => Ok(Stepped::Answered { answer, steps, check }),
    }
}
