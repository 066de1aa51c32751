//! Why a call was turned down.

use crate::raw::*;
use std::{error, fmt};

/// Why a call was turned down. A refused call has changed no word, no list and no output. Crowded and overrun, the
/// numbers 9 and 11, are [`Answer`](crate::Answer)s.
///
/// ```
/// use totals::{Refusal, Settings};
/// let refusal = Settings::new(9, 2, 1).unwrap_err();
/// assert_eq!(refusal, Refusal::Settings);
/// assert_eq!(refusal.number(), 1);
/// assert_eq!(refusal.to_string(), "settings: n, b or M is outside its range");
/// ```
#[derive(Clone, Copy, Debug, PartialEq, Eq, Hash)]
pub enum Refusal {
    /// A setting is outside its range.
    Settings,
    /// Fewer words lent than needed.
    Short,
    /// The worker's number is n or more; workers count from 0.
    Stranger,
    /// A call to a worker whose operation has no answer yet.
    Busy,
    /// A step for a worker without operation.
    Idle,
    /// No kind of operation; the methods of [`Table`](crate::Table) never give one.
    Kind,
    /// An insert, a delete or a post by a worker that has no ticket number left: each of its updates takes the next
    /// one, from 1 on after an opening, and 18,446,744,073,709,551,615 is the last. A lookup takes none.
    Spent,
    /// The words are no table.
    Strange,
    /// A list is shorter than the count, the output than the exported file, or the list for the order than the log.
    Narrow,
    /// The words are no log: they make no whole operations; there are more than 12; two of all positions are equal; an
    /// end is not after its call; two operations of one worker overlap; a kind is none of the four; or an account has
    /// more than 32 bits.
    BadLog,
}

impl Refusal {
    const ALL: [Refusal; 10] = [
        Refusal::Settings,
        Refusal::Short,
        Refusal::Stranger,
        Refusal::Busy,
        Refusal::Idle,
        Refusal::Kind,
        Refusal::Spent,
        Refusal::Strange,
        Refusal::Narrow,
        Refusal::BadLog,
    ];

    /// The refusal that a number other than 0 and below the answers is; the contracts leave no other.
    pub(crate) fn of(number: u64) -> Refusal {
        let named = Self::ALL.into_iter().find(|refusal| refusal.number() == number);
        named.unwrap_or_else(|| unreachable!("{number} is no refusal of the library"))
    }

    /// The refusal's number.
    pub fn number(self) -> u64 {
        match self {
            Refusal::Settings => TOTALS_SETTINGS,
            Refusal::Short => TOTALS_SHORT,
            Refusal::Stranger => TOTALS_STRANGER,
            Refusal::Busy => TOTALS_BUSY,
            Refusal::Idle => TOTALS_IDLE,
            Refusal::Kind => TOTALS_KIND,
            Refusal::Spent => TOTALS_SPENT,
            Refusal::Strange => TOTALS_STRANGE,
            Refusal::Narrow => TOTALS_NARROW,
            Refusal::BadLog => TOTALS_BAD_LOG,
        }
    }

    /// The refusal's word.
    pub fn word(self) -> &'static str {
        match self {
            Refusal::Settings => "settings",
            Refusal::Short => "short",
            Refusal::Stranger => "stranger",
            Refusal::Busy => "busy",
            Refusal::Idle => "idle",
            Refusal::Kind => "kind",
            Refusal::Spent => "spent",
            Refusal::Strange => "strange",
            Refusal::Narrow => "narrow",
            Refusal::BadLog => "bad log",
        }
    }

    /// When it is given.
    fn given(self) -> &'static str {
        match self {
            Refusal::Settings => "n, b or M is outside its range",
            Refusal::Short => "fewer words lent than needed",
            Refusal::Stranger => "worker number is n or more",
            Refusal::Busy => "a call to a worker whose operation has no answer yet",
            Refusal::Idle => "a step for a worker without operation",
            Refusal::Kind => "not 1 insert, 2 delete, 3 lookup, 4 post",
            Refusal::Spent => "insert, delete or post by a worker that has no ticket number left",
            Refusal::Strange => "memory fails the checks",
            Refusal::Narrow => "a list shorter than what is to be written to it, or output than the file",
            Refusal::BadLog => {
                "more than 12 operations, a position twice, an end not after its call, \
                 operations of one worker that overlap, or what is no operation"
            }
        }
    }
}

impl fmt::Display for Refusal {
    fn fmt(&self, f: &mut fmt::Formatter<'_>) -> fmt::Result {
        write!(f, "{}: {}", self.word(), self.given())
    }
}

impl error::Error for Refusal {}
