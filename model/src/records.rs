//! The records of the table: announced updates, bucket states, buckets and directories.
//! Records are shared by reference, and identity is the identity of the reference.

use crate::places::{first_bits, place};
use crate::settings::Settings;
use std::cell::RefCell;
use std::rc::Rc;

/// The numbers of the kinds in a call.
pub const KIND_INSERT: u64 = 1;
pub const KIND_DELETE: u64 = 2;
pub const KIND_LOOKUP: u64 = 3;
pub const KIND_POST: u64 = 4;

/// The greatest ticket number, and with it how many updates one worker may make.
pub const GREATEST_TICKET: u64 = u64::MAX;

/// What an operation does.
#[derive(Clone, Copy, PartialEq, Eq, PartialOrd, Ord, Hash, Debug)]
pub enum Kind {
    Insert,
    Delete,
    Lookup,
    Post,
}

impl Kind {
    pub const ALL: [Kind; 4] = [Kind::Insert, Kind::Delete, Kind::Lookup, Kind::Post];

    pub fn number(self) -> u64 {
        match self {
            Kind::Insert => KIND_INSERT,
            Kind::Delete => KIND_DELETE,
            Kind::Lookup => KIND_LOOKUP,
            Kind::Post => KIND_POST,
        }
    }

    /// The kind that a number in a call means, if it means one.
    pub fn of(number: u64) -> Option<Kind> {
        Kind::ALL.into_iter().find(|kind| kind.number() == number)
    }
}

/// What an operation is answered.
#[derive(Clone, Copy, PartialEq, Eq, PartialOrd, Ord, Hash, Debug)]
pub enum Answer {
    Added,
    Replaced,
    Removed,
    Absent,
    Found(i64),
    None,
    Crowded,
    /// With the account's new total.
    Posted(i64),
    /// The sum of a post is outside the range of totals.
    Overrun,
}

/// An announced update. The ticket is the worker's sequence number for it; the total of a post is
/// its amount.
#[derive(Clone, Copy, PartialEq, Eq, Debug)]
pub struct Update {
    pub kind: Kind,
    pub account: u32,
    pub total: i64,
    pub ticket: u64,
}

/// The last settled ticket (sequence number of the last update that was carried out or was crowded)
/// and its answer, with its total if posted.
#[derive(Clone, Copy, PartialEq, Eq, Debug, Default)]
pub struct Settled {
    pub ticket: u64,
    pub answer: Option<Answer>,
}

/// A bucket state. It never changes once it is shared.
#[derive(Clone, PartialEq, Eq, Debug)]
pub struct State {
    pub items: Vec<(u32, i64)>,
    pub applied: Vec<bool>,
    pub settled: Vec<Settled>,
}

/// A bucket: depth and prefix are fixed, state and toggle are shared cells.
#[derive(Debug)]
pub struct Bucket {
    pub depth: u32,
    pub prefix: u32,
    pub state: RefCell<Rc<State>>,
    pub toggle: RefCell<Vec<bool>>,
}

/// A directory. It never changes once it is shared.
#[derive(Debug)]
pub struct Directory {
    pub depth: u32,
    pub entries: Vec<Rc<Bucket>>,
}

impl State {
    /// No accounts, bits 0, ticket numbers 0.
    pub fn empty(workers: usize) -> State {
        State {
            items: Vec::new(),
            applied: vec![false; workers],
            settled: vec![Settled::default(); workers],
        }
    }

    pub fn find(&self, account: u32) -> Option<i64> {
        let mut all = self.items.iter();
        all.find(|item| item.0 == account).map(|item| item.1)
    }

    pub fn is_full(&self, bucket_size: usize) -> bool {
        self.items.len() >= bucket_size
    }

    /// Full, in a bucket of this depth below M: it has to be split before it takes an update.
    pub fn is_full_below(&self, settings: &Settings, depth: u32) -> bool {
        self.is_full(settings.bucket_size) && depth < settings.greatest_depth
    }

    /// Whether an update would make its account here: it is an insert or a post, and the account is
    /// not there.
    pub fn creates(&self, update: &Update) -> bool {
        let puts = matches!(update.kind, Kind::Insert | Kind::Post);
        puts && self.find(update.account).is_none()
    }

    /// A ticket is settled when the settled number is not below it.
    pub fn is_settled(&self, worker: usize, ticket: u64) -> bool {
        self.settled[worker].ticket >= ticket
    }

    /// Settles an update's ticket on this private copy, with this answer.
    pub fn settle(&mut self, worker: usize, update: &Update, answer: Answer) {
        self.settled[worker] = Settled {
            ticket: update.ticket,
            answer: Some(answer),
        };
    }

    /// Changes the accounts as an update has it, and gives its answer.
    pub fn change(&mut self, update: &Update) -> Answer {
        let index = self.items.iter().position(|item| item.0 == update.account);
        match (update.kind, index) {
            (Kind::Insert, Some(at)) => {
                self.items[at].1 = update.total;
                Answer::Replaced
            }
            (Kind::Insert, None) => {
                self.items.push((update.account, update.total));
                Answer::Added
            }
            (Kind::Delete, Some(at)) => {
                self.items.swap_remove(at);
                Answer::Removed
            }
            (Kind::Delete, None) => Answer::Absent,
            (Kind::Post, _) => self.post(update),
            (Kind::Lookup, _) => unreachable!("a lookup is not announced"),
        }
    }

    /// The sum becomes the account's total, unless it is outside the range of totals.
    fn post(&mut self, update: &Update) -> Answer {
        let before = self.find(update.account).unwrap_or(0);
        let Some(sum) = before.checked_add(update.total) else {
            return Answer::Overrun;
        };
        self.put(update.account, sum);
        Answer::Posted(sum)
    }

    /// Sets the account's total; the account is made if it is not there.
    pub fn put(&mut self, account: u32, total: i64) {
        match self.items.iter_mut().find(|item| item.0 == account) {
            Some(item) => item.1 = total,
            None => self.items.push((account, total)),
        }
    }
}

impl Bucket {
    pub fn new(depth: u32, prefix: u32, state: State) -> Rc<Bucket> {
        let toggle = vec![false; state.applied.len()];
        Rc::new(Bucket {
            depth,
            prefix,
            state: RefCell::new(Rc::new(state)),
            toggle: RefCell::new(toggle),
        })
    }

    /// A reference to the current state (one read of a shared cell).
    pub fn current(&self) -> Rc<State> {
        Rc::clone(&self.state.borrow())
    }

    /// The place's first bits are the prefix.
    pub fn has_place(&self, place: u32) -> bool {
        first_bits(place, self.depth) == self.prefix
    }

    /// The account belongs here.
    pub fn covers(&self, account: u32) -> bool {
        self.has_place(place(account))
    }
}

impl Directory {
    /// The bucket at the entry that a place's first bits choose.
    pub fn at(&self, place: u32) -> &Rc<Bucket> {
        &self.entries[first_bits(place, self.depth) as usize]
    }

    /// The bucket that the account belongs to.
    pub fn bucket(&self, account: u32) -> &Rc<Bucket> {
        self.at(place(account))
    }
}
