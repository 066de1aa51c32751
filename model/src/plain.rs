//! The plain table: the sequential specification, with the crowding rule. Places are compared by
//! division, apart from the machine.

use crate::records::{Answer, Kind};
use crate::settings::Settings;
use std::collections::BTreeMap;

/// Accounts, each once, each with a total. It knows no workers, steps or buckets.
#[derive(Clone, PartialEq, Eq, PartialOrd, Ord, Debug)]
pub struct Plain {
    pub bucket_size: usize,
    pub greatest_depth: u32,
    pub accounts: BTreeMap<u32, i64>,
}

impl Plain {
    pub fn new(settings: &Settings) -> Plain {
        Plain {
            bucket_size: settings.bucket_size,
            greatest_depth: settings.greatest_depth,
            accounts: BTreeMap::new(),
        }
    }

    /// Which of the 2^M equal parts of all places an account's place is in: its first M bits.
    fn part(&self, account: u32) -> u64 {
        let place = u64::from(account) * 2_654_435_761 % 4_294_967_296;
        place / (4_294_967_296 >> self.greatest_depth)
    }

    /// Whether the places of two accounts agree in the first M bits.
    pub fn agree(&self, one: u32, other: u32) -> bool {
        self.part(one) == self.part(other)
    }

    /// Whether b accounts' places agree with this one's in the first M bits, its own counted if it
    /// is there.
    pub fn is_full_around(&self, account: u32) -> bool {
        let agreeing = self
            .accounts
            .keys()
            .filter(|other| self.agree(**other, account));
        agreeing.count() >= self.bucket_size
    }

    /// Whether an operation would make its account: it is an insert or a post, and the account is
    /// not there.
    fn creates(&self, kind: Kind, account: u32) -> bool {
        let puts = matches!(kind, Kind::Insert | Kind::Post);
        puts && !self.accounts.contains_key(&account)
    }

    /// Feeds one operation; the total counts for an insert, and for a post, whose amount it is.
    /// Crowded is exactly a new account where b others agree with it in their places' first M bits:
    /// what is there can be replaced, posted to and removed, however many neighbours it has.
    pub fn apply(&mut self, kind: Kind, account: u32, total: i64) -> Answer {
        match kind {
            Kind::Lookup => match self.accounts.get(&account) {
                Some(total) => Answer::Found(*total),
                None => Answer::None,
            },
            _ if self.creates(kind, account) && self.is_full_around(account) => Answer::Crowded,
            Kind::Insert => match self.accounts.insert(account, total) {
                Some(_) => Answer::Replaced,
                None => Answer::Added,
            },
            Kind::Delete => match self.accounts.remove(&account) {
                Some(_) => Answer::Removed,
                None => Answer::Absent,
            },
            Kind::Post => self.post(account, total),
        }
    }

    /// An account that is not there starts from 0 and is made, also by an amount of 0.
    fn post(&mut self, account: u32, amount: i64) -> Answer {
        let before = self.accounts.get(&account).copied().unwrap_or(0);
        match i64::try_from(i128::from(before) + i128::from(amount)) {
            Ok(sum) => {
                self.accounts.insert(account, sum);
                Answer::Posted(sum)
            }
            Err(_) => Answer::Overrun,
        }
    }

    /// Whether a listing shows exactly this table.
    pub fn lists_as(&self, items: &[(u32, i64)]) -> bool {
        let own = self
            .accounts
            .iter()
            .map(|(account, total)| (*account, *total));
        own.eq(items.iter().copied())
    }
}
