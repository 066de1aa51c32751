//! The wrong machines on places: another place, accounts compared by number instead of by place, or
//! a listing that goes by places. On multiples of 2^28, which are their own places, each of them
//! does what the true one does.

use crate::places::{account_at, first_bits};
use crate::records::{Bucket, Directory, State, Update};
use crate::settings::Settings;
use crate::steps::{Steps, True};
use std::rc::Rc;

#[derive(Clone, Copy, PartialEq, Eq, Debug)]
pub enum WrongPlace {
    /// An account's place is its number.
    ByNumber,
    /// An account's place is the account at its number: the way back is taken for the way there.
    Backwards,
    /// A split takes each account to the half that its number's first bits say.
    SplitByNumber,
    /// Crowded is where b accounts of the bucket agree with the new one in their number's first M
    /// bits.
    CrowdedByNumber,
    /// The listing goes by places, ascending.
    ListedByPlace,
    /// At each entry the listing takes those accounts of its bucket whose number's first bits are
    /// the entry.
    FilteredByNumber,
}

impl WrongPlace {
    pub fn name(self) -> &'static str {
        match self {
            WrongPlace::ByNumber => "placed-by-number",
            WrongPlace::Backwards => "place-backwards",
            WrongPlace::SplitByNumber => "split-by-number",
            WrongPlace::CrowdedByNumber => "crowded-by-number",
            WrongPlace::ListedByPlace => "listed-by-place",
            WrongPlace::FilteredByNumber => "listing-filter-by-number",
        }
    }

    pub(crate) fn machine(self) -> &'static dyn Steps {
        match self {
            WrongPlace::ByNumber => &ByNumber,
            WrongPlace::Backwards => &Backwards,
            WrongPlace::SplitByNumber => &SplitByNumber,
            WrongPlace::CrowdedByNumber => &CrowdedByNumber,
            WrongPlace::ListedByPlace => &ListedByPlace,
            WrongPlace::FilteredByNumber => &FilteredByNumber,
        }
    }
}

struct ByNumber;

impl Steps for ByNumber {
    fn place(&self, account: u32) -> u32 {
        account
    }
}

struct Backwards;

impl Steps for Backwards {
    fn place(&self, account: u32) -> u32 {
        account_at(account)
    }
}

struct SplitByNumber;

impl Steps for SplitByNumber {
    fn half(&self, state: &State, depth: u32, prefix: u32) -> State {
        ByNumber.half(state, depth, prefix)
    }
}

struct CrowdedByNumber;

impl Steps for CrowdedByNumber {
    fn is_crowded(&self, settings: &Settings, copy: &State, update: &Update) -> bool {
        let bits = |account: u32| first_bits(account, settings.greatest_depth);
        let agrees = |item: &&(u32, i64)| bits(item.0) == bits(update.account);
        let agreeing = copy.items.iter().filter(agrees).count();
        agreeing >= settings.bucket_size && copy.creates(update)
    }
}

struct ListedByPlace;

impl Steps for ListedByPlace {
    fn sort(&self, items: &mut [(u32, i64)]) {
        items.sort_unstable_by_key(|item| True.place(item.0));
    }
}

struct FilteredByNumber;

impl Steps for FilteredByNumber {
    fn held(&self, directory: &Directory) -> Vec<(u32, i64)> {
        let at = |(entry, bucket): (usize, &Rc<Bucket>)| {
            let mut items = bucket.current().items.clone();
            items.retain(|item| first_bits(item.0, directory.depth) as usize == entry);
            items
        };
        directory.entries.iter().enumerate().flat_map(at).collect()
    }
}
