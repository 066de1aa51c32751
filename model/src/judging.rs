//! Judges a log by permutations: depth-first over the orders of its operations, each only where it
//! may come next and the plain table gives its answer, lowest place first. What has failed is
//! remembered, which changes no verdict: from the same table the same operations fail again.

use crate::log::{read, Log};
use crate::plain::Plain;
use crate::records::Kind;
use crate::refusal;
use crate::settings::Settings;
use std::collections::BTreeSet;
use std::fmt::{self, Display, Formatter};

/// Operations of a log at most.
pub const MOST: usize = 12;

/// What `judge` prints.
#[derive(Clone, PartialEq, Eq, Debug)]
pub enum Verdict {
    /// The places in an order that explains the log.
    Order(Vec<usize>),
    No,
    Refused(u8),
    /// The number of the first line that is none of a log.
    Unread(usize),
}

/// Judges an input.
pub fn judge_input(input: &[u8]) -> Verdict {
    match read(input) {
        Ok(log) => judge(&log, MOST),
        Err(line) => Verdict::Unread(line),
    }
}

/// Judges a log, with room for so many places in the list for the order.
pub fn judge(log: &Log, room: usize) -> Verdict {
    match refused(log, room) {
        Some(number) => Verdict::Refused(number),
        None => first_order(log).map_or(Verdict::No, Verdict::Order),
    }
}

/// The refusal, if there is one: 1, 14, 10.
pub fn refused(log: &Log, room: usize) -> Option<u8> {
    if table(log).is_none() {
        Some(refusal::SETTINGS)
    } else if is_bad(log) {
        Some(refusal::BAD_LOG)
    } else {
        (room < log.operations.len()).then_some(refusal::NARROW)
    }
}

/// The plain table that the operations start from; none where the settings are out of range.
pub fn table(log: &Log) -> Option<Plain> {
    let settings = Settings::new(1, log.b, log.m).ok()?;
    Some(Plain::new(&settings))
}

/// Whether it is no log of at most 12 operations.
pub fn is_bad(log: &Log) -> bool {
    let all = &log.operations;
    let kinds_are_known = all.iter().all(|one| Kind::of(one.kind).is_some());
    all.len() > MOST || !kinds_are_known || repeats(log) || runs_back(log) || overlaps(log)
}

/// Whether two of all positions are equal.
pub fn repeats(log: &Log) -> bool {
    let positions = log.operations.iter().flat_map(|one| [one.call, one.end]);
    let different: BTreeSet<u64> = positions.collect();
    different.len() < 2 * log.operations.len()
}

/// Whether an answer is not after its call.
pub fn runs_back(log: &Log) -> bool {
    log.operations.iter().any(|one| one.end <= one.call)
}

/// Whether two operations of one worker overlap.
pub fn overlaps(log: &Log) -> bool {
    let all = &log.operations;
    let meets = |i: usize, j: usize| {
        let (one, other) = (&all[i], &all[j]);
        one.worker == other.worker && !one.ended_before(other) && !other.ended_before(one)
    };
    (0..all.len()).any(|i| (0..i).any(|j| meets(i, j)))
}

/// Whether an order has each place once, puts no operation before one that was answered before its
/// call, and the plain table gives every answer.
pub fn explains(log: &Log, order: &[usize]) -> bool {
    let all = &log.operations;
    let mut sorted = order.to_vec();
    sorted.sort_unstable();
    if !sorted.into_iter().eq(0..all.len()) {
        return false;
    }
    let breach = |i: usize| (0..i).any(|j| all[order[i]].ended_before(&all[order[j]]));
    let Some(mut table) = table(log) else {
        return false;
    };
    let told = |place: &usize| feed(log, &mut table, *place);
    !(0..order.len()).any(breach) && order.iter().all(told)
}

/// Feeds the operation at a place to the table, and says whether it gives the logged answer.
pub fn feed(log: &Log, table: &mut Plain, place: usize) -> bool {
    let one = &log.operations[place];
    let fed = Kind::of(one.kind).map(|kind| table.apply(kind, one.account, one.total));
    fed.is_some_and(|answer| one.was_told(answer))
}

/// The search under way.
struct Orders<'a> {
    log: &'a Log,
    /// Per place the set of those that were answered before its call.
    before: Vec<u16>,
    /// What is left to place and the table there, where no order goes on to the end.
    failed: BTreeSet<(u16, Plain)>,
    order: Vec<usize>,
}

/// The first order that explains a good log, comparing orders place by place.
pub fn first_order(log: &Log) -> Option<Vec<usize>> {
    let all = &log.operations;
    let set = |one| {
        let ended = (0..all.len()).filter(|place| all[*place].ended_before(one));
        ended.map(|place| 1 << place).sum()
    };
    let mut orders = Orders {
        log,
        before: all.iter().map(set).collect(),
        failed: BTreeSet::new(),
        order: Vec::new(),
    };
    let every = (1 << all.len()) - 1;
    orders.extend(every, &table(log)?).then_some(orders.order)
}

impl Orders<'_> {
    /// Whether the operations left can follow in some order; it is then put behind what there is.
    fn extend(&mut self, left: u16, table: &Plain) -> bool {
        if left == 0 {
            return true;
        }
        for place in 0..self.before.len() {
            if left & 1 << place == 0 || left & self.before[place] != 0 {
                continue;
            }
            let mut next = table.clone();
            if !feed(self.log, &mut next, place) {
                continue;
            }
            self.order.push(place);
            let key = (left & !(1 << place), next);
            if !self.failed.contains(&key) {
                if self.extend(key.0, &key.1) {
                    return true;
                }
                self.failed.insert(key);
            }
            self.order.pop();
        }
        false
    }
}

impl Display for Verdict {
    fn fmt(&self, out: &mut Formatter<'_>) -> fmt::Result {
        match self {
            Verdict::Order(order) => {
                write!(out, "order")?;
                order.iter().try_for_each(|place| write!(out, " {place}"))
            }
            Verdict::No => write!(out, "no"),
            Verdict::Refused(number) => write!(out, "refused {number}"),
            Verdict::Unread(line) => write!(out, "unread {line}"),
        }
    }
}
