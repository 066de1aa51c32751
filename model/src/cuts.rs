//! The search through orders with two cuts, over the plain table, counting its nodes; and wrong
//! cuts, each of which some log tells from the right ones. Each cut alone, both and none find the
//! same order: the first that explains the log.

use crate::judging::{feed, table};
use crate::log::{Log, Word};
use crate::plain::Plain;

/// Which cuts are made.
#[derive(Clone, Copy, PartialEq, Eq, Debug, Default)]
pub struct Cuts {
    /// Cut 1: an operation of a lower place than the one chosen just before is left out where it
    /// could have been chosen before that one, with the same table after both.
    pub exchanged: bool,
    /// Cut 2: where an operation whose answer says that the table stays is chosen and fails, nothing
    /// else is tried.
    pub unchanging: bool,
    pub wrong: Option<WrongCut>,
}

/// A cut made where it must not be.
#[derive(Clone, Copy, PartialEq, Eq, Debug)]
pub enum WrongCut {
    /// Cut 2 for operations that merely change nothing here, as an insert of the same total.
    NothingChangedHere,
    /// Cut 2's operations are tried before those of lower places.
    UnchangingFirst,
    /// Cut 1 also where the operation was called after the end of the one before.
    WithoutRealTime,
    /// Cut 1 also where the tables differ.
    WithoutTables,
    /// Cut 1 also where the two do not get their answers the other way round.
    WithoutAnswers,
    /// Cut 1 for operations of higher places too.
    HigherPlaces,
}

impl WrongCut {
    pub const ALL: [WrongCut; 6] = [
        WrongCut::NothingChangedHere,
        WrongCut::UnchangingFirst,
        WrongCut::WithoutRealTime,
        WrongCut::WithoutTables,
        WrongCut::WithoutAnswers,
        WrongCut::HigherPlaces,
    ];
}

impl Cuts {
    pub const BOTH: Cuts = Cuts {
        exchanged: true,
        unchanging: true,
        wrong: None,
    };
    /// None, the first, the second, and both.
    pub const ALL: [Cuts; 4] = [
        Cuts::only(false, false),
        Cuts::only(true, false),
        Cuts::only(false, true),
        Cuts::BOTH,
    ];

    const fn only(exchanged: bool, unchanging: bool) -> Cuts {
        Cuts {
            exchanged,
            unchanging,
            wrong: None,
        }
    }

    pub const fn wrong(wrong: WrongCut) -> Cuts {
        Cuts {
            wrong: Some(wrong),
            ..Cuts::BOTH
        }
    }

    fn are(self, wrong: WrongCut) -> bool {
        self.wrong == Some(wrong)
    }
}

/// An account's total before an operation; none where it was not there.
type Held = Option<i64>;

/// The search under way.
struct Search<'a> {
    log: &'a Log,
    cuts: Cuts,
    /// The places, in the order in which they are tried.
    places: Vec<usize>,
    order: Vec<usize>,
    nodes: u64,
}

/// The order found, if one is, for a good log; and how many nodes were visited.
pub fn search(log: &Log, cuts: Cuts) -> (Option<Vec<usize>>, u64) {
    let mut places: Vec<usize> = (0..log.operations.len()).collect();
    if cuts.are(WrongCut::UnchangingFirst) {
        places.sort_by_key(|place| !is_unchanging(log, *place));
    }
    let mut search = Search {
        log,
        cuts,
        places,
        order: Vec::new(),
        nodes: 0,
    };
    let every = (1 << log.operations.len()) - 1;
    let mut table = table(log).expect("a good log");
    let found = search.node(every, &mut table, None);
    (found.then_some(search.order), search.nodes)
}

/// Whether an operation's answer says that the table stays as it is.
fn is_unchanging(log: &Log, place: usize) -> bool {
    let answer = log.operations[place].answer;
    matches!(
        answer,
        Word::Found | Word::None | Word::Absent | Word::Crowded | Word::Overrun
    )
}

impl Search<'_> {
    /// Whether the operations left can follow in some order. The last one chosen is given with what
    /// its account held before it.
    fn node(&mut self, left: u16, table: &mut Plain, last: Option<(usize, Held)>) -> bool {
        self.nodes += 1;
        if left == 0 {
            return true;
        }
        for i in 0..self.places.len() {
            let place = self.places[i];
            let tried = |(y, before)| self.was_tried(table, y, before, place);
            if !self.is_ready(left, place) || last.is_some_and(tried) {
                continue;
            }
            let Some(held) = self.choose(table, place) else {
                continue;
            };
            let changed = self.held(table, place) != held;
            self.order.push(place);
            if self.node(left & !(1 << place), table, Some((place, held))) {
                return true;
            }
            self.order.pop();
            self.undo(table, place, held);
            if self.ends_node(place, changed) {
                return false;
            }
        }
        false
    }

    /// Whether it is left, and nothing that is left was answered before its call.
    fn is_ready(&self, left: u16, place: usize) -> bool {
        let all = &self.log.operations;
        let is_left = |place: usize| left & 1 << place != 0;
        let waits = |y: usize| is_left(y) && all[y].ended_before(&all[place]);
        is_left(place) && !(0..all.len()).any(waits)
    }

    fn held(&self, table: &Plain, place: usize) -> Held {
        let account = self.log.operations[place].account;
        table.accounts.get(&account).copied()
    }

    /// Feeds an operation that gets its answer, and gives what its account held.
    fn choose(&self, table: &mut Plain, place: usize) -> Option<Held> {
        let held = self.held(table, place);
        if feed(self.log, table, place) {
            return Some(held);
        }
        self.undo(table, place, held);
        None
    }

    fn undo(&self, table: &mut Plain, place: usize, held: Held) {
        let account = self.log.operations[place].account;
        match held {
            Some(total) => table.accounts.insert(account, total),
            None => table.accounts.remove(&account),
        };
    }

    /// Cut 2.
    fn ends_node(&self, place: usize, changed: bool) -> bool {
        let stays = match self.cuts.wrong {
            Some(WrongCut::NothingChangedHere) => !changed,
            _ => is_unchanging(self.log, place),
        };
        self.cuts.unchanging && stays
    }

    /// Cut 1, for `x` after `y`, before which its account held so much.
    fn was_tried(&self, table: &mut Plain, y: usize, before: Held, x: usize) -> bool {
        let all = &self.log.operations;
        let is_lower = x < y || self.cuts.are(WrongCut::HigherPlaces);
        let waits = all[y].ended_before(&all[x]) && !self.cuts.are(WrongCut::WithoutRealTime);
        self.cuts.exchanged && is_lower && !waits && self.commute(table, y, before, x)
    }

    /// Whether `x` and then `y` get their answers too, with the same table after both. The table is
    /// the one after `y`, and stays.
    fn commute(&self, table: &mut Plain, y: usize, before: Held, x: usize) -> bool {
        let pair = |table: &Plain| (self.held(table, x), self.held(table, y));
        let middle = self.held(table, x);
        feed(self.log, table, x);
        let after = pair(table);
        self.undo(table, x, middle);
        let now = self.held(table, y);
        self.undo(table, y, before);
        let start = pair(table);
        let blind = self.cuts.are(WrongCut::WithoutAnswers);
        let fit = [x, y].map(|place| feed(self.log, table, place) || blind);
        let same = pair(table) == after || self.cuts.are(WrongCut::WithoutTables);
        self.undo(table, x, start.0);
        self.undo(table, y, start.1);
        self.undo(table, y, now);
        fit == [true, true] && same
    }
}
