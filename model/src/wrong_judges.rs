//! Wrong judges, each told from the right one by some log and some room for the order.

use crate::judging::{is_bad, overlaps, repeats, runs_back, table, Verdict, MOST};
use crate::log::{Log, Logged, Word};
use crate::plain::Plain;
use crate::records::{Answer, Kind};
use crate::refusal::{BAD_LOG, NARROW, SETTINGS};
use std::collections::BTreeSet;

#[derive(Clone, Copy, PartialEq, Eq, Debug)]
pub enum WrongJudge {
    /// A list too short for the order is refused before a bad log.
    NarrowBeforeBad,
    /// A bad log is refused before settings.
    BadBeforeSettings,
    /// An operation stands behind all that were called before it.
    RealTimeByCalls,
    /// Operations stand in any order.
    NoRealTime,
    /// The total of posted does not count.
    PostedTotalIgnored,
    /// The total of added is compared with the operation's.
    AddedTotalCompared,
    /// 13 operations are no bad log.
    ThirteenAccepted,
    /// Positions may repeat.
    PositionsRepeat,
    /// The table holds account 0 at first.
    NotEmptyAtFirst,
    /// The search tries places from 1 on.
    FromPlaceOne,
    /// An account counts among those that crowd it.
    CrowdedByItself,
    /// Operations of one worker may overlap.
    OverlapAccepted,
    /// Crowding compares the first bits of the numbers.
    CrowdedByNumber,
    /// The search tries the highest place first.
    HighestPlaceFirst,
    /// The search tries the earliest call first.
    EarliestCallFirst,
    /// The search tries the earliest end first.
    EarliestEndFirst,
}

/// What is left to place, and the table.
type Situation = (u16, Plain);

impl WrongJudge {
    pub const ALL: [WrongJudge; 16] = [
        WrongJudge::NarrowBeforeBad,
        WrongJudge::BadBeforeSettings,
        WrongJudge::RealTimeByCalls,
        WrongJudge::NoRealTime,
        WrongJudge::PostedTotalIgnored,
        WrongJudge::AddedTotalCompared,
        WrongJudge::ThirteenAccepted,
        WrongJudge::PositionsRepeat,
        WrongJudge::NotEmptyAtFirst,
        WrongJudge::FromPlaceOne,
        WrongJudge::CrowdedByItself,
        WrongJudge::OverlapAccepted,
        WrongJudge::CrowdedByNumber,
        WrongJudge::HighestPlaceFirst,
        WrongJudge::EarliestCallFirst,
        WrongJudge::EarliestEndFirst,
    ];
    /// Those that answer as the right judge, but show another order that explains the log.
    pub const OTHER_ORDERS: [WrongJudge; 3] = [
        WrongJudge::HighestPlaceFirst,
        WrongJudge::EarliestCallFirst,
        WrongJudge::EarliestEndFirst,
    ];

    /// Judges a log, with room for so many places of the order.
    pub fn judge(self, log: &Log, room: usize) -> Verdict {
        let strange = table(log).is_none().then_some(SETTINGS);
        let bad = self.is_bad(log).then_some(BAD_LOG);
        let narrow = (room < log.operations.len()).then_some(NARROW);
        let checks = match self {
            WrongJudge::NarrowBeforeBad => [strange, narrow, bad],
            WrongJudge::BadBeforeSettings => [bad, strange, narrow],
            _ => [strange, bad, narrow],
        };
        if let Some(number) = checks.into_iter().flatten().next() {
            return Verdict::Refused(number);
        }
        let mut table = table(log).expect("settings in their range");
        if self == WrongJudge::NotEmptyAtFirst {
            table.accounts.insert(0, 0);
        }
        let every = (1 << log.operations.len()) - 1;
        let mut order = Vec::new();
        match self.extend(log, (every, table), &mut order, &mut BTreeSet::new()) {
            true => Verdict::Order(order),
            false => Verdict::No,
        }
    }

    fn is_bad(self, log: &Log) -> bool {
        let most = match self {
            WrongJudge::ThirteenAccepted => MOST + 1,
            WrongJudge::PositionsRepeat | WrongJudge::OverlapAccepted => MOST,
            _ => return is_bad(log),
        };
        let all = &log.operations;
        let kinds = all.iter().all(|one| Kind::of(one.kind).is_some());
        let repeats = self != WrongJudge::PositionsRepeat && repeats(log);
        let overlaps = self != WrongJudge::OverlapAccepted && overlaps(log);
        all.len() > most || !kinds || runs_back(log) || repeats || overlaps
    }

    /// The places, as they are tried.
    fn places(self, log: &Log) -> Vec<usize> {
        let all = &log.operations;
        let mut places: Vec<usize> = (0..all.len()).collect();
        match self {
            WrongJudge::FromPlaceOne => places.retain(|place| *place > 0),
            WrongJudge::HighestPlaceFirst => places.reverse(),
            WrongJudge::EarliestCallFirst => places.sort_by_key(|place| all[*place].call),
            WrongJudge::EarliestEndFirst => places.sort_by_key(|place| all[*place].end),
            _ => {}
        }
        places
    }

    /// As the right judge extends an order.
    fn extend(
        self,
        log: &Log,
        now: Situation,
        order: &mut Vec<usize>,
        failed: &mut BTreeSet<Situation>,
    ) -> bool {
        let (left, table) = &now;
        for place in self.places(log) {
            let mut next = table.clone();
            if !self.is_ready(log, *left, place) || !self.feed(&mut next, &log.operations[place]) {
                continue;
            }
            let next = (left & !(1 << place), next);
            order.push(place);
            if !failed.contains(&next) && self.extend(log, next, order, failed) {
                return true;
            }
            order.pop();
        }
        let is_found = *left == 0;
        failed.extend((!is_found).then_some(now));
        is_found
    }

    fn is_ready(self, log: &Log, left: u16, place: usize) -> bool {
        let all = &log.operations;
        let is_left = |place: usize| left & 1 << place != 0;
        let comes_first = |y: &Logged, x: &Logged| match self {
            WrongJudge::RealTimeByCalls => y.call < x.call,
            WrongJudge::NoRealTime => false,
            _ => y.ended_before(x),
        };
        let waits = |y: usize| is_left(y) && comes_first(&all[y], &all[place]);
        is_left(place) && !(0..all.len()).any(waits)
    }

    /// Feeds an operation, and says whether it got its answer.
    fn feed(self, table: &mut Plain, one: &Logged) -> bool {
        let kind = Kind::of(one.kind).expect("a kind");
        let answer = match self.is_crowded(table, kind, one.account) {
            Some(true) => Answer::Crowded,
            Some(false) => roomy(table, |table| table.apply(kind, one.account, one.total)),
            None => table.apply(kind, one.account, one.total),
        };
        match self {
            WrongJudge::PostedTotalIgnored if one.answer == Word::Posted => {
                Word::of(answer) == Word::Posted
            }
            WrongJudge::AddedTotalCompared if answer == Answer::Added => {
                one.was_told(answer) && one.answer_total == one.total
            }
            _ => one.was_told(answer),
        }
    }

    /// Whether the account is crowded, where this judge has a rule of its own.
    fn is_crowded(self, table: &Plain, kind: Kind, account: u32) -> Option<bool> {
        let all = || table.accounts.keys();
        let shift = 32 - table.greatest_depth;
        let number = |account: u32| account.checked_shr(shift).unwrap_or(0);
        let beside = match self {
            WrongJudge::CrowdedByItself => {
                1 + all().filter(|other| table.agree(**other, account)).count()
            }
            WrongJudge::CrowdedByNumber => all()
                .filter(|other| number(**other) == number(account))
                .count(),
            _ => return None,
        };
        let puts = matches!(kind, Kind::Insert | Kind::Post);
        let is_new = puts && !table.accounts.contains_key(&account);
        Some(is_new && beside >= table.bucket_size)
    }
}

/// What the table answers where nothing is crowded.
fn roomy(table: &mut Plain, apply: impl Fn(&mut Plain) -> Answer) -> Answer {
    let size = std::mem::replace(&mut table.bucket_size, usize::MAX);
    let answer = apply(table);
    table.bucket_size = size;
    answer
}
