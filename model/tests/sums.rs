//! No post is lost and none is added twice: sums made apart from the plain table and the machine.

use model::fault::Fault;
use model::judge::{judge, Event, Internal, Judge};
use model::lines::Line;
use model::machine::{Machine, Stepped};
use model::places::account_at;
use model::prng::Prng;
use model::records::{Answer, Kind, Update, KIND_POST};
use model::search::{one_order, one_variation, By};
use model::settings::Settings;
use model::wrong_posts::WrongPost;
use std::collections::BTreeMap;

/// One operation that took effect, and what its worker was told; the plain table's answer where it
/// was told nothing yet.
type Entry = (Update, Answer);

/// The operations of a judged order, in the order of their moments.
fn entries(events: &[Event]) -> Vec<Entry> {
    let mut all: Vec<Entry> = Vec::new();
    let mut last: BTreeMap<usize, usize> = BTreeMap::new();
    for event in events {
        for moment in &event.moments {
            last.insert(moment.worker, all.len());
            all.push((moment.operation, moment.answer));
        }
        if let Stepped::Answered { answer, .. } = event.report.stepped {
            all[last[&event.worker]].1 = answer;
        }
    }
    all
}

/// What an account must hold: the total of its last insert, or 0 where it has none since it was last
/// not there, and the amounts of the posts since then that were answered posted.
fn due(entries: &[Entry], account: u32) -> Option<i128> {
    let own = entries.iter().filter(|entry| entry.0.account == account);
    let mut held: Option<i128> = None;
    for (update, answer) in own {
        let number = i128::from(update.total);
        match (update.kind, answer) {
            (Kind::Insert, Answer::Added | Answer::Replaced) => held = Some(number),
            (Kind::Delete, Answer::Removed) => held = None,
            (Kind::Post, Answer::Posted(total)) => {
                held = Some(held.unwrap_or(0) + number);
                assert_eq!(held, Some(i128::from(*total)), "{update:?}");
            }
            (Kind::Post, Answer::Overrun) => {
                let sum = held.unwrap_or(0) + number;
                assert!(i64::try_from(sum).is_err(), "{update:?}");
            }
            _ => {}
        }
    }
    held
}

/// Holds an order's last listing against its entries; answers how many were posted and overruns.
fn balance(order: &[Line]) -> (u64, u64) {
    let mut all = Internal::new(Fault::None);
    all.record = true;
    judge(&mut all, order).expect("every assertion holds");
    let entries = entries(&all.events);
    let accounts = entries.iter().map(|entry| (entry.0.account, ()));
    let accounts: BTreeMap<u32, ()> = accounts.collect();
    let expected = accounts.keys().filter_map(|account| {
        let total = due(&entries, *account)?;
        Some((*account, total))
    });
    let items = all.machine().expect("a table was opened").items();
    let listed = items.iter().map(|(a, t)| (*a, i128::from(*t)));
    assert!(listed.eq(expected), "{items:?}");
    let count = |answered: &dyn Fn(&Answer) -> bool| {
        let those = entries.iter().filter(|entry| answered(&entry.1));
        those.count() as u64
    };
    (
        count(&|answer| matches!(answer, Answer::Posted(_))),
        count(&|answer| *answer == Answer::Overrun),
    )
}

#[test]
fn every_account_holds_its_last_insert_and_the_posts_since() {
    let (mut posted, mut overruns) = (0, 0);
    for seed in 0..1_500 {
        let (drawn, _) = one_order(By::AllAssertions, Fault::None, seed, 300);
        let (varied, _) = one_variation(By::AllAssertions, Fault::None, seed);
        for order in [drawn, varied] {
            let more = balance(&order);
            posted += more.0;
            overruns += more.1;
        }
    }
    println!("posted {posted}, overruns {overruns}");
    assert!(posted > 4_000 && overruns > 300, "{posted} {overruns}");
}

/// One account for each first M bits of a place, so that none is crowded, and at most so many of
/// them.
fn accounts(prng: &mut Prng, settings: &Settings, most: u64) -> Vec<u32> {
    let depth = settings.greatest_depth;
    let count = prng.between(1, most.min(1 << depth));
    let shift = 31 - depth.min(31);
    let place = |prefix: u64| ((prefix << 1 | 1) << shift) as u32;
    (0..count).map(place).map(account_at).collect()
}

/// Posts only, each of another amount above 0, by all workers at once: the amounts and the totals
/// told of each account, and an answer that is not posted.
struct Posts {
    machine: Machine,
    prng: Prng,
    accounts: Vec<u32>,
    left: u64,
    amounts: BTreeMap<u32, Vec<i64>>,
    told: BTreeMap<u32, Vec<i64>>,
    wrong: Option<Answer>,
}

impl Posts {
    fn new(fault: Fault, seed: u64) -> Posts {
        let mut prng = Prng::new(seed);
        let settings = Settings {
            workers: prng.between(1, 8) as usize,
            bucket_size: prng.between(2, 3) as usize,
            greatest_depth: prng.between(0, 3) as u32,
        };
        let mut machine = Machine::fresh(settings);
        machine.fault = fault;
        Posts {
            machine,
            accounts: accounts(&mut prng, &settings, 5),
            left: prng.between(10, 40),
            amounts: BTreeMap::new(),
            told: BTreeMap::new(),
            wrong: None,
            prng,
        }
    }

    fn call(&mut self, worker: usize) {
        if self.left == 0 {
            return;
        }
        let account = self.prng.one_of(&self.accounts);
        // Sums of different amounts differ: each is a power of 2.
        let amount = 1 << self.left;
        self.left -= 1;
        let called = self.machine.call(worker, KIND_POST, account, amount);
        assert_eq!(called, Ok(()));
        self.amounts.entry(account).or_default().push(amount);
    }

    fn step(&mut self, worker: usize, account: u32) {
        match self.machine.step(worker).stepped {
            Stepped::Answered {
                answer: Answer::Posted(total),
                ..
            } => self.told.entry(account).or_default().push(total),
            Stepped::Answered { answer, .. } => self.wrong = Some(answer),
            _ => {}
        }
    }

    /// The account of the post under way.
    fn account(&self, worker: usize) -> Option<u32> {
        let task = self.machine.workers[worker].task.as_ref();
        task.map(|task| task.operation.account)
    }

    fn is_over(&self) -> bool {
        let mut workers = self.machine.workers.iter();
        self.left == 0 && workers.all(|worker| worker.task.is_none())
    }

    /// Until all are answered; a wrong machine may never get there.
    fn run(&mut self) {
        let workers = self.machine.settings.workers as u64;
        for _ in 0..4_000 * workers {
            if self.is_over() {
                return;
            }
            let worker = self.prng.below(workers) as usize;
            let few = self.prng.between(1, 6);
            for _ in 0..few {
                match self.account(worker) {
                    Some(account) => self.step(worker, account),
                    None => self.call(worker),
                }
            }
        }
    }

    /// Each account holds the sum of its amounts, and what was told are the sums on the way there.
    fn balance(&self) -> Result<(), String> {
        let sums = self.amounts.iter().map(|(a, all)| (*a, all.iter().sum()));
        let sums: Vec<(u32, i64)> = sums.collect();
        let items = self.machine.items();
        if items != sums {
            return Err(format!("listing {items:?}, sums {sums:?}"));
        }
        for (account, amounts) in &self.amounts {
            let mut told = self.told.get(account).cloned().unwrap_or_default();
            told.sort_unstable();
            let before = [0].into_iter().chain(told.iter().copied());
            let mut steps: Vec<i64> = told.iter().zip(before).map(|(t, b)| t - b).collect();
            steps.sort_unstable_by(|one, other| other.cmp(one));
            if steps != *amounts {
                return Err(format!("account {account}: {amounts:?}, told {told:?}"));
            }
        }
        self.wrong
            .map_or(Ok(()), |answer| Err(format!("{answer:?}")))
    }
}

fn posts_balance(fault: Fault, seed: u64) -> Result<(), String> {
    let mut posts = Posts::new(fault, seed);
    posts.run();
    posts.balance()
}

#[test]
fn the_listing_is_the_plain_sum_of_all_posts() {
    for seed in 0..2_000 {
        assert_eq!(posts_balance(Fault::None, seed), Ok(()), "seed {seed}");
    }
}

/// Posts that are lost, added twice or told with another total; the others need an overrun, a 0 or a
/// crowded account to show.
#[test]
fn wrong_sums_are_found() {
    let shown = [
        WrongPost::Replaces,
        WrongPost::TotalNotCopied,
        WrongPost::Deletes,
        WrongPost::LastTotalTold,
        WrongPost::HelpedTwice,
    ];
    let wrong = shown.map(Fault::Post).into_iter();
    for fault in wrong.chain([Fault::BucketSwapBlind, Fault::DirectorySwapBlind]) {
        let found = (0..300).find(|seed| posts_balance(fault, *seed).is_err());
        assert!(found.is_some(), "{}", fault.name());
    }
}
