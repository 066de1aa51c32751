//! Random orders of calls, single steps, runs, listings, rebates and exports by the safe interface and by the C
//! functions, held against the second model: every refusal, answer, step count, check and listing is the model's,
//! rebates are the model's on its listing, and exported files the model's of its listing, byte for byte. Some start
//! with last tickets set, in the words and in the model alike. Damaged words are the business of `foreign`.
mod flat;
#[path = "../foreign/lent.rs"]
mod lent;
mod orders;
mod safe;
mod tickets;

use flat::Flat;
use model::cents::band;
use model::export::export;
use model::machine::{Machine, Stepped};
use model::prng::Prng;
use model::rebate::{rebate, BANDS};
use model::records::{Answer, GREATEST_TICKET, KIND_DELETE, KIND_INSERT, KIND_LOOKUP, KIND_POST};
use model::rows::{class, CLASSES};
use model::starts::EDGES;
use orders::{Entry, Orders};
use safe::Safe;
use std::collections::BTreeSet;
use tickets::last_ticket;
use totals::raw::*;
use totals::{account_at, Table};

/// Accounts with their totals, or with rebates.
pub type Rows<T = i64> = Vec<(u32, T)>;

/// What steps give.
#[derive(Clone, Copy, Debug)]
pub enum Outcome {
    /// So many steps were given.
    Moved(u64),
    /// The answer, the operation's steps in all, and the check.
    Answered(Answer, u64, u64),
    Refused(u8),
}

impl Outcome {
    fn is_refused(self) -> bool {
        matches!(self, Outcome::Refused(_))
    }

    /// The number that C gets.
    fn number(self) -> u64 {
        match self {
            Outcome::Moved(_) => TOTALS_MOVED,
            Outcome::Answered(answer, ..) => answer_number(answer),
            Outcome::Refused(number) => u64::from(number),
        }
    }

    /// What a run tells in its report.
    fn told(self) -> Option<[u64; 3]> {
        match self {
            Outcome::Moved(steps) => Some([steps, 0, 0]),
            Outcome::Answered(Answer::Found(total) | Answer::Posted(total), steps, check) => {
                Some([steps, total as u64, check])
            }
            Outcome::Answered(_, steps, check) => Some([steps, 0, check]),
            Outcome::Refused(_) => None,
        }
    }
}

/// The number that C gets for an answer.
fn answer_number(answer: Answer) -> u64 {
    match answer {
        Answer::Added => TOTALS_ADDED,
        Answer::Replaced => TOTALS_REPLACED,
        Answer::Removed => TOTALS_REMOVED,
        Answer::Absent => TOTALS_ABSENT,
        Answer::Found(_) => TOTALS_FOUND,
        Answer::None => TOTALS_NONE,
        Answer::Posted(_) => TOTALS_POSTED,
        Answer::Crowded => TOTALS_CROWDED,
        Answer::Overrun => TOTALS_OVERRUN,
    }
}

/// The number that C gets for a call.
fn number_of<T>(result: &Result<T, u8>) -> u64 {
    result.as_ref().err().map_or(TOTALS_OK, |number| u64::from(*number))
}

/// One of the two interfaces, over words of its own. Each call is held against what the model gave.
pub trait Interface {
    fn open(&mut self, settings: [u64; 3], length: usize, want: Result<(), u8>);
    fn call(&mut self, worker: u64, kind: u64, account: u32, total: i64, want: Result<(), u8>);
    fn step(&mut self, worker: u64, want: Outcome);
    fn run(&mut self, worker: u64, most: u64, want: Outcome);
    fn list(&mut self, accounts: usize, totals: usize, want: Result<Rows, u8>);
    fn rebates(&mut self, accounts: usize, rebates: usize, want: Result<Rows<u64>, u8>);
    fn export(&mut self, length: usize, want: Result<Vec<u8>, u8>);
    fn words(&mut self) -> &mut [u64];
}

/// A table by an interface and by the model, and how often each call gave each number.
struct Pair<I> {
    table: I,
    machine: Machine,
    counts: [[u64; TOTALS_OVERRUN as usize + 1]; NAMES.len()],
    /// How many updates were answered by the first, second, third and fourth check.
    checks: [u64; 4],
    /// How many workers took the ticket at each edge.
    passed: [u64; EDGES.len()],
    /// How many rebates there were on totals that are not above 0, and in each band.
    bands: [u64; BANDS.len() + 1],
    /// How many totals of each class were exported.
    classes: [u64; CLASSES],
    /// Of the order under way.
    seed: u64,
}

/// Says where a test failed.
impl<I> Drop for Pair<I> {
    fn drop(&mut self) {
        if std::thread::panicking() {
            println!("seed {}, after {} calls in all", self.seed, self.counts.iter().flatten().sum::<u64>());
        }
    }
}

const NAMES: [&str; 7] = ["open", "call", "step", "run", "list", "rebates", "export"];

impl<I: Interface> Pair<I> {
    fn new(table: I) -> Pair<I> {
        let machine = Machine::open(1, 2, 0, 162).expect("the least settings");
        let (counts, checks, passed, bands, classes) = Default::default();
        let mut pair = Pair { table, machine, counts, checks, passed, bands, classes, seed: 0 };
        pair.enter(Entry::Open([1, 2, 0], 162));
        pair
    }

    /// One entry, by the model and by the interface.
    fn enter(&mut self, entry: Entry) {
        let (name, number) = match entry {
            Entry::Open([n, b, m], length) => {
                let want = Machine::open(n, b, m, length as u64).map(|machine| self.machine = machine);
                self.table.open([n, b, m], length, want);
                (0, number_of(&want))
            }
            Entry::Call { worker, kind, account, total } => {
                let want = self.machine.call(worker as usize, kind, account, total);
                self.table.call(worker, kind, account, total, want);
                (1, number_of(&want))
            }
            Entry::Step(worker) => {
                let want = self.steps(worker, 1);
                self.table.step(worker, want);
                (2, want.number())
            }
            Entry::Run(worker, most) => {
                let want = self.steps(worker, most);
                self.table.run(worker, most, want);
                (3, want.number())
            }
            Entry::List(accounts, totals) => (4, self.list(accounts, totals)),
            Entry::Rebates(accounts, rebates) => (5, self.rebates(accounts, rebates)),
            Entry::Export(length) => (6, self.export(length)),
        };
        self.counts[name][number as usize] += 1;
    }

    fn list(&mut self, accounts: usize, totals: usize) -> u64 {
        let want = self.machine.listing(accounts, totals);
        let number = number_of(&want);
        self.table.list(accounts, totals, want);
        number
    }

    /// The model's rebates on the model's listing.
    fn rebates(&mut self, accounts: usize, rebates: usize) -> u64 {
        let listing = self.machine.listing(accounts, rebates);
        let number = number_of(&listing);
        for (_, total) in listing.iter().flatten() {
            self.bands[band(*total)] += 1;
        }
        let want = listing.map(|rows| rows.into_iter().map(|(account, total)| (account, rebate(total))).collect());
        self.table.rebates(accounts, rebates, want);
        number
    }

    /// The model's file of the model's listing.
    fn export(&mut self, length: usize) -> u64 {
        let (items, mut out) = (self.machine.items(), vec![0; length]);
        let want = export(Some(&items), &mut out).map(|size| out[..size].to_vec());
        let number = number_of(&want);
        for (_, total) in items.iter().filter(|_| want.is_ok()) {
            self.classes[class(*total)] += 1;
        }
        self.table.export(length, want);
        number
    }

    /// Up to so many steps by the model; `TOTALS_GREATEST_RUN` at most, which no operation takes.
    fn steps(&mut self, worker: u64, most: u64) -> Outcome {
        let w = worker as usize;
        if self.machine.workers.get(w).is_none_or(|worker| worker.task.is_none()) {
            return outcome(self.machine.step(w).stepped);
        }
        for _ in 0..most.min(TOTALS_GREATEST_RUN) {
            let report = self.machine.step(w);
            if let Some(check) = usize::from(report.answering_check()).checked_sub(1) {
                self.checks[check] += 1;
            }
            if report.stepped != Stepped::Moved {
                return outcome(report.stepped);
            }
        }
        Outcome::Moved(most)
    }

    /// The workers, which are idle, have taken these tickets last.
    fn set_tickets(&mut self, tickets: &[u64]) {
        for (w, ticket) in tickets.iter().enumerate() {
            self.machine.workers[w].last_ticket = *ticket;
            *last_ticket(self.table.words(), w) = *ticket;
        }
    }

    /// The tickets that the workers have taken last: in the words as in the model.
    fn tickets(&mut self) -> Vec<u64> {
        let words = self.table.words();
        let in_words: Vec<u64> = (0..self.machine.workers.len()).map(|w| *last_ticket(words, w)).collect();
        let in_model: Vec<u64> = self.machine.workers.iter().map(|worker| worker.last_ticket).collect();
        assert_eq!(in_words, in_model);
        in_words
    }

    /// A whole order; counts who takes the tickets at the edges.
    fn order(&mut self, orders: &mut Orders) {
        let opening = orders.opening();
        self.enter(opening);
        let first = orders.tickets();
        self.set_tickets(&first);
        for _ in 0..1000 {
            let entry = orders.next(&self.machine);
            self.enter(entry);
        }
        let last = self.tickets();
        let passes = |edge| first.iter().zip(&last).filter(|(first, last)| **first < edge && edge <= **last).count();
        for (passed, edge) in self.passed.iter_mut().zip(EDGES) {
            *passed += passes(edge) as u64;
        }
    }

    fn calls(&self) -> u64 {
        self.counts.iter().flatten().sum()
    }

    fn print(&self, title: &str) {
        println!("{title}: {} calls; updates answered by each check {:?}", self.calls(), self.checks);
        println!("  rebates on totals up to 0, and in each band {:?}", self.bands);
        println!("  totals exported, by class {:?}", self.classes);
        for (name, counts) in NAMES.iter().zip(&self.counts) {
            let given: Vec<String> =
                (0..).zip(counts).filter(|(_, n)| **n > 0).map(|(k, n)| format!("{k}: {n}")).collect();
            println!("  {name:7} {}", given.join(", "));
        }
    }

    /// A call gave each of these numbers more than a hundred times, and no other.
    fn gave(&self, name: &str, numbers: &[u64]) {
        let call = NAMES.iter().position(|n| *n == name).expect("a call");
        for (number, times) in (0..).zip(&self.counts[call]) {
            let right = if numbers.contains(&number) { *times > 100 } else { *times == 0 };
            assert!(right, "{name} gave {number} {times} times");
        }
    }
}

fn outcome(stepped: Stepped) -> Outcome {
    match stepped {
        Stepped::Moved => Outcome::Moved(1),
        Stepped::Answered { answer, steps, check } => Outcome::Answered(answer, steps, u64::from(check)),
        Stepped::Refused(number) => Outcome::Refused(number),
    }
}

/// What steps of an opened table give.
const STEPPED: [u64; 12] = [
    TOTALS_MOVED,
    TOTALS_STRANGER,
    TOTALS_IDLE,
    TOTALS_ADDED,
    TOTALS_REPLACED,
    TOTALS_REMOVED,
    TOTALS_ABSENT,
    TOTALS_FOUND,
    TOTALS_NONE,
    TOTALS_POSTED,
    TOTALS_CROWDED,
    TOTALS_OVERRUN,
];

/// Orders from so many seeds, each on the words that the one before left.
fn random_orders(title: &str, table: impl Interface, seeds: u64, any_kind: bool) {
    let mut pair = Pair::new(table);
    let mut values = BTreeSet::new();
    for seed in 0..seeds {
        pair.seed = seed;
        let mut orders = Orders::new(seed, any_kind);
        let s = orders.settings;
        values.extend([('n', s.workers), ('b', s.bucket_size), ('M', s.greatest_depth as usize)]);
        pair.order(&mut orders);
    }
    pair.print(title);
    println!("  workers that took the ticket at each edge: {:?}", pair.passed);
    assert_eq!(values.len(), 8 + 15 + 9, "every n, b and M comes up");
    assert!(pair.calls() > 2_000_000 && pair.checks.iter().all(|updates| *updates > 10), "{:?}", pair.checks);
    assert!(pair.passed.iter().all(|workers| *workers > 100), "{:?}", pair.passed);
    pair.gave("open", &[TOTALS_OK, TOTALS_SETTINGS, TOTALS_SHORT]);
    let called = [TOTALS_OK, TOTALS_STRANGER, TOTALS_BUSY, TOTALS_SPENT, TOTALS_KIND];
    pair.gave("call", &called[..if any_kind { 5 } else { 4 }]);
    pair.gave("step", &STEPPED);
    pair.gave("run", &STEPPED);
    pair.gave("list", &[TOTALS_OK, TOTALS_NARROW]);
    pair.gave("rebates", &[TOTALS_OK, TOTALS_NARROW]);
    pair.gave("export", &[TOTALS_OK, TOTALS_NARROW]);
    assert!(pair.bands.iter().all(|totals| *totals > 100), "{:?}", pair.bands);
    assert!(pair.classes.iter().all(|totals| *totals > 100), "{:?}", pair.classes);
}

/// A call of a worker by one of these kinds, of an account whose place has any two first bits.
fn any_call(prng: &mut Prng, worker: u64, kinds: &[u64], total: i64) -> Entry {
    let kind = prng.one_of(kinds);
    let account = account_at((prng.below(4) as u32) << 30 | prng.below(2) as u32);
    Entry::Call { worker, kind, account, total }
}

const UPDATES: [u64; 3] = [KIND_INSERT, KIND_DELETE, KIND_POST];

/// Updates of worker 0 until it has no ticket left, and 200 more; worker 1 gets a few steps now and then.
fn until_spent(title: &str, table: impl Interface) {
    let mut pair = Pair::new(table);
    let mut prng = Prng::new(7);
    let (left, more) = (500, 200);
    pair.enter(Entry::Open([2, 3, 2], 400));
    pair.set_tickets(&[GREATEST_TICKET - left, 0]);
    for update in 0..left + more {
        pair.enter(any_call(&mut prng, 0, &UPDATES, update as i64));
        pair.enter(Entry::Run(0, 99));
        if prng.percent(20) {
            pair.enter(any_call(&mut prng, 1, &[&UPDATES[..], &[KIND_LOOKUP]].concat(), -1));
            pair.enter(Entry::Run(1, prng.between(1, 30)));
        }
    }
    pair.enter(Entry::Call { worker: 0, kind: KIND_LOOKUP, account: 0, total: 0 });
    pair.enter(Entry::Run(0, 2));
    pair.enter(Entry::List(12, 12));
    pair.enter(Entry::Rebates(12, 12));
    pair.enter(Entry::Export(Table::GREATEST_EXPORT));
    pair.print(title);
    let spent = pair.counts[1][TOTALS_SPENT as usize];
    assert_eq!((spent, pair.tickets()[0]), (more, GREATEST_TICKET));
}

#[test]
fn safe_interface() {
    random_orders("safe interface", Safe::default(), 2000, false);
}

#[test]
fn c_functions() {
    random_orders("C functions", Flat::new(1), 2000, true);
}

#[test]
fn safe_interface_until_spent() {
    until_spent("safe interface until spent", Safe::default());
}

#[test]
fn c_functions_until_spent() {
    until_spent("C functions until spent", Flat::new(2));
}
