//! Random orders: every setting, workers parked for long, calls that are refused, lists and outputs of any length; all
//! a function of the seed.

use model::cents;
use model::export::file;
use model::lines::Line;
use model::machine::Machine;
use model::prng::Prng;
use model::random::Generator;
use model::records::{KIND_DELETE, KIND_INSERT, KIND_LOOKUP, KIND_POST};
use model::settings::Settings;
use model::starts::EDGES;
use totals::raw::TOTALS_GREATEST_RUN as RUN;
use totals::{account_at, Table};

/// One entry of an order.
pub enum Entry {
    /// Settings n, b and M, and how many words are lent.
    Open([u64; 3], usize),
    Call {
        worker: u64,
        kind: u64,
        account: u32,
        total: i64,
    },
    Step(u64),
    /// Up to so many steps.
    Run(u64, u64),
    /// Places in the accounts list, and in the totals list.
    List(usize, usize),
    /// Places in the accounts list, and in the rebates list.
    Rebates(usize, usize),
    /// Bytes of the output.
    Export(usize),
}

pub struct Orders {
    prng: Prng,
    pub settings: Settings,
    /// Draws orders in which workers overtake each other; the settings are its own then.
    overtaking: Option<Generator>,
    /// Whether a call may have a kind that there is not.
    any_kind: bool,
    pool: Vec<u32>,
    /// Per worker how many entries it is parked for.
    parked: Vec<u64>,
    /// A worker that takes so many single steps, unless its operation ends before.
    single: (u64, u64),
}

impl Orders {
    pub fn new(seed: u64, any_kind: bool) -> Orders {
        let mut prng = Prng::new(seed);
        let overtaking = prng.percent(50).then(|| Generator::new(prng.draw(), false));
        let settings = overtaking.as_ref().map_or_else(|| any_settings(&mut prng), |generator| generator.settings);
        let pool = pool(&mut prng, settings);
        Orders { parked: vec![0; settings.workers], single: (0, 0), prng, settings, overtaking, any_kind, pool }
    }

    /// The opening that the order starts with: as many words as are needed, or up to two more.
    pub fn opening(&mut self) -> Entry {
        Entry::Open(numbers(self.settings), self.settings.words() as usize + self.prng.below(3) as usize)
    }

    /// The tickets that the workers have taken last at the start of the order: none, in two orders of five; or of each
    /// worker some number, mostly a few below an edge.
    pub fn tickets(&mut self) -> Vec<u64> {
        let fresh = self.prng.percent(40);
        let mut ticket = || match self.prng.below(8) {
            _ if fresh => 0,
            0 => 0,
            1 => self.prng.draw(),
            _ => self.prng.one_of(&EDGES).saturating_sub(self.prng.below(30)),
        };
        (0..self.settings.workers).map(|_| ticket()).collect()
    }

    /// The next entry for a machine in this state.
    pub fn next(&mut self, machine: &Machine) -> Entry {
        let (worker, steps) = self.single;
        if steps > 0 && is_busy(machine, worker) {
            self.single.1 -= 1;
            return Entry::Step(worker);
        }
        self.single.1 = 0;
        if self.prng.percent(6) {
            return self.anything(machine);
        }
        match &mut self.overtaking {
            Some(generator) => {
                let line = generator.next(machine);
                self.of_line(line, machine)
            }
            None => self.work(machine),
        }
    }

    fn of_line(&mut self, line: Line, machine: &Machine) -> Entry {
        match line {
            Line::Open { n, b, m } => Entry::Open([n, b, m], 0),
            Line::Call { kind, worker, account, total } => {
                Entry::Call { worker: worker as u64, kind: kind.number(), account, total }
            }
            Line::Step { worker, count } => self.steps(worker as u64, count),
            Line::List => self.list(machine),
        }
    }

    /// So many steps, at once or one by one.
    fn steps(&mut self, worker: u64, count: u64) -> Entry {
        if self.prng.percent(60) {
            return Entry::Run(worker, count);
        }
        self.single = (worker, count - 1);
        Entry::Step(worker)
    }

    /// A call to an idle worker or steps of a busy one, of those that are not parked.
    fn work(&mut self, machine: &Machine) -> Entry {
        self.parked.iter_mut().for_each(|entries| *entries = entries.saturating_sub(1));
        let free: Vec<usize> = (0..self.parked.len()).filter(|w| self.parked[*w] == 0).collect();
        let worker = self.prng.pick(&free).unwrap_or(0);
        if !is_busy(machine, worker as u64) {
            return self.call(worker as u64);
        }
        if self.prng.percent(10) {
            self.parked[worker] = self.prng.between(1, 150);
        }
        let most = if self.prng.percent(50) { 4 } else { 60 };
        let count = self.prng.between(1, most);
        self.steps(worker as u64, count)
    }

    fn call(&mut self, worker: u64) -> Entry {
        // of nine operations three are inserts, three posts, two deletes and one a lookup
        let kind = match self.prng.below(9) {
            0..=2 => KIND_INSERT,
            3..=5 => KIND_POST,
            6 | 7 => KIND_DELETE,
            _ => KIND_LOOKUP,
        };
        let account = self.prng.pick(&self.pool).unwrap_or(0);
        // an amount of any size takes a sum past an end soon
        let total = match self.prng.below(6) {
            0 => self.prng.one_of(&[i64::MIN, i64::MAX, 0, -1]),
            1 => self.prng.draw() as i64,
            2 | 3 => cents::any_total(&mut self.prng),
            _ => self.prng.below(2001) as i64 - 1000,
        };
        Entry::Call { worker, kind, account, total }
    }

    /// An entry that is mostly refused, or asks for more than there is.
    fn anything(&mut self, machine: &Machine) -> Entry {
        let workers = machine.settings.workers as u64;
        let worker = match self.prng.percent(20) {
            true => self.prng.pick(&[workers, workers + 1, 1 << 32, u64::MAX]).unwrap_or(workers),
            false => self.prng.below(workers),
        };
        match self.prng.below(9) {
            0 => Entry::Open(wrong_settings(&mut self.prng), machine.settings.words() as usize),
            1 => {
                let settings = any_settings(&mut self.prng);
                Entry::Open(numbers(settings), self.prng.below(settings.words().min(machine.settings.words())) as usize)
            }
            2 | 8 => self.list(machine),
            3 => Entry::Step(worker),
            4 => Entry::Run(worker, self.prng.pick(&[0, 1, RUN - 1, RUN, RUN + 1, u64::MAX]).unwrap_or(0)),
            5 if self.any_kind => match self.call(worker) {
                Entry::Call { account, total, .. } => {
                    Entry::Call { worker, kind: self.prng.pick(&[0, 5, 6, u64::MAX]).unwrap_or(0), account, total }
                }
                other => other,
            },
            _ => self.call(worker),
        }
    }

    /// A listing or rebates, into lists that are a place too short, fit, are longer, or hold any listing; or an export,
    /// into an output of which the same can be said.
    fn list(&mut self, machine: &Machine) -> Entry {
        let items = machine.items();
        let mut places = || self.room(items.len(), Table::GREATEST_COUNT);
        let lists = (places(), places());
        match self.prng.below(3) {
            0 => Entry::List(lists.0, lists.1),
            1 => Entry::Rebates(lists.0, lists.1),
            _ => Entry::Export(self.room(file(&items).len(), Table::GREATEST_EXPORT)),
        }
    }

    /// A length for what takes so much: one less, any that is no greater, the most there is, this length, or one or two
    /// more.
    fn room(&mut self, length: usize, most: usize) -> usize {
        match self.prng.below(6) {
            0 => length.saturating_sub(1),
            1 => self.prng.below(length as u64 + 1) as usize,
            2 => most,
            longer => length + longer as usize - 3,
        }
    }
}

fn is_busy(machine: &Machine, worker: u64) -> bool {
    machine.workers.get(worker as usize).is_some_and(|worker| worker.task.is_some())
}

fn numbers(settings: Settings) -> [u64; 3] {
    [settings.workers as u64, settings.bucket_size as u64, u64::from(settings.greatest_depth)]
}

/// All settings come up; small ones more often, since they split and crowd sooner.
fn any_settings(prng: &mut Prng) -> Settings {
    let bucket_size = prng.between(2, 16).min(prng.between(2, 16));
    let greatest_depth = prng.between(0, 8).min(prng.between(0, 8));
    Settings {
        workers: prng.between(1, 8) as usize,
        bucket_size: bucket_size as usize,
        greatest_depth: greatest_depth as u32,
    }
}

fn wrong_settings(prng: &mut Prng) -> [u64; 3] {
    let mut settings = numbers(any_settings(prng));
    let wrong = [(0, 0), (0, 9), (0, u64::MAX), (1, 0), (1, 1), (1, 17), (1, 1 << 32), (2, 9), (2, u64::MAX)];
    let (place, number) = prng.pick(&wrong).unwrap_or((0, 0));
    settings[place] = number;
    settings
}

/// Accounts that fill buckets: few prefixes of places, a bit more or less deep than the table can be, and a few
/// accounts in each; or, in one order of five, accounts from 1000 up.
fn pool(prng: &mut Prng, settings: Settings) -> Vec<u32> {
    if prng.percent(20) {
        let most = settings.bucket_size << settings.greatest_depth;
        return (1000..=1000 + prng.between(2, most.min(200) as u64) as u32).collect();
    }
    let bits = (settings.greatest_depth + prng.below(3) as u32).saturating_sub(1).max(1);
    let most = if prng.percent(20) { 200 } else { 8 };
    let prefixes = prng.between(1, most);
    let each = prng.between(1, settings.bucket_size as u64 + 1);
    let mut pool = vec![0, u32::MAX, 1 << 31];
    for _ in 0..prefixes {
        let prefix = (prng.draw() as u32) >> (32 - bits) << (32 - bits);
        pool.extend((0..each as u32).map(|low| account_at(prefix | low)));
    }
    pool
}
