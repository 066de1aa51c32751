//! Random orders: settings, accounts, parking styles and kinds, all a function of the seed.

use crate::amounts::ends_or;
use crate::lines::Line;
use crate::machine::Machine;
use crate::overtake;
use crate::pools::Pool;
use crate::prng::Prng;
use crate::records::Kind;
use crate::settings::Settings;
use crate::totals::LENT;

/// How the next worker and its number of steps are chosen.
#[derive(Clone, Copy, PartialEq, Eq, Debug)]
enum Style {
    Single,
    Bursts,
    RoundRobin,
    Parking,
    /// Parks workers where others can overtake them: before a directory swap, and before the
    /// second bucket pass.
    Overtaking,
    /// Few accounts in full buckets at depth M, many deletes; parks workers whose new account is
    /// crowded or has room.
    Crowding,
}

/// Draws the lines of one order.
#[derive(Clone, Debug)]
pub struct Generator {
    prng: Prng,
    pub settings: Settings,
    pub pool: Pool,
    style: Style,
    /// Per worker the tick until which it is parked.
    parked: Vec<u64>,
    tick: u64,
    /// Inserts and posts in a hundred calls.
    puts: u64,
    /// Posts in a hundred of these.
    posts: u64,
    /// Totals and amounts at the ends of their range in a hundred.
    ends: u64,
    deletes: u64,
    listings: u64,
}

impl Generator {
    /// `small` keeps n at most 4, for the external search.
    pub fn new(seed: u64, small: bool) -> Generator {
        let mut prng = Prng::new(seed);
        let share = prng.one_of(&[0, 50, 100, 100, 100]);
        Generator::sharing(prng, small, share)
    }

    /// The same, with so many calls in a hundred to accounts drawn as places that agree in their
    /// first bits.
    pub fn sharing(mut prng: Prng, small: bool, share: u64) -> Generator {
        let style = draw_style(&mut prng);
        let crowding = style == Style::Crowding;
        let settings = settings_for(&mut prng, style, small);
        let mut pool = match crowding {
            true => Pool::crowding(&mut prng, &settings, share),
            false => Pool::splitting(&mut prng, &settings, share),
        };
        let posts = prng.one_of(&[0, 30, 60, 95]);
        // So few accounts that all workers post to the same ones.
        if posts > 30 && !crowding && prng.percent(50) {
            pool.truncate(prng.between(1, 3) as usize);
        }
        let fewest_deletes = if crowding { 60 } else { 0 };
        Generator {
            parked: vec![0; settings.workers],
            tick: 0,
            puts: prng.between(40, 90),
            posts,
            ends: prng.one_of(&[0, 20, 70]),
            deletes: prng.between(fewest_deletes, 100),
            listings: if small { 15 } else { 1 },
            prng,
            settings,
            pool,
            style,
        }
    }

    pub fn opening(&self) -> Line {
        Line::Open {
            n: self.settings.workers as u64,
            b: self.settings.bucket_size as u64,
            m: u64::from(self.settings.greatest_depth),
        }
    }

    /// The next line for a machine in this state.
    pub fn next(&mut self, machine: &Machine) -> Line {
        self.tick += 1;
        if self.prng.percent(self.listings) {
            return Line::List;
        }
        if self.prng.below(200) == 0 {
            return self.refused();
        }
        let (idle, mut busy) = self.ready(machine);
        let mut call = self.prng.percent(35);
        if self.style == Style::Overtaking && self.prng.percent(98) {
            let held = |w: &usize| overtake::is_held_back(machine, *w);
            let free: Vec<usize> = busy.iter().copied().filter(|w| !held(w)).collect();
            if !free.is_empty() || !idle.is_empty() {
                busy = free;
            }
            let urgent = |w: &usize| overtake::is_urgent(machine, *w);
            if self.prng.percent(80) && busy.iter().any(urgent) {
                busy.retain(urgent);
                call = false;
            }
        }
        if self.style == Style::Crowding && self.prng.percent(99) {
            let waits = |w: &usize| overtake::awaits_neighbours(machine, *w);
            let free: Vec<usize> = busy.iter().copied().filter(|w| !waits(w)).collect();
            if !free.is_empty() || !idle.is_empty() {
                busy = free;
            }
        }
        call |= busy.is_empty();
        match self.prng.pick(&idle) {
            Some(worker) if call => self.call(machine, worker),
            _ => self.step(&busy),
        }
    }

    /// Workers that are not parked, idle and busy; all if all are parked.
    fn ready(&self, machine: &Machine) -> (Vec<usize>, Vec<usize>) {
        let all = 0..self.settings.workers;
        let free: Vec<usize> = all
            .clone()
            .filter(|w| self.parked[*w] <= self.tick)
            .collect();
        let from = if free.is_empty() { all.collect() } else { free };
        from.into_iter()
            .partition(|w| machine.workers[*w].task.is_none())
    }

    /// A line that may be refused: wrong settings, or any worker whatever it is doing.
    fn refused(&mut self) -> Line {
        let worker = self.prng.below(self.settings.workers as u64 + 1) as usize;
        match self.prng.below(3) {
            0 => Line::Open { n: 9, b: 2, m: 0 },
            1 => Line::Step { worker, count: 1 },
            _ => Line::Call {
                kind: Kind::Lookup,
                worker,
                account: self.pool.pick(&mut self.prng),
                total: 0,
            },
        }
    }

    fn call(&mut self, machine: &Machine, worker: usize) -> Line {
        let (mut kind, mut awaited) = (self.kind(), None);
        let near = self.prng.percent(80) && self.style == Style::Overtaking;
        if self.style == Style::Crowding && self.prng.percent(60) {
            if let Some((wanted, accounts)) = overtake::awaited(machine, self.pool.accounts()) {
                awaited = self.prng.pick(&accounts);
                kind = awaited.map_or(kind, |_| wanted);
            }
        }
        let account = if let Some(account) = awaited {
            account
        } else if kind == Kind::Post && self.prng.percent(50) {
            self.account_under_way(machine)
        } else if near {
            self.near_account(machine)
        } else {
            self.any_account()
        };
        // Numbers that differ show which of them were added.
        let own = self.tick as i64 - 50;
        let total = match kind {
            Kind::Insert | Kind::Post => ends_or(&mut self.prng, self.ends, own),
            Kind::Delete | Kind::Lookup => 0,
        };
        Line::Call {
            kind,
            worker,
            account,
            total,
        }
    }

    fn kind(&mut self) -> Kind {
        if self.prng.percent(self.puts) {
            match self.prng.percent(self.posts) {
                true => Kind::Post,
                false => Kind::Insert,
            }
        } else if self.prng.percent(self.deletes) {
            Kind::Delete
        } else {
            Kind::Lookup
        }
    }

    fn any_account(&mut self) -> u32 {
        self.pool.pick(&mut self.prng)
    }

    /// The account of an update under way, so that two work on one account at once.
    fn account_under_way(&mut self, machine: &Machine) -> u32 {
        let updates = updated_accounts(machine);
        match self.prng.pick(&updates) {
            Some(account) => account,
            None => self.any_account(),
        }
    }

    /// An account of the bucket in which some update is under way.
    fn near_account(&mut self, machine: &Machine) -> u32 {
        let wanted = overtake::accounts_to_overtake(machine);
        let updates = updated_accounts(machine);
        let first = self.prng.pick(&wanted);
        let Some(account) = first.or_else(|| self.prng.pick(&updates)) else {
            return self.any_account();
        };
        let leaf = machine.directory.bucket(account);
        let all = self.pool.accounts().iter().copied();
        let same: Vec<u32> = all.filter(|other| leaf.covers(*other)).collect();
        self.prng.pick(&same).unwrap_or(account)
    }

    fn step(&mut self, busy: &[usize]) -> Line {
        let worker = self.choose(busy);
        let count = match self.style {
            Style::Single | Style::RoundRobin => 1,
            Style::Bursts => self.prng.between(1, 60),
            Style::Crowding => self.prng.between(1, 4),
            Style::Parking => self.prng.between(1, 12),
            Style::Overtaking => self.prng.between(1, 5),
        };
        let parks = match self.style {
            Style::Parking => 8,
            Style::RoundRobin => 0,
            _ => 2,
        };
        if self.prng.percent(parks) {
            let long = if self.prng.percent(5) { 100_000 } else { 200 };
            self.parked[worker] = self.tick + self.prng.between(1, long);
        }
        Line::Step { worker, count }
    }

    fn choose(&mut self, busy: &[usize]) -> usize {
        if self.style == Style::RoundRobin && !busy.is_empty() {
            return busy[self.tick as usize % busy.len()];
        }
        self.prng.pick(busy).unwrap_or(0)
    }
}

fn draw_style(prng: &mut Prng) -> Style {
    match prng.below(10) {
        0 => Style::Single,
        1 => Style::Bursts,
        2 => Style::RoundRobin,
        3 | 4 => Style::Parking,
        5 | 6 => Style::Crowding,
        _ => Style::Overtaking,
    }
}

/// The accounts of the updates under way.
fn updated_accounts(machine: &Machine) -> Vec<u32> {
    let tasks = machine.workers.iter().filter_map(|w| w.task.as_ref());
    let updates = tasks.filter(|task| task.is_update());
    updates.map(|task| task.operation.account).collect()
}

fn settings_for(prng: &mut Prng, style: Style, small: bool) -> Settings {
    match style {
        Style::Crowding => crowding_settings(prng, small),
        Style::Overtaking if prng.percent(80) => splitting_settings(prng, small),
        _ => draw_settings(prng, small),
    }
}

/// Settings that produce many splits: small buckets, some depth.
fn splitting_settings(prng: &mut Prng, small: bool) -> Settings {
    let most_workers = if small { 4 } else { 5 };
    Settings {
        workers: prng.between(2, most_workers) as usize,
        bucket_size: prng.between(2, 3) as usize,
        greatest_depth: prng.between(2, 5) as u32,
    }
}

/// Settings by which few accounts make a bucket full at depth M.
fn crowding_settings(prng: &mut Prng, small: bool) -> Settings {
    let most_workers = if small { 3 } else { 4 };
    Settings {
        workers: prng.between(2, most_workers) as usize,
        bucket_size: prng.between(2, 3) as usize,
        greatest_depth: prng.one_of(&[0, 1, 1, 2]),
    }
}

fn draw_settings(prng: &mut Prng, small: bool) -> Settings {
    loop {
        let n = match (small, prng.percent(5)) {
            (true, _) => prng.between(1, 4),
            (false, true) => 8,
            (false, false) => prng.between(1, 5),
        };
        let b = if prng.percent(10) {
            prng.between(2, 16)
        } else {
            prng.between(2, 3 + prng.clone().below(2))
        };
        let m = if prng.percent(10) {
            prng.between(0, 8)
        } else {
            prng.between(0, 4)
        };
        match Settings::new(n, b, m) {
            Ok(settings) if settings.words() <= LENT => return settings,
            _ => {}
        }
    }
}
