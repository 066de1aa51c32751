//! Random input for `totals`, all a function of the seed: lists for every setting that fits the
//! lent words, with lines that are refused or cannot be read in between. About half of the calls go
//! to accounts drawn as places that agree in their first M bits, and of the others most to accounts
//! from 1000 up.

use crate::amounts::ends_or;
use crate::lines::Line;
use crate::pools::Pool;
use crate::prng::Prng;
use crate::random::Generator;
use crate::records::Kind;
use crate::settings::Settings;
use crate::spoil::spoiled;
use crate::totals::{Driver, LENT};

/// Calls in a hundred to accounts drawn as places, for half of all calls: a few go to an edge or
/// anywhere, and some accounts drawn so have no other near.
const SHARE: u64 = 54;

/// How many steps a line asks for.
#[derive(Clone, Copy)]
enum Pace {
    Single,
    Few,
    Mixed,
    /// Mostly whole operations.
    Whole,
}

/// Draws lines, and runs them on a driver of its own, so that it knows which workers are idle.
pub struct Input {
    prng: Prng,
    driver: Driver,
    /// Lines left before the next opening.
    left: u64,
    /// Draws the list's lines, if they are orders as `search` tries them.
    orders: Option<Generator>,
    settings: Settings,
    pace: Pace,
    /// Per worker how many lines it is parked for.
    parked: Vec<u64>,
    pool: Pool,
    deletes: u64,
    lookups: u64,
    posts: u64,
    listings: u64,
    /// Every list has b 2, M 0 to 2, and more accounts in a prefix than a bucket takes.
    crowded: bool,
}

impl Input {
    pub fn new(seed: u64) -> Input {
        let mut prng = Prng::new(seed);
        let settings = Settings {
            workers: 1,
            bucket_size: Settings::LEAST_BUCKET_SIZE as usize,
            greatest_depth: 0,
        };
        Input {
            pool: Pool::neighbours(&mut prng, &settings, SHARE),
            prng,
            driver: Driver::default(),
            left: 10,
            orders: None,
            settings,
            pace: Pace::Single,
            parked: vec![0],
            deletes: 0,
            lookups: 0,
            posts: 0,
            listings: 0,
            crowded: false,
        }
    }

    /// Lists in which buckets at the greatest depth are full most of the time.
    pub fn crowded(seed: u64) -> Input {
        Input {
            crowded: true,
            ..Input::new(seed)
        }
    }

    /// The next line, without its line feed. The opening of a list is always a good one.
    pub fn next_line(&mut self) -> Vec<u8> {
        let opens = self.left == 0;
        let line = if opens { self.begin() } else { self.draw() };
        if !opens && self.prng.below(60) == 0 {
            return spoiled(&mut self.prng, &line);
        }
        self.driver.answer_line(&line);
        line.to_string().into_bytes()
    }

    fn draw(&mut self) -> Line {
        self.left -= 1;
        if self.prng.percent(3) {
            return self.turned_down();
        }
        if self.prng.below(1000) < self.listings {
            return Line::List;
        }
        match (&mut self.orders, &self.driver.machine) {
            (Some(orders), Some(machine)) => orders.next(machine),
            (None, Some(_)) => self.work(),
            (_, None) => self.turned_down(),
        }
    }

    /// Draws a new list, and its opening.
    fn begin(&mut self) -> Line {
        let filling = !self.crowded && self.prng.percent(3);
        self.left = match filling {
            true => self.prng.between(2_000, 8_000),
            false => self.prng.between(20, 500),
        };
        self.listings = if filling { 1 } else { self.prng.between(2, 30) };
        let share = match filling {
            true => SHARE,
            false => self.prng.one_of(&[0, SHARE, 100]),
        };
        if !filling && !self.crowded && self.prng.percent(50) {
            return self.begin_orders(share);
        }
        self.orders = None;
        self.draw_accounts(filling, share);
        self.parked = vec![0; self.settings.workers];
        self.pace = match self.prng.below(4) {
            _ if filling => Pace::Whole,
            0 => Pace::Single,
            1 => Pace::Few,
            2 => Pace::Mixed,
            _ => Pace::Whole,
        };
        self.deletes = self.prng.between(0, if filling { 10 } else { 50 });
        self.lookups = self.prng.between(0, 30);
        self.posts = self.prng.between(0, 80);
        opening(&self.settings)
    }

    /// A list whose lines are orders as `search` tries them.
    fn begin_orders(&mut self, share: u64) -> Line {
        let orders = Generator::sharing(Prng::new(self.prng.draw()), false, share);
        let opening = orders.opening();
        self.settings = orders.settings;
        self.pool = orders.pool.clone();
        self.orders = Some(orders);
        opening
    }

    /// Draws settings, and accounts for them.
    fn draw_accounts(&mut self, filling: bool, share: u64) {
        let prng = &mut self.prng;
        if self.crowded {
            self.settings = small(prng);
            self.pool = Pool::neighbours(prng, &self.settings, share);
        } else {
            self.settings = fitting(prng);
            self.pool = Pool::listed(prng, &self.settings, filling, share);
        }
    }

    fn total(&mut self) -> i64 {
        let other = match self.prng.percent(10) {
            true => self.prng.draw() as i64,
            false => self.prng.below(2_000) as i64 - 1_000,
        };
        ends_or(&mut self.prng, 20, other)
    }

    /// A call to an idle worker or a step of a busy one, of those that are not parked.
    fn work(&mut self) -> Line {
        for lines in &mut self.parked {
            *lines = lines.saturating_sub(1);
        }
        let all = 0..self.settings.workers;
        let free: Vec<usize> = all.filter(|w| self.parked[*w] == 0).collect();
        let any = self.prng.below(self.settings.workers as u64) as usize;
        let worker = self.prng.pick(&free).unwrap_or(any);
        if self.is_idle(worker) {
            return self.call(worker);
        }
        if self.prng.percent(4) {
            self.parked[worker] = self.prng.between(1, 120);
        }
        let count = self.count();
        Line::Step { worker, count }
    }

    fn is_idle(&self, worker: usize) -> bool {
        let machine = self.driver.machine.as_ref();
        machine.is_some_and(|machine| machine.workers[worker].task.is_none())
    }

    fn call(&mut self, worker: usize) -> Line {
        let kind = match self.prng.below(100) {
            chance if chance < self.deletes => Kind::Delete,
            chance if chance < self.deletes + self.lookups => Kind::Lookup,
            _ if self.prng.percent(self.posts) => Kind::Post,
            _ => Kind::Insert,
        };
        let total = match kind {
            Kind::Insert | Kind::Post => self.total(),
            Kind::Delete | Kind::Lookup => 0,
        };
        Line::Call {
            kind,
            worker,
            account: self.pool.pick(&mut self.prng),
            total,
        }
    }

    fn count(&mut self) -> u64 {
        match self.pace {
            Pace::Single => 1,
            Pace::Few => self.prng.between(1, 5),
            Pace::Mixed => self.prng.between(1, 60),
            Pace::Whole if self.prng.percent(95) => self.prng.between(129, 9_999),
            Pace::Whole => self.prng.between(1, 40),
        }
    }

    /// A line that is mostly turned down: whatever the worker is doing, or an opening out of range.
    fn turned_down(&mut self) -> Line {
        let near = self.settings.workers as u64 + 1;
        let worker = match self.prng.percent(10) {
            true => self.prng.between(0, 65_535) as usize,
            false => self.prng.below(near) as usize,
        };
        match self.prng.below(8) {
            0 => wrong_opening(&mut self.prng),
            1 => opening(&any_settings(&mut self.prng, |settings| {
                settings.words() > LENT
            })),
            2..=4 => self.call(worker),
            _ => Line::Step {
                worker,
                count: self.count(),
            },
        }
    }
}

fn opening(settings: &Settings) -> Line {
    Line::Open {
        n: settings.workers as u64,
        b: settings.bucket_size as u64,
        m: u64::from(settings.greatest_depth),
    }
}

/// Settings in their ranges that pass the test.
fn any_settings(prng: &mut Prng, test: impl Fn(&Settings) -> bool) -> Settings {
    loop {
        let settings = Settings {
            workers: prng.between(1, Settings::GREATEST_WORKERS) as usize,
            bucket_size: prng.between(Settings::LEAST_BUCKET_SIZE, Settings::GREATEST_BUCKET_SIZE)
                as usize,
            greatest_depth: prng.between(0, Settings::GREATEST_DEPTH) as u32,
        };
        if test(&settings) {
            return settings;
        }
    }
}

/// The least bucket size, and at most four buckets.
fn small(prng: &mut Prng) -> Settings {
    Settings {
        workers: prng.between(1, Settings::GREATEST_WORKERS) as usize,
        bucket_size: Settings::LEAST_BUCKET_SIZE as usize,
        greatest_depth: prng.below(3) as u32,
    }
}

fn fitting(prng: &mut Prng) -> Settings {
    any_settings(prng, |settings| settings.words() <= LENT)
}

/// An opening with a setting outside its range.
fn wrong_opening(prng: &mut Prng) -> Line {
    let wrong = [
        (0, 2, 1),
        (9, 2, 1),
        (1, 1, 1),
        (1, 0, 1),
        (1, 17, 1),
        (1, 2, 9),
    ];
    let far = (
        prng.below(65_536),
        prng.below(65_536),
        prng.between(9, 65_535),
    );
    let (n, b, m) = match prng.percent(80) {
        true => prng.pick(&wrong).unwrap_or(far),
        false => far,
    };
    Line::Open { n, b, m }
}
