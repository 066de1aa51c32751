//! Random logs to try a judge on, all a function of the seed. A right one is made by feeding a plain
//! table: workers call, their operations take effect, and they are answered, in a random order.

use crate::amounts::ends_or;
use crate::judging::{feed, table, MOST};
use crate::log::{total_of, Log, Logged, Word};
use crate::plain::Plain;
use crate::pools::Pool;
use crate::prng::Prng;
use crate::records::Kind;
use crate::settings::Settings;
use crate::spoilt_logs::spoilt;

/// Right logs in a hundred.
const RIGHT: u64 = 12;

/// Writes the next log: a right one, or one that was spoilt.
pub fn any_log(prng: &mut Prng) -> Log {
    let log = right_log(prng);
    match prng.percent(RIGHT) {
        true => log,
        false => spoilt(prng, log),
    }
}

/// How often kinds and totals are drawn, in a hundred.
struct Habits {
    pool: Pool,
    lookups: u64,
    deletes: u64,
    posts: u64,
    /// Totals at the ends of their range.
    ends: u64,
    /// Totals that do not count but are not 0.
    idle_totals: u64,
}

/// What a worker is doing.
#[derive(Clone, Copy)]
enum Status {
    Idle,
    Called(usize),
    Effective(usize),
}

/// Small settings mostly, so that accounts are crowded.
fn settings(prng: &mut Prng) -> Settings {
    let (most_size, most_depth) = match prng.percent(85) {
        true => (3, 2),
        false => (Settings::GREATEST_BUCKET_SIZE, Settings::GREATEST_DEPTH),
    };
    Settings {
        workers: 1,
        bucket_size: prng.between(Settings::LEAST_BUCKET_SIZE, most_size) as usize,
        greatest_depth: prng.between(0, most_depth) as u32,
    }
}

impl Habits {
    fn draw(prng: &mut Prng, settings: &Settings) -> Habits {
        let share = prng.one_of(&[0, 50, 100, 100]);
        let mut pool = Pool::crowding(prng, settings, share);
        if prng.percent(50) {
            pool.truncate(prng.between(1, 3) as usize);
        }
        Habits {
            pool,
            lookups: prng.one_of(&[0, 10, 30]),
            deletes: prng.one_of(&[0, 15, 30]),
            posts: prng.one_of(&[0, 30, 60, 100]),
            ends: prng.one_of(&[0, 0, 20, 60]),
            idle_totals: prng.one_of(&[0, 0, 50]),
        }
    }

    fn total(&self, prng: &mut Prng) -> i64 {
        let small = prng.between(0, 6) as i64 - 2;
        ends_or(prng, self.ends, small)
    }

    fn idle_total(&self, prng: &mut Prng) -> i64 {
        match prng.percent(self.idle_totals) {
            true => self.total(prng),
            false => 0,
        }
    }

    /// An operation that was called now; its answer is not known yet.
    fn called(&self, prng: &mut Prng, worker: u64, call: u64) -> Logged {
        let kind = match prng.below(100) {
            chance if chance < self.lookups => Kind::Lookup,
            chance if chance < self.lookups + self.deletes => Kind::Delete,
            _ if prng.percent(self.posts) => Kind::Post,
            _ => Kind::Insert,
        };
        let total = match kind {
            Kind::Insert | Kind::Post => self.total(prng),
            Kind::Delete | Kind::Lookup => self.idle_total(prng),
        };
        Logged {
            worker,
            kind: kind.number(),
            account: self.pool.pick(prng),
            total,
            answer: Word::None,
            answer_total: self.idle_total(prng),
            call,
            end: call,
        }
    }
}

/// Workers by their numbers, mostly from 0 up.
fn worker_numbers(prng: &mut Prng) -> Vec<u64> {
    let (fewest, most) = prng.one_of(&[(1, 2), (2, 3), (2, 5), (4, MOST as u64)]);
    let count = prng.between(fewest, most);
    let far = prng.draw() | 1;
    match prng.percent(90) {
        true => (0..count).collect(),
        false => (1..=count).map(|i| far.wrapping_mul(i)).collect(),
    }
}

/// A log that some order explains.
pub fn right_log(prng: &mut Prng) -> Log {
    let settings = settings(prng);
    let habits = Habits::draw(prng, &settings);
    let mut log = Log {
        b: settings.bucket_size as u64,
        m: u64::from(settings.greatest_depth),
        operations: Vec::new(),
    };
    let fewest = prng.one_of(&[0, 3, 6, 10]);
    let count = prng.between(fewest, MOST as u64) as usize;
    run(prng, &habits, &mut log, count);
    place_events(prng, &mut log);
    arrange(prng, &mut log);
    log
}

/// Lets workers call so many operations, and all be answered.
fn run(prng: &mut Prng, habits: &Habits, log: &mut Log, count: usize) {
    let numbers = worker_numbers(prng);
    let mut table = table(log).expect("settings in their range");
    let mut workers = vec![Status::Idle; numbers.len()];
    let often: Vec<u64> = (0..3).map(|_| prng.one_of(&[10, 50, 90])).collect();
    let (mut event, mut answered) = (0, 0);
    while answered < count {
        let w = prng.place(workers.len());
        match workers[w] {
            Status::Idle if log.operations.len() < count && prng.percent(often[0]) => {
                workers[w] = Status::Called(log.operations.len());
                let called = habits.called(prng, numbers[w], event);
                log.operations.push(called);
                event += 1;
            }
            Status::Called(place) if prng.percent(often[1]) => {
                workers[w] = Status::Effective(place);
                take_effect(log, &mut table, place);
            }
            Status::Effective(place) if prng.percent(often[2]) => {
                workers[w] = Status::Idle;
                log.operations[place].end = event;
                event += 1;
                answered += 1;
            }
            _ => {}
        }
    }
}

/// Gives an operation the table's answer.
fn take_effect(log: &mut Log, table: &mut Plain, place: usize) {
    let one = &mut log.operations[place];
    let kind = Kind::of(one.kind).expect("a kind");
    let answer = table.clone().apply(kind, one.account, one.total);
    one.answer = Word::of(answer);
    one.answer_total = total_of(answer).unwrap_or(one.answer_total);
    assert!(feed(log, table, place));
}

/// Gives the events, which are numbered from 0, their positions.
fn place_events(prng: &mut Prng, log: &mut Log) {
    let events = 2 * log.operations.len();
    let widest = prng.one_of(&[1, 1, 3, 1_000]);
    let mut position = match prng.below(10) {
        0 => u64::MAX - widest * events as u64,
        1 => prng.draw() >> 1,
        2 => 0,
        _ => 1,
    };
    let mut positions = Vec::new();
    for _ in 0..events {
        positions.push(position);
        position += prng.between(1, widest);
    }
    for one in &mut log.operations {
        one.call = positions[one.call as usize];
        one.end = positions[one.end as usize];
    }
}

/// The operations by their calls, by their answers, or in any order.
fn arrange(prng: &mut Prng, log: &mut Log) {
    match prng.below(4) {
        0 => {}
        1 => log.operations.sort_by_key(|one| one.end),
        _ => shuffle(prng, &mut log.operations),
    }
}

fn shuffle(prng: &mut Prng, operations: &mut [Logged]) {
    for place in (1..operations.len()).rev() {
        operations.swap(place, prng.place(place + 1));
    }
}
