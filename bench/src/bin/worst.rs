// Single calls, each counted by itself: callgrind writes a dump at the end of each function named alone_.., with what
// was counted since the dump before. A line a dump says which call it was: work, workers, the operation's place, and
// its step (0: the call that hands it out; 1 too for a whole run and for the map). worst.sh makes a table of both.
use bench::fields::{TOTALS_GREATEST_RUN, TOTALS_MOVED, TOTALS_OK};
use bench::places::account_at;
use bench::sides::{Map, Proved, Reply, Table};
use bench::turns::by_run;
use bench::work::{insert, spread_accounts, Operation, Prng};

const SEED: u64 = 88172645463325252;

#[inline(never)]
fn alone_call(table: &mut Proved, w: u64, o: Operation) {
    assert_eq!(table.call(w, o), TOTALS_OK);
}

#[inline(never)]
fn alone_step(table: &mut Proved, w: u64) -> Reply {
    table.step(w)
}

#[inline(never)]
fn alone_run(table: &mut Proved, w: u64) -> Reply {
    table.run(w, TOTALS_GREATEST_RUN)
}

#[inline(never)]
fn alone_map(map: &Map, o: Operation) -> u64 {
    map.operate(o).0
}

// What was counted outside of these gets a dump of its own, which is not looked at.
#[inline(never)]
fn alone_rest() {
    println!("rest 1 0 0");
}

fn inserts(accounts: &[u32]) -> Vec<Operation> {
    let mut random = Prng::new(SEED);
    accounts.iter().map(|a| insert(*a, &mut random)).collect()
}

// One step a worker in turn; a worker takes the next operation as soon as its last is answered.
fn by_single_steps(name: &str, n: u64, operations: &[Operation]) {
    let mut table = Proved::open(n, 8, 8);
    let mut under_way = vec![None; n as usize];
    let (mut next, mut answered) = (0, 0);
    while answered < operations.len() {
        for (w, own) in under_way.iter_mut().enumerate() {
            if own.is_none() && next < operations.len() {
                alone_call(&mut table, w as u64, operations[next]);
                println!("{name} {n} {next} 0");
                *own = Some((next, 1));
                next += 1;
            }
            if let Some((place, step)) = *own {
                let reply = alone_step(&mut table, w as u64);
                println!("{name} {n} {place} {step}");
                *own = (reply.code == TOTALS_MOVED).then_some((place, step + 1));
                answered += own.is_none() as usize;
            }
        }
    }
}

// Each operation run to its answer, the workers in turn.
fn by_runs(name: &str, n: u64, operations: &[Operation]) {
    let mut table = Proved::open(n, 8, 8);
    for (place, o) in operations.iter().enumerate() {
        let w = place as u64 % n;
        alone_call(&mut table, w, *o);
        println!("{name} {n} {place} 0");
        assert_ne!(alone_run(&mut table, w).code, TOTALS_MOVED);
        println!("{name} {n} {place} 1");
    }
}

// A table with these accounts; an insert announced by each worker; then worker 0 goes on to its answer. In the end all
// inserts are in the table: its directory swap has taken the others'.
fn taking_others(name: &str, b: u64, filling: &[u32], announced: &[u32]) {
    let n = announced.len() as u64;
    let mut table = Proved::open(n, b, 8);
    by_run(&mut table, n, &inserts(filling), |_, _| {});
    for (w, o) in inserts(announced).into_iter().enumerate() {
        assert_eq!(table.call(w as u64, o), TOTALS_OK);
        assert_eq!(table.step(w as u64).code, TOTALS_MOVED);
    }
    alone_rest();
    for step in 2.. {
        let reply = alone_step(&mut table, 0);
        println!("{name} {n} 0 {step}");
        if reply.code != TOTALS_MOVED {
            break;
        }
    }
    assert_eq!(table.rows().len(), filling.len() + announced.len());
}

fn on_map(name: &str, map: Map, operations: &[Operation]) {
    for (place, o) in operations.iter().enumerate() {
        alone_map(&map, *o);
        println!("{name} 1 {place} 1");
    }
}

// Full buckets that differ in their first bits, the places of each one's accounts agreeing in the first 8; and for each
// worker an account whose place differs from those of its bucket in bit 8: the bucket is split until it has depth 8.
fn deep(buckets: u32, n: u32, b: u32) -> (Vec<u32>, Vec<u32>) {
    let start = |i: u32| ((i % buckets) * (256 / buckets)) << 24;
    let accounts = |j: u32| (0..buckets).map(move |i| account_at(start(i) + j));
    let filling = (0..b).flat_map(accounts).collect();
    let announced = |i: u32| account_at(start(i) + (1 << 24) + i);
    (filling, (0..n).map(announced).collect())
}

fn main() {
    let growing = inserts(&spread_accounts(1000, &mut Prng::new(SEED)));
    let filling = inserts(&spread_accounts(1792, &mut Prng::new(SEED)));
    for n in [1, 8] {
        by_single_steps("growing", n, &growing);
        by_runs("growing-run", n, &growing);
        by_single_steps("filling", n, &filling);
    }
    let spread = spread_accounts(16, &mut Prng::new(SEED));
    taking_others("one-bucket", 8, &spread[..8], &spread[8..]);
    for (name, n, b, buckets) in [("deep", 1, 8, 1), ("deep", 8, 8, 8), ("deep-16", 8, 16, 8)] {
        let (filling, announced) = deep(buckets, n, b);
        taking_others(name, b.into(), &filling, &announced);
    }
    let mut random = Prng::new(SEED);
    let accounts: Vec<u32> = (0..4096).map(|_| (random.draw() >> 16) as u32).collect();
    on_map("map", Map::default(), &growing);
    on_map("map-4096", Map::default(), &inserts(&accounts));
    on_map("map-room", Map::with_room(1000), &growing);
}
