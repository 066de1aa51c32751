// Operations for all sides, from fixed seeds.
use crate::fields::{KIND_DELETE, KIND_INSERT, KIND_LOOKUP, KIND_POST};
use crate::places::account_at;

#[path = "../../model/src/prng.rs"]
mod prng;
pub use prng::Prng;

// A post's total is its amount.
#[derive(Clone, Copy)]
pub struct Operation {
    pub kind: u64,
    pub account: u32,
    pub total: i64,
}

// What a table is filled with, and what is then measured.
pub struct Work {
    pub name: &'static str,
    pub workers: u64,
    pub capacity: u64,
    pub depth: u64,
    pub filling: Vec<Operation>,
    pub measured: Vec<Operation>,
}

pub fn insert(account: u32, random: &mut Prng) -> Operation {
    Operation {
        kind: KIND_INSERT,
        account,
        total: random.draw() as i64 >> 8,
    }
}

fn delete(account: u32) -> Operation {
    Operation {
        kind: KIND_DELETE,
        account,
        total: 0,
    }
}

// Accounts at random places, no eight of these with the same first 8 bits: with b 8 and M 8 none is crowded.
pub fn spread_accounts(count: usize, random: &mut Prng) -> Vec<u32> {
    let mut taken = [0; 256];
    let mut accounts = Vec::new();
    while accounts.len() < count {
        let place = (random.draw() >> 16) as u32;
        let (account, first) = (account_at(place), (place >> 24) as usize);
        if taken[first] < 7 && !accounts.contains(&account) {
            taken[first] += 1;
            accounts.push(account);
        }
    }
    accounts
}

// Of ten operations nine are lookups; of four others three are inserts and one a delete.
fn mixed_kind(random: &mut Prng) -> u64 {
    if random.below(10) < 9 {
        KIND_LOOKUP
    } else if random.below(4) < 3 {
        KIND_INSERT
    } else {
        KIND_DELETE
    }
}

// So many operations on 1,000 accounts, b 8, M 8. Growing is their first insert; the other works start after it.
// Deletes are one of each account; no sum of posts is an overrun.
pub fn work(name: &'static str, workers: u64, count: usize) -> Work {
    let mut random = Prng::new(88172645463325252);
    let accounts = spread_accounts(1000, &mut random);
    let first: Vec<Operation> = accounts.iter().map(|a| insert(*a, &mut random)).collect();
    let mut operation = |_| {
        let kind = match name {
            "inserts" => KIND_INSERT,
            "posts" => KIND_POST,
            "lookups" => KIND_LOOKUP,
            _ => mixed_kind(&mut random),
        };
        let account = accounts[random.below(1000) as usize];
        Operation {
            kind,
            ..insert(account, &mut random)
        }
    };
    let (filling, measured) = match name {
        "growing" => (Vec::new(), first),
        "deletes" => (first, accounts.iter().map(|a| delete(*a)).collect()),
        _ => (first, (0..count).map(&mut operation).collect()),
    };
    Work {
        name,
        workers,
        capacity: 8,
        depth: 8,
        filling,
        measured,
    }
}

// Lookups in buckets that all hold 4 accounts, at a greatest depth: each bucket gets 7 and loses 3.
pub fn even(depth: u64, count: usize) -> Work {
    let mut random = Prng::new(20261115);
    let account = |first: u64, i: u64| account_at(((first << 32 >> depth) + (i << 20)) as u32);
    let mut filling = Vec::new();
    for i in 0..7 {
        filling.extend((0..1 << depth).map(|p| insert(account(p, i), &mut random)));
    }
    for i in [1, 3, 5] {
        filling.extend((0..1 << depth).map(|p| delete(account(p, i))));
    }
    let measured = (0..count)
        .map(|_| {
            let first = random.below(1 << depth);
            Operation {
                kind: KIND_LOOKUP,
                account: account(first, 2 * random.below(4)),
                total: 0,
            }
        })
        .collect();
    let name = ["depth-0", "depth-4", "depth-8"][depth as usize / 4];
    Work {
        name,
        workers: 1,
        capacity: 8,
        depth,
        filling,
        measured,
    }
}

// So many accounts to be listed, b 16, M 8: from 1000 up, but where they are 4,096, for which all buckets have to be
// full, evenly spread.
pub fn listing(count: u32) -> Work {
    let mut random = Prng::new(20261117);
    let (name, account): (_, fn(u32) -> u32) = match count {
        16 => ("listing-16", from_1000_up),
        1000 => ("listing-1000", from_1000_up),
        4096 => ("listing-4096", |i| account_at(i << 20)),
        _ => panic!("no listing of {count} accounts"),
    };
    Work {
        name,
        workers: 1,
        capacity: 16,
        depth: 8,
        filling: (0..count)
            .map(|i| insert(account(i), &mut random))
            .collect(),
        measured: Vec::new(),
    }
}

fn from_1000_up(i: u32) -> u32 {
    1000 + i
}

// The rebate's four bands and, before them, what is not above 0: each is above one of these, up to the next.
pub const BAND_ENDS: [i64; 6] = [i64::MIN, 0, 1_000_000, 5_000_000, 20_000_000, i64::MAX];

// A total of a band 1 to 4, or one that is not above 0 for 0.
pub fn total_in(band: usize, random: &mut Prng) -> i64 {
    let (above, to) = (BAND_ENDS[band], BAND_ENDS[band + 1]);
    to - random.below(to.abs_diff(above)) as i64
}

// The accounts of a listing with other totals.
fn with_totals(name: &'static str, count: u32, total: fn(usize, &mut Prng) -> i64) -> Work {
    let mut random = Prng::new(20261118);
    let mut w = listing(count);
    w.name = name;
    for (i, o) in w.filling.iter_mut().enumerate() {
        o.total = total(i, &mut random);
    }
    w
}

// With totals of all bands in turn.
pub fn rebates(name: &'static str, count: u32) -> Work {
    with_totals(name, count, |i, random| total_in(i % 5, random))
}

// A total of either sign, its size below 10, 100 and so on up to 10^12 equally often.
fn sum_of_money(random: &mut Prng) -> i64 {
    let digits = 1 + random.below(12);
    let size = random.below(10u64.pow(digits as u32)) as i64;
    if random.one_in(2) {
        -size
    } else {
        size
    }
}

// With totals as they may come: of both signs and of many lengths.
pub fn exports(name: &'static str, count: u32) -> Work {
    with_totals(name, count, |_, random| sum_of_money(random))
}
