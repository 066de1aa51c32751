//! The accounts of random orders and input. Some are drawn as places that agree in their first
//! bits: they fill buckets, split them and crowd them. Others are numbered from 1000 up, as
//! wholesalers number theirs, and their places agree by chance; and a few are at an edge, or any.

use crate::places::account_at;
use crate::prng::Prng;
use crate::settings::Settings;

/// The first number of a wholesaler's accounts.
pub const FIRST: u32 = 1_000;

/// Accounts and places at both ends and in the middle; 0 and 2^31 are their own places.
const EDGES: [u32; 9] = [
    0,
    1,
    u32::MAX,
    1 << 31,
    (1 << 31) - 1,
    account_at(1),
    account_at(u32::MAX),
    account_at((1 << 31) - 1),
    account_at((1 << 31) + 1),
];

/// The accounts of one order or list.
#[derive(Clone, Debug)]
pub struct Pool {
    /// Those drawn as places stand before those from 1000 up.
    accounts: Vec<u32>,
    /// How many were drawn as places.
    near: usize,
    /// How many calls in a hundred go to those.
    share: u64,
}

impl Pool {
    /// The accounts at these places, and so many from 1000 up; none that no call goes to.
    fn new(places: &[u32], upward: u64, share: u64) -> Pool {
        let near = places.iter().filter(|_| share > 0);
        let mut accounts: Vec<u32> = near.map(|place| account_at(*place)).collect();
        let near = accounts.len();
        let numbers = (FIRST..).take(upward as usize).filter(|_| share < 100);
        accounts.extend(numbers);
        Pool {
            accounts,
            near,
            share,
        }
    }

    /// The account of a call.
    pub fn pick(&self, prng: &mut Prng) -> u32 {
        match prng.below(100) {
            0 => prng.one_of(&EDGES),
            1 | 2 => prng.draw() as u32,
            _ if prng.percent(self.share) => prng.one_of(&self.accounts[..self.near]),
            _ => prng.one_of(&self.accounts[self.near..]),
        }
    }

    pub fn accounts(&self) -> &[u32] {
        &self.accounts
    }

    /// Keeps so many of both sorts, at least one.
    pub fn truncate(&mut self, count: usize) {
        let upward = self.accounts.split_off(self.near);
        self.accounts.truncate(count);
        self.near = self.accounts.len();
        self.accounts.extend(upward.iter().take(count));
    }

    /// For splitting and crowding.
    pub fn splitting(prng: &mut Prng, settings: &Settings, share: u64) -> Pool {
        let depth = settings.greatest_depth + prng.below(2) as u32;
        let base = prng.draw() as u32;
        let size = settings.bucket_size as u64;
        let most = 24 + (1 << settings.greatest_depth.min(6));
        let count = prng.between(size + 1, most);
        let style = prng.below(4);
        let draw = |_| splitting_place(prng, style, base, depth);
        let places: Vec<u32> = (0..count).map(draw).collect();
        Pool::new(&places, prng.between(size + 1, 4 * size), share)
    }

    /// For full buckets at depth M: one or two prefixes of M bits, with one to three accounts each
    /// that have no room beside b others, and as many from 1000 up for each prefix there is.
    pub fn crowding(prng: &mut Prng, settings: &Settings, share: u64) -> Pool {
        let depth = settings.greatest_depth;
        let each = settings.bucket_size as u64 + prng.between(1, 3);
        let prefixes = boundaries(prng, depth, 1, 2);
        Pool::new(&beside(&prefixes, each), each << depth, share)
    }

    /// Few prefixes and a small range fill buckets, split them and crowd them; for filling a whole
    /// table, many.
    pub fn listed(prng: &mut Prng, settings: &Settings, filling: bool, share: u64) -> Pool {
        let depth = settings.greatest_depth;
        let bits = (depth + prng.below(3) as u32).max(1);
        let prefixes = match filling {
            true => boundaries(prng, bits, 64, 256),
            false => boundaries(prng, bits, 1, 6),
        };
        let size = settings.bucket_size as u64;
        let range = match prng.percent(70) {
            true => prng.between(2, size.max(3) - 1),
            false => prng.between(size, size * 2),
        };
        let upward = match filling {
            true => prng.between(size << depth >> 1, size << depth),
            false => prng.between(1, 4 * size),
        };
        Pool::new(&beside(&prefixes, range), upward, share)
    }

    /// Two to six accounts in each of a few prefixes, of as many bits as a bucket can have, and as
    /// many from 1000 up for each prefix there is.
    pub fn neighbours(prng: &mut Prng, settings: &Settings, share: u64) -> Pool {
        let depth = settings.greatest_depth;
        let prefixes = boundaries(prng, depth.max(1), 1, 3);
        let range = prng.between(2, 6);
        Pool::new(&beside(&prefixes, range), range << depth, share)
    }
}

/// Any place of which only the first bits are not 0.
fn boundary(prng: &mut Prng, bits: u32) -> u32 {
    prng.draw() as u32 & !below(bits)
}

/// All bits but the first ones.
fn below(bits: u32) -> u32 {
    u32::MAX.checked_shr(bits).unwrap_or(0)
}

/// A place with so many drawn first bits, by the style of its pool.
fn splitting_place(prng: &mut Prng, style: u64, base: u32, depth: u32) -> u32 {
    let high = match style {
        // Any prefix.
        0 => prng.draw() as u32,
        // One prefix and those that differ from it in one bit.
        1 if depth > 0 => base ^ (prng.below(2) as u32) << (31 - prng.below(u64::from(depth))),
        // One prefix mostly.
        2 if prng.percent(60) => base,
        // On both sides of a boundary.
        _ => boundary(prng, depth).wrapping_sub(prng.below(2) as u32),
    };
    match style {
        3 => high,
        _ => high & !below(depth) | prng.below(4) as u32,
    }
}

/// From least to most of them.
fn boundaries(prng: &mut Prng, bits: u32, least: u64, most: u64) -> Vec<u32> {
    let count = prng.between(least, most);
    (0..count).map(|_| boundary(prng, bits)).collect()
}

/// So many places from each of these on.
fn beside(prefixes: &[u32], each: u64) -> Vec<u32> {
    let places = |prefix: &u32| {
        let prefix = *prefix;
        (0..each as u32).map(move |low| prefix | low)
    };
    prefixes.iter().flat_map(places).collect()
}
