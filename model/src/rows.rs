//! Rows to try the export on: first accounts and totals at the edges of their range and of their
//! number of digits, then random ones of every size.

use crate::export::Row;
use crate::places::{first_bits, place};
use crate::prng::Prng;
use crate::settings::Settings;
use std::collections::BTreeSet;
use std::iter::repeat_with;

/// As many rows as a table of the greatest settings has room for.
pub const MOST: usize = 4_096;

/// The powers of ten below 2^63, ascending.
fn powers() -> impl Iterator<Item = i64> {
    (0..19).map(|exponent| 10_i64.pow(exponent))
}

/// First the greatest account and 0; then, ascending, both ends' neighbours, and those with which
/// another digit begins, with theirs.
pub fn fixed_accounts() -> Vec<u32> {
    let small = powers().filter_map(|power| u32::try_from(power).ok());
    let near: BTreeSet<u32> = small
        .flat_map(|power| [power - 1, power, power + 1])
        .chain([u32::MAX - 1])
        .collect();
    let others = near.into_iter().filter(|account| *account > 0);
    [u32::MAX, 0].into_iter().chain(others).collect()
}

/// First the lowest total and 0, so that the greatest account has the longest line and account 0 the
/// shortest; then, ascending, document 02's, both ends of the range, and those with which another
/// digit begins, with their neighbours.
pub fn fixed_totals() -> Vec<i64> {
    let sizes = powers().chain([7, 1_205]);
    let all = sizes.flat_map(|size| [-size, size]);
    let near: BTreeSet<i64> = all
        .chain([i64::MIN, i64::MAX])
        .flat_map(|total| [total.saturating_sub(1), total, total.saturating_add(1)])
        .collect();
    let others = near
        .into_iter()
        .filter(|total| *total != 0 && *total != i64::MIN);
    [i64::MIN, 0].into_iter().chain(others).collect()
}

/// A random account: of all 32 bits, of any number of bits, or from 1000 up.
fn any_account(prng: &mut Prng) -> u32 {
    match prng.below(4) {
        0 | 1 => prng.draw() as u32,
        2 => prng.draw() as u32 >> prng.between(1, 31),
        _ => 1_000 + prng.below(5_000) as u32,
    }
}

/// A random total: of all 64 bits, of about a unit, near a power of ten, or of any number of bits,
/// negative or not.
pub fn any_total(prng: &mut Prng) -> i64 {
    match prng.below(6) {
        0 => prng.draw() as i64,
        1 => prng.below(401) as i64 - 200,
        2 => 10_i64.pow(prng.below(19) as u32) + prng.below(201) as i64 - 100,
        3 => -(10_i64.pow(prng.below(19) as u32) + prng.below(201) as i64 - 100),
        4 => (prng.draw() >> prng.between(1, 63)) as i64,
        _ => !(prng.draw() >> prng.between(1, 63)) as i64,
    }
}

/// Which accounts are taken, each once, and how many of each bucket of the greatest depth.
struct Room {
    accounts: BTreeSet<u32>,
    buckets: Vec<u64>,
}

impl Room {
    /// Whether there is room for an account, which then is taken.
    fn takes(&mut self, account: u32) -> bool {
        let depth = Settings::GREATEST_DEPTH as u32;
        let bucket = &mut self.buckets[first_bits(place(account), depth) as usize];
        let takes = *bucket < Settings::GREATEST_BUCKET_SIZE && self.accounts.insert(account);
        *bucket += u64::from(takes);
        takes
    }
}

/// So many rows, `MOST` at most, in no order: a table of the greatest settings has room for all.
pub fn rows(seed: u64, count: usize) -> Vec<Row> {
    assert!(count <= MOST, "no table has room for {count} rows");
    let mut prng = Prng::new(seed);
    let mut prng_of_totals = Prng::new(prng.draw());
    let mut room = Room {
        accounts: BTreeSet::new(),
        buckets: vec![0; 1 << Settings::GREATEST_DEPTH],
    };
    let drawn = repeat_with(|| any_account(&mut prng));
    let accounts: Vec<u32> = fixed_accounts()
        .into_iter()
        .chain(drawn)
        .filter(|account| room.takes(*account))
        .take(count)
        .collect();
    let drawn = repeat_with(|| any_total(&mut prng_of_totals));
    accounts
        .into_iter()
        .zip(fixed_totals().into_iter().chain(drawn))
        .collect()
}

/// The least total of each class for the export: the lowest total; a unit or more below 0; less than
/// a unit below 0; 0; less than a unit; a unit or more; the greatest total.
const LEAST: [i64; 7] = [i64::MIN, i64::MIN + 1, -99, 0, 1, 100, i64::MAX];
pub const CLASSES: usize = LEAST.len();

/// Which class a total is of, counted from 0.
pub fn class(total: i64) -> usize {
    LEAST[1..].iter().filter(|least| **least <= total).count()
}
