//! Totals in cents to try the rebate on: first those where it could go wrong, then random ones of
//! every size.

use crate::prng::Prng;
use crate::rebate::{Band, BANDS, PARTS};
use std::collections::BTreeSet;

/// The ends of the range and 0, every band's start, and of every band some totals where the rounding
/// turns: all with their neighbours, ascending, each once.
pub fn fixed() -> Vec<i64> {
    let starts = BANDS.map(|band| band.start);
    let ends = starts[1..].iter().copied().chain([i64::MAX]);
    let turns = BANDS
        .iter()
        .zip(ends)
        .flat_map(|(band, end)| turns(band, end));
    let totals = [i64::MIN, i64::MAX].into_iter().chain(starts).chain(turns);
    let near = |total: i64| [total.saturating_sub(1), total, total.saturating_add(1)];
    let fixed: BTreeSet<i64> = totals.flat_map(near).collect();
    fixed.into_iter().collect()
}

/// Of the totals in a band at which the rebate goes up, the first three and the last one, and the
/// first and the last at which exactly half a cent is rounded upward. All starts give whole cents;
/// a band without a rate has no such totals.
fn turns(band: &Band, end: i64) -> Vec<i64> {
    if band.rate == 0 {
        return Vec::new();
    }
    let (rate, inside) = (i128::from(band.rate), i128::from(end - band.start));
    let turn = |cents: i128| (cents * PARTS + PARTS / 2 + rate - 1) / rate;
    let last = (inside * rate - PARTS / 2) / PARTS;
    let is_half = |part: &i128| part * rate % PARTS == PARTS / 2;
    let halves = [(1..).find(is_half), (1..=inside).rev().find(is_half)];
    let parts = [0, 1, 2, last].map(turn).into_iter();
    let total = |part: i128| band.start + i64::try_from(part).expect("inside the band");
    let all = parts.chain(halves.into_iter().flatten());
    all.map(total).collect()
}

/// A random total: of all 64 bits, in the lower bands, near a band's start, or of any number of
/// bits, negative or not.
pub fn any_total(prng: &mut Prng) -> i64 {
    match prng.below(8) {
        0 | 1 => prng.draw() as i64,
        2 => prng.below(40_000_000) as i64,
        3 | 4 => prng.one_of(&BANDS).start + prng.below(2_001) as i64 - 1_000,
        5 | 6 => any_size(prng),
        _ => !any_size(prng),
    }
}

/// A number that is not negative, of 0 to 63 bits, each number of bits about as likely.
fn any_size(prng: &mut Prng) -> i64 {
    (prng.draw() >> prng.between(1, 63)) as i64
}

/// Which band a total is in, counted from 1; 0 where it is not above 0.
pub fn band(total: i64) -> usize {
    BANDS.iter().filter(|band| band.start < total).count()
}

/// The fixed totals, and then random ones without end; all a function of the seed.
pub fn totals(seed: u64) -> impl Iterator<Item = i64> {
    let mut prng = Prng::new(seed);
    let random = std::iter::repeat_with(move || any_total(&mut prng));
    fixed().into_iter().chain(random)
}
