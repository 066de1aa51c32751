//! The rebate: the figures of document 02, every edge of a band, every sort of rounding, both ends of
//! the range; laws over random totals; other ways to the same rebate, and wrong ones.

use model::cents::{any_total, band, fixed, totals};
use model::prng::Prng;
use model::rebate::{rebate, BANDS, PARTS};
use model::wrong_rebates::WrongRebate;

/// Totals with their rebates.
type Figures = &'static [(i64, u64)];

const DOCUMENT_02: Figures = &[(6_000_000, 85_000), (1_000_033, 0), (1_000_034, 1)];

/// The ends of the bands, which are in them, with their neighbours.
const EDGES: Figures = &[
    (999_999, 0),
    (1_000_000, 0),
    (1_000_001, 0),
    (4_999_999, 60_000),
    (5_000_000, 60_000),
    (5_000_001, 60_000),
    (19_999_999, 435_000),
    (20_000_000, 435_000),
    (20_000_001, 435_000),
];

/// In each band with a rate: just below half a cent, and just above; just below, exactly half, and
/// just above.
const TURNS: Figures = &[
    (1_000_033, 0),
    (1_000_034, 1),
    (1_000_099, 1),
    (1_000_100, 2),
    (1_000_101, 2),
    (4_999_899, 59_998),
    (4_999_900, 59_999),
    (4_999_901, 59_999),
    (5_000_019, 60_000),
    (5_000_020, 60_001),
    (5_000_021, 60_001),
    (19_999_979, 434_999),
    (19_999_980, 435_000),
    (19_999_981, 435_000),
    (20_000_014, 435_000),
    (20_000_015, 435_001),
    (20_000_099, 435_003),
    (20_000_100, 435_004),
    (20_000_101, 435_004),
];

const ENDS: Figures = &[
    (i64::MIN, 0),
    (i64::MIN + 1, 0),
    (-1, 0),
    (0, 0),
    (1, 0),
    (i64::MAX - 22, 322_818_021_289_652_152),
    (i64::MAX - 21, 322_818_021_289_652_153),
    (i64::MAX, 322_818_021_289_652_153),
];

#[test]
fn figures() {
    for (total, cents) in [DOCUMENT_02, EDGES, TURNS, ENDS].concat() {
        assert_eq!(rebate(total), cents, "{total}");
    }
}

/// So many random totals, and before them the fixed ones.
fn many(seed: u64) -> impl Iterator<Item = i64> {
    totals(seed).take(500_000)
}

#[test]
fn a_greater_total_has_no_smaller_rebate() {
    let mut ascending: Vec<i64> = many(1).collect();
    ascending.sort_unstable();
    let rebates: Vec<u64> = ascending.iter().copied().map(rebate).collect();
    assert!(rebates.windows(2).all(|pair| pair[0] <= pair[1]));
    // a cent more gives a cent more at most
    for total in ascending.into_iter().filter(|total| *total < i64::MAX) {
        let more = rebate(total + 1) - rebate(total);
        assert!(more <= 1, "{total}: {more}");
    }
}

#[test]
fn no_rebate_is_above_its_total_and_none_is_on_a_negative_one() {
    for total in many(2) {
        let most = u64::try_from(total).unwrap_or(0);
        assert!(rebate(total) <= most, "{total}");
    }
}

/// The bands as four formulas, rounded by adding half a cent. `up_to` decides whether an amount is in
/// the band that ends there.
fn by_formulas(total: i64, up_to: fn(&i128, &i128) -> bool) -> u64 {
    let amount = i128::from(total.max(0));
    let parts = match amount {
        _ if up_to(&amount, &1_000_000) => 0,
        _ if up_to(&amount, &5_000_000) => 150 * amount - 150_000_000,
        _ if up_to(&amount, &20_000_000) => 250 * amount - 650_000_000,
        _ => 350 * amount - 2_650_000_000,
    };
    ((parts + 5_000) / 10_000) as u64
}

/// Every band's part at its rate, rounded by itself.
fn rounded_by_band(total: i64) -> u64 {
    let ends = BANDS.iter().skip(1).map(|band| band.start);
    let by_band = BANDS.iter().zip(ends.chain([i64::MAX])).map(|(band, end)| {
        let part = i128::from(total.clamp(band.start, end) - band.start);
        (part * i128::from(band.rate) + PARTS / 2) / PARTS
    });
    by_band.sum::<i128>() as u64
}

/// Two readings that are no others. A total at the end of a band has nothing above it: in the band
/// above it has the same rebate, so that whether 'up to' includes the end does not show. Full bands
/// give whole cents, so that one band at most has anything to round: rounding in each band gives what
/// rounding once does.
#[test]
fn other_ways_to_the_same_rebate() {
    for total in many(3) {
        let own = rebate(total);
        assert_eq!(by_formulas(total, i128::le), own, "{total}");
        assert_eq!(by_formulas(total, i128::lt), own, "{total}");
        assert_eq!(rounded_by_band(total), own, "{total}");
    }
}

/// A wrong rebate, and the total nearest to 0 that tells it from the right one.
const WRONG: [(WrongRebate, i64); 9] = [
    (WrongRebate::WholeAmount, 1_000_001),
    (WrongRebate::EndExcluded, 1_000_033),
    (WrongRebate::RoundedDown, 1_000_034),
    (WrongRebate::HalfDown, 1_000_100),
    (WrongRebate::Unsigned, -1),
    (WrongRebate::LowerStartsExchanged, 1_000_020),
    (WrongRebate::UpperStartsExchanged, 5_000_015),
    (WrongRebate::LastRate, 20_000_015),
    // the first whose sum in parts of a cent is 2^64 or more
    (WrongRebate::SumOf64Bits, 52_704_983_075_313_005),
];

fn shows(wrong: WrongRebate, total: i64) -> bool {
    wrong.rebate(total) != rebate(total)
}

/// Of the totals nearer to 0 all are tried to 21,000,000, and of greater ones the next and random ones.
#[test]
fn wrong_rebates_show_from_their_total_on() {
    for (wrong, nearest) in WRONG {
        assert!(shows(wrong, nearest), "{wrong:?}");
        let all = (0..nearest.abs()).take(21_000_000);
        let others = many(4).chain([nearest - nearest.signum()]);
        let nearer = others.filter(|total| total.unsigned_abs() < nearest.unsigned_abs());
        let found = all.chain(nearer).find(|total| shows(wrong, *total));
        assert_eq!(found, None, "{wrong:?}");
    }
    assert_eq!(WRONG.map(|wrong| wrong.0), WrongRebate::ALL);
}

#[test]
fn wrong_rebates_are_found_by_the_fixed_totals_and_by_random_ones() {
    let mut prng = Prng::new(5);
    let random: Vec<i64> = (0..100_000).map(|_| any_total(&mut prng)).collect();
    for wrong in WrongRebate::ALL {
        let found = |totals: &[i64]| totals.iter().filter(|total| shows(wrong, **total)).count();
        assert!(found(&fixed()) > 0, "{wrong:?}");
        assert!(found(&random) > 100, "{wrong:?}: {}", found(&random));
    }
}

#[test]
fn the_totals_to_try_have_all_edges_and_every_size() {
    let fixed = fixed();
    for (total, _) in [DOCUMENT_02, EDGES, TURNS, ENDS].concat() {
        // the middle of a band is left to random totals
        assert!(fixed.contains(&total) || total == 6_000_000, "{total}");
    }
    let first: Vec<i64> = totals(6).take(100_000).collect();
    assert_eq!(first[..fixed.len()], fixed);
    assert!(totals(6).take(100_000).eq(first.iter().copied()));
    assert!(totals(7).take(100_000).ne(first.iter().copied()));
    let random = &first[fixed.len()..];
    let (mut sizes, mut bands) = ([0; 65], [0; BANDS.len() + 1]);
    for total in random {
        sizes[64 - total.leading_zeros() as usize] += 1;
        bands[band(*total)] += 1;
    }
    assert!(sizes.iter().all(|count| *count > 100), "{sizes:?}");
    assert!(bands.iter().all(|count| *count > 5_000), "{bands:?}");
}

#[test]
fn a_band_has_its_end_and_not_its_start() {
    let edges = [0, 1_000_000, 5_000_000, 20_000_000];
    assert_eq!(edges.map(|edge| band(edge - 1)), [0, 1, 2, 3]);
    assert_eq!(edges.map(band), [0, 1, 2, 3]);
    assert_eq!(edges.map(|edge| band(edge + 1)), [1, 2, 3, 4]);
    assert_eq!([i64::MIN, i64::MAX].map(band), [0, 4]);
}
