// The yearly rebate on a total by document 02's bands, in 128 bits.

// A cent is 10,000 parts, and a rate is parts of a cent on each cent.
#[inline(always)]
pub fn rebate(total: i64) -> u64 {
    let total = i128::from(total.max(0));
    let parts = match total {
        ..=1_000_000 => 0,
        1_000_001..=5_000_000 => (total - 1_000_000) * 150,
        5_000_001..=20_000_000 => 4_000_000 * 150 + (total - 5_000_000) * 250,
        _ => 4_000_000 * 150 + 15_000_000 * 250 + (total - 20_000_000) * 350,
    };
    ((parts + 5_000) / 10_000) as u64
}
