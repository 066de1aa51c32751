//! Document 02: the yearly rebate on a total in cents, by bands. The amount is cut at the bands'
//! starts from the top, the sum is exact in 128 bits, and it is rounded once, by comparing twice the
//! remainder with the divisor.

/// A band: where it starts, in cents, and its rate in hundredths of a percent. The rate is for what
/// is above the start, up to the start of the next band, that end included.
#[derive(Clone, Copy, PartialEq, Eq, Debug)]
pub struct Band {
    pub start: i64,
    pub rate: i64,
}

/// The bands, ascending; the last one has no end.
pub const BANDS: [Band; 4] = [
    Band { start: 0, rate: 0 },
    Band {
        start: 1_000_000,
        rate: 150,
    },
    Band {
        start: 5_000_000,
        rate: 250,
    },
    Band {
        start: 20_000_000,
        rate: 350,
    },
];

/// How many parts a cent has: one of them is a hundredth of a percent of a cent.
pub const PARTS: i128 = 10_000;

/// The rebate on a total, in cents.
pub fn rebate(total: i64) -> u64 {
    in_cents(half_upward(parts(&BANDS, i128::from(total.max(0)))))
}

/// What these bands give on an amount that is not negative, in parts of a cent.
pub(crate) fn parts(bands: &[Band], amount: i128) -> i128 {
    let mut below = amount;
    let mut sum = 0;
    for band in bands.iter().rev() {
        let start = i128::from(band.start);
        if below > start {
            sum += (below - start) * i128::from(band.rate);
            below = start;
        }
    }
    sum
}

/// So many parts rounded to the cent, half upward.
pub(crate) fn half_upward(parts: i128) -> i128 {
    let (cents, rest) = (parts / PARTS, parts % PARTS);
    match 2 * rest < PARTS {
        true => cents,
        false => cents + 1,
    }
}

/// A rebate's number.
pub(crate) fn in_cents(cents: i128) -> u64 {
    u64::try_from(cents).expect("no rebate is negative or above its total")
}
