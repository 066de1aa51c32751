//! Wrong rebates, each told from the right one by some total.

use crate::rebate::{half_upward, in_cents, parts, Band, BANDS, PARTS};

#[derive(Clone, Copy, PartialEq, Eq, Debug)]
pub enum WrongRebate {
    /// The rate of the total's band is taken on the whole total.
    WholeAmount,
    /// The cent at the end of a band has the next band's rate.
    EndExcluded,
    /// The sum is rounded down.
    RoundedDown,
    /// Half a cent is rounded down.
    HalfDown,
    /// A negative total is taken as a number without sign.
    Unsigned,
    /// The starts of the second and the third band are exchanged.
    LowerStartsExchanged,
    /// The starts of the third and the fourth band are exchanged.
    UpperStartsExchanged,
    /// The last rate is 300.
    LastRate,
    /// The sum is kept modulo 2^64.
    SumOf64Bits,
}

impl WrongRebate {
    pub const ALL: [WrongRebate; 9] = [
        WrongRebate::WholeAmount,
        WrongRebate::EndExcluded,
        WrongRebate::RoundedDown,
        WrongRebate::HalfDown,
        WrongRebate::Unsigned,
        WrongRebate::LowerStartsExchanged,
        WrongRebate::UpperStartsExchanged,
        WrongRebate::LastRate,
        WrongRebate::SumOf64Bits,
    ];

    /// The wrong rebate on a total, in cents.
    pub fn rebate(self, total: i64) -> u64 {
        let amount = i128::from(total.max(0));
        let due = parts(&BANDS, amount);
        in_cents(match self {
            WrongRebate::WholeAmount => half_upward(amount * rate_of(amount)),
            WrongRebate::EndExcluded => half_upward(parts(&one_lower(), amount)),
            WrongRebate::RoundedDown => due / PARTS,
            WrongRebate::HalfDown => half_downward(due),
            WrongRebate::Unsigned => half_upward(parts(&BANDS, i128::from(total as u64))),
            WrongRebate::LowerStartsExchanged => half_upward(parts(&exchanged(1, 2), amount)),
            WrongRebate::UpperStartsExchanged => half_upward(parts(&exchanged(2, 3), amount)),
            WrongRebate::LastRate => half_upward(parts(&with_last_rate(300), amount)),
            WrongRebate::SumOf64Bits => half_upward(i128::from(due as u64)),
        })
    }
}

/// The rate of the band that an amount is in.
fn rate_of(amount: i128) -> i128 {
    let band = BANDS.iter().rfind(|band| amount > i128::from(band.start));
    band.map_or(0, |band| i128::from(band.rate))
}

/// Each band but the first starts a cent lower.
fn one_lower() -> [Band; 4] {
    BANDS.map(|band| Band {
        start: (band.start - 1).max(0),
        ..band
    })
}

fn half_downward(parts: i128) -> i128 {
    let (cents, rest) = (parts / PARTS, parts % PARTS);
    match 2 * rest > PARTS {
        true => cents + 1,
        false => cents,
    }
}

/// The bands with the starts of these two exchanged.
fn exchanged(one: usize, other: usize) -> [Band; 4] {
    let mut bands = BANDS;
    (bands[one].start, bands[other].start) = (BANDS[other].start, BANDS[one].start);
    bands
}

fn with_last_rate(rate: i64) -> [Band; 4] {
    let [first, second, third, last] = BANDS;
    [first, second, third, Band { rate, ..last }]
}
