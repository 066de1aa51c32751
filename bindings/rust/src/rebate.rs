//! The yearly rebate on a total.

use crate::raw;

/// The yearly rebate on a total in cents, in cents. Each rate, in hundredths of a percent, is for the part of the total
/// inside its band, and a band has its end in it:
///
/// | above | to | rate |
/// |---|---|---|
/// | 0 | 1,000,000 | 0 |
/// | 1,000,000 | 5,000,000 | 150 |
/// | 5,000,000 | 20,000,000 | 250 |
/// | 20,000,000 | | 350 |
///
/// The sum over the bands is rounded once to the cent, half upward. A negative total gets 0. A greater total never has
/// a smaller rebate, and no rebate is above a total that is not negative. Takes any total. The rebates of all accounts
/// of a table are [`Table::rebates`](crate::Table::rebates).
///
/// ```
/// use totals::rebate;
/// // 4,000,000 at 150 hundredths of a percent, and 1,000,000 at 250
/// assert_eq!(rebate(6_000_000), 60_000 + 25_000);
/// // 33 cents at 150 are 0.495, and 34 are 0.51
/// assert_eq!(rebate(1_000_033), 0);
/// assert_eq!(rebate(1_000_034), 1);
/// assert_eq!(rebate(-5), 0);
/// assert_eq!(rebate(i64::MAX), 322_818_021_289_652_153);
/// ```
pub fn rebate(total: i64) -> u64 {
    // SAFETY: a number alone goes in and out.
    unsafe { raw::totals_rebate(total) }
}
