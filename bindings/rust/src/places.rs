//! Which accounts share a bucket: the place of an account, and the way back.

use crate::raw;

/// The place of an account: its number times 2,654,435,761 modulo 2^32. The place's first bits, most significant first,
/// choose the account's bucket, and an insert is [`Crowded`](crate::Answer::Crowded) by the accounts whose places agree
/// with its own in the first M bits. Listings have the account's number, never its place.
///
/// The accounts 1000 to 1003 agree in their first 30 bits; their places differ in the first two.
///
/// ```
/// use totals::{account_at, place};
/// assert_eq!([1000, 1001, 1002, 1003].map(|account| place(account) >> 30), [0, 2, 1, 3]);
/// for number in [0, 1, 1000, 1 << 31, u32::MAX] {
///     assert_eq!(account_at(place(number)), number);
///     assert_eq!(place(account_at(number)), number);
/// }
/// ```
pub fn place(account: u32) -> u32 {
    // SAFETY: a number alone goes in and out.
    unsafe { raw::totals_place(account) }
}

/// The account at a place: the place times 244,002,641 modulo 2^32. It is the inverse of [`place`], in either order and
/// for all numbers of 32 bits.
///
/// ```
/// use totals::{account_at, place};
/// // three accounts that share a bucket, however deep it is
/// let accounts = [5, 6, 7].map(account_at);
/// assert_eq!(accounts, [1_220_013_205, 1_464_015_846, 1_708_018_487]);
/// assert_eq!(accounts.map(place), [5, 6, 7]);
/// ```
pub fn account_at(place: u32) -> u32 {
    // SAFETY: a number alone goes in and out.
    unsafe { raw::totals_account_at(place) }
}
