//! Document 02: an account's place, whose first bits choose its bucket, and the way back from a
//! place to its account. Both factors are odd, and their product is 1 modulo 2^32.

/// An account's place is the account times this, modulo 2^32.
pub const FACTOR: u32 = 2_654_435_761;
/// A place's account is the place times this, modulo 2^32.
pub const FACTOR_BACK: u32 = 244_002_641;

/// The place of an account.
pub const fn place(account: u32) -> u32 {
    account.wrapping_mul(FACTOR)
}

/// The account at a place.
pub const fn account_at(place: u32) -> u32 {
    place.wrapping_mul(FACTOR_BACK)
}

/// The first `depth` bits of a place, most significant first.
pub fn first_bits(place: u32, depth: u32) -> u32 {
    place.checked_shr(32 - depth).unwrap_or(0)
}
