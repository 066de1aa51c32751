// The place of an account, whose first bits choose its bucket, and the account at a place, by document 02's factor and
// its inverse modulo 2^32.

pub fn place(account: u32) -> u32 {
    account.wrapping_mul(2_654_435_761)
}

pub fn account_at(place: u32) -> u32 {
    place.wrapping_mul(244_002_641)
}
