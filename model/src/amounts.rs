//! Totals and amounts for random orders: at both ends of their range, 0, and others.

use crate::prng::Prng;

/// The ends of the range with their neighbours, what is next to the middle, and halves of which two
/// are just inside the range or just outside.
const ENDS: [i64; 13] = [
    i64::MAX,
    i64::MAX - 1,
    i64::MIN,
    i64::MIN + 1,
    i64::MAX,
    i64::MIN,
    0,
    0,
    1,
    -1,
    i64::MAX / 2,
    i64::MAX / 2 + 1,
    i64::MIN / 2 - 1,
];

/// So often in a hundred one of the ends, otherwise the other number.
pub fn ends_or(prng: &mut Prng, chance: u64, other: i64) -> i64 {
    match prng.percent(chance) {
        true => prng.one_of(&ENDS),
        false => other,
    }
}
