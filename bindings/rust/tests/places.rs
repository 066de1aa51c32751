//! Accounts by their places: the way there and back, listings that ascend by number, and which accounts crowd which.
#[allow(dead_code)]
mod ending;

use ending::{ends, holding, opened, Done};
use model::prng::Prng;
use std::collections::BTreeMap;
use totals::{account_at, place, Answer, Ran, Refusal, Table};

/// Document 02's factor, and the one that undoes it modulo 2^32.
const FACTOR: u32 = 2_654_435_761;
const BACK: u32 = 244_002_641;

/// A number by both functions, and back.
fn both_ways(number: u32) {
    assert_eq!(place(number), number.wrapping_mul(FACTOR));
    assert_eq!(account_at(number), number.wrapping_mul(BACK));
    assert_eq!(account_at(place(number)), number);
    assert_eq!(place(account_at(number)), number);
}

#[test]
fn edge_numbers_there_and_back() {
    let powers = (0..u32::BITS).map(|bit| 1_u32 << bit);
    powers.flat_map(|power| [power - 1, power, power + 1]).for_each(both_ways);
    let others = [u32::MAX - 1, u32::MAX, FACTOR, BACK, FACTOR.wrapping_neg(), BACK.wrapping_neg()];
    others.into_iter().chain(1000..5096).for_each(both_ways);
    assert_eq!((place(BACK), account_at(FACTOR)), (1, 1));
}

#[test]
fn a_million_numbers_there_and_back() {
    let mut prng = Prng::new(8);
    (0..1_000_000).for_each(|_| both_ways((prng.draw() >> 16) as u32));
}

#[test]
fn the_accounts_at_document_01s_numbers() {
    let places = [5, 6, 7, 9, 2147483648, 2147483649];
    let accounts = [1220013205, 1464015846, 1708018487, 2196023769, 2147483648, 2391486289];
    assert_eq!(places.map(account_at), accounts);
    assert_eq!(accounts.map(place), places);
}

/// Worker 0's insert, in a table of one worker, to its answer.
fn insert(table: &mut Table, account: u32, total: i64) -> Result<Answer, Refusal> {
    table.insert(0, account, total)?;
    match table.run(0, 23)? {
        Ran::Answered { answer, .. } => Ok(answer),
        Ran::Moved(steps) => panic!("no answer after {steps} steps"),
    }
}

/// The table lists what the map holds.
fn lists(table: &Table, map: &BTreeMap<u32, i64>) -> Done {
    assert_eq!(table.listing()?, map.iter().map(|(account, total)| (*account, *total)).collect::<Vec<_>>());
    Ok(())
}

#[test]
fn a_listing_of_4096_accounts() -> Done {
    let mut owned = opened(1, 16, 8)?;
    let mut table = owned.table();
    let (mut prng, mut map) = (Prng::new(9), BTreeMap::new());
    // sixteen in each of 256 buckets, inserted in no order
    for i in (0..4096).map(|i| i * 1597 % 4096) {
        let (account, total) = (account_at(i << 20), prng.draw() as i64);
        assert_eq!(insert(&mut table, account, total)?, Answer::Added);
        map.insert(account, total);
    }
    assert_eq!(map.len(), Table::GREATEST_COUNT);
    lists(&table, &map)?;
    for prefix in 0..256 {
        assert_eq!(insert(&mut table, account_at(prefix << 24 | 5), 1)?, Answer::Crowded);
        table.delete(0, account_at(prefix << 24))?;
        ends(&mut table, 0, Answer::Removed, 13, 1)?;
        map.remove(&account_at(prefix << 24));
    }
    lists(&table, &map)
}

#[test]
fn a_listing_is_in_the_order_of_numbers_and_not_of_places() -> Done {
    let mut owned = holding(1, &[(1001, 1), (1002, 2)])?;
    let mut table = owned.table();
    assert_eq!(table.listing()?, [(1001, 1), (1002, 2)]);
    assert!(place(1000) < place(1002) && place(1002) < place(1001));
    // the first half has 1000 and 1002, the second 1001
    assert_eq!(insert(&mut table, 1000, 0)?, Answer::Added);
    assert_eq!(table.listing()?, [(1000, 0), (1001, 1), (1002, 2)]);
    Ok(())
}

/// In buckets of 2 these accounts, which ascend, have room, and then this one has none.
fn room(depth: u64, accounts: &[u32], crowded: u32) -> Done {
    let mut owned = opened(1, 2, depth)?;
    let mut table = owned.table();
    for account in accounts {
        assert_eq!(insert(&mut table, *account, 1)?, Answer::Added, "{account}");
    }
    assert_eq!(insert(&mut table, crowded, 1)?, Answer::Crowded);
    table.post(0, crowded, 1)?;
    ends(&mut table, 0, Answer::Crowded, 13, 1)?;
    assert_eq!(table.listing()?, accounts.iter().map(|account| (*account, 1)).collect::<Vec<_>>());
    Ok(())
}

#[test]
fn crowding_that_only_numbers_would_see() -> Done {
    // the first bits of all these numbers agree
    room(1, &[1000, 1001, 1002, 1003], 1004)?;
    room(2, &[1000, 1001, 1002, 1003, 1004, 1005], 1006)
}

#[test]
fn crowding_that_only_places_see() -> Done {
    // the first bits of the numbers differ, those of the places do not
    let account = 1001 + (1 << 31);
    assert_eq!([1000, 1002, account].map(|number| (number >> 31, place(number) >> 31)), [(0, 0), (0, 0), (1, 0)]);
    room(1, &[1000, 1002], account)?;
    assert_eq!([1000, 1005, account].map(|number| (number >> 30, place(number) >> 30)), [(0, 0), (0, 0), (2, 0)]);
    room(2, &[1000, 1005], account)
}

/// How many accounts from 1000 up there are before one whose place agrees with b others' in the first M bits.
fn room_from_1000_up(capacity: u32, depth: u32) -> u32 {
    let mut taken = vec![0; 1 << depth];
    let has_room = |account: &u32| {
        let first = account.wrapping_mul(FACTOR) >> (u32::BITS - depth);
        taken[first as usize] += 1;
        taken[first as usize] <= capacity
    };
    (1000..).take_while(has_room).count() as u32
}

/// Bucket size, greatest depth, and how many accounts from 1000 up fit: the table of docs/USING.md, and two small ones.
const FIT: [(u32, u32, u32); 12] = [
    (2, 1, 4),
    (4, 2, 14),
    (8, 4, 123),
    (8, 5, 240),
    (8, 6, 467),
    (8, 7, 938),
    (8, 8, 1742),
    (16, 4, 249),
    (16, 5, 493),
    (16, 6, 988),
    (16, 7, 1925),
    (16, 8, 3807),
];

#[test]
fn accounts_from_1000_up_until_crowded() -> Done {
    for (capacity, depth, count) in FIT {
        assert_eq!(room_from_1000_up(capacity, depth), count);
        let mut owned = opened(1, capacity.into(), depth.into())?;
        let mut table = owned.table();
        for account in 1000..1000 + count {
            assert_eq!(insert(&mut table, account, -i64::from(account))?, Answer::Added, "{account}");
        }
        assert_eq!(insert(&mut table, 1000 + count, 1)?, Answer::Crowded);
        let rows = (1000..1000 + count).map(|account| (account, -i64::from(account)));
        assert_eq!(table.listing()?, rows.collect::<Vec<_>>());
    }
    Ok(())
}
