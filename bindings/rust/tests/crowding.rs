//! Full buckets at the greatest depth by the safe interface: what corrects their accounts, what is crowded, room made.
//! At the greatest depth 0 all accounts share the only bucket; where one is split, the accounts are those whose places
//! are document 01's numbers.
mod ending;

use ending::{ends, holding_5_and_6, opened, posts, Done};
use totals::{account_at, Answer, Owned, Ran, Refusal, Stepped, Table};

/// A table of buckets of 2 at the greatest depth 0, in which worker 0 has inserted 5 and 6, which fill the bucket.
fn two_neighbours(workers: u64) -> Result<Owned, Refusal> {
    let mut owned = opened(workers, 2, 0)?;
    let mut table = owned.table();
    for (account, total) in [(5, 50), (6, 60)] {
        table.insert(0, account, total)?;
        ends(&mut table, 0, Answer::Added, 2 * workers + 11, 1)?;
    }
    Ok(owned)
}

/// Worker 0's update ends with this answer, in a table of one worker that splits nothing.
fn answers(table: &mut Table, answer: Answer) -> Done {
    ends(table, 0, answer, 13, 1)
}

#[test]
fn a_full_bucket_takes_what_corrects_its_accounts() -> Done {
    let mut owned = two_neighbours(1)?;
    let mut table = owned.table();
    table.insert(0, 7, 70)?;
    answers(&mut table, Answer::Crowded)?;
    table.post(0, 7, 0)?;
    answers(&mut table, Answer::Crowded)?;
    table.delete(0, 7)?;
    answers(&mut table, Answer::Absent)?;
    assert_eq!(table.listing()?, [(5, 50), (6, 60)]);
    table.insert(0, 5, i64::MAX)?;
    answers(&mut table, Answer::Replaced)?;
    table.post(0, 5, 1)?;
    answers(&mut table, Answer::Overrun)?;
    table.post(0, 6, 5)?;
    answers(&mut table, Answer::Posted(65))?;
    assert_eq!(table.listing()?, [(5, i64::MAX), (6, 65)]);
    // room for one
    table.delete(0, 5)?;
    answers(&mut table, Answer::Removed)?;
    table.insert(0, 7, 70)?;
    answers(&mut table, Answer::Added)?;
    table.insert(0, 5, 50)?;
    answers(&mut table, Answer::Crowded)?;
    assert_eq!(table.listing()?, [(6, 65), (7, 70)]);
    Ok(())
}

#[test]
fn a_full_half_takes_what_corrects_its_accounts() -> Done {
    let mut owned = holding_5_and_6(1)?;
    let mut table = owned.table();
    let [four, five, six, seven] = [4, 5, 6, 7].map(account_at);
    // the full bucket is split first, and then the full half takes the delete
    table.delete(0, five)?;
    ends(&mut table, 0, Answer::Removed, 23, 2)?;
    table.insert(0, five, 51)?;
    ends(&mut table, 0, Answer::Added, 13, 1)?;
    table.insert(0, six, 61)?;
    ends(&mut table, 0, Answer::Replaced, 13, 1)?;
    posts(&mut table, seven, 1, Answer::Crowded)?;
    posts(&mut table, five, 1, Answer::Posted(52))?;
    table.delete(0, four)?;
    ends(&mut table, 0, Answer::Absent, 13, 1)?;
    assert_eq!(table.listing()?, [(five, 52), (six, 61)]);
    Ok(())
}

#[test]
fn crowded_is_settled_though_room_is_made() -> Done {
    let mut owned = two_neighbours(2)?;
    let mut table = owned.table();
    table.insert(1, 7, 70)?;
    // after its first swap
    assert_eq!(table.run(1, 8)?, Ran::Moved(8));
    table.delete(0, 5)?;
    ends(&mut table, 0, Answer::Removed, 15, 1)?;
    ends(&mut table, 1, Answer::Crowded, 15, 1)?;
    assert_eq!(table.listing()?, [(6, 60)]);
    // the next one finds the room
    table.insert(1, 7, 70)?;
    ends(&mut table, 1, Answer::Added, 15, 1)?;
    assert_eq!(table.listing()?, [(6, 60), (7, 70)]);
    Ok(())
}

#[test]
fn a_delete_and_an_insert_in_one_swap() -> Done {
    let mut owned = two_neighbours(2)?;
    let mut table = owned.table();
    // worker 1 carries out both in the order of their numbers: the delete makes room for its insert
    table.delete(0, 5)?;
    assert_eq!(table.run(0, 3)?, Ran::Moved(3));
    table.insert(1, 7, 70)?;
    ends(&mut table, 1, Answer::Added, 15, 1)?;
    ends(&mut table, 0, Answer::Removed, 15, 1)?;
    assert_eq!(table.listing()?, [(6, 60), (7, 70)]);
    // and not the other way round
    table.insert(0, 8, 80)?;
    assert_eq!(table.run(0, 3)?, Ran::Moved(3));
    table.delete(1, 7)?;
    ends(&mut table, 1, Answer::Removed, 15, 1)?;
    ends(&mut table, 0, Answer::Crowded, 15, 1)?;
    assert_eq!(table.listing()?, [(6, 60)]);
    Ok(())
}

#[test]
fn crowded_is_settled_by_a_split() -> Done {
    let mut owned = holding_5_and_6(2)?;
    let mut table = owned.table();
    table.insert(1, account_at(7), 70)?;
    assert_eq!(table.step(1)?, Stepped::Moved);
    // worker 0 splits the full bucket, and settles worker 1's insert, which it has only seen announced
    table.insert(0, account_at(2147483648), 80)?;
    ends(&mut table, 0, Answer::Added, 29, 2)?;
    table.delete(0, account_at(5))?;
    ends(&mut table, 0, Answer::Removed, 15, 1)?;
    ends(&mut table, 1, Answer::Crowded, 15, 1)?;
    assert_eq!(table.listing()?, [(account_at(6), 60), (account_at(2147483648), 80)]);
    Ok(())
}
