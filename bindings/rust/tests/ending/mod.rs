//! For the tests by cases: tables that are opened and filled, and operations that end as they are said to.
use totals::{account_at, Answer, Owned, Ran, Refusal, Settings, Table};

pub type Done = Result<(), Refusal>;

pub fn opened(workers: u64, capacity: u64, depth: u64) -> Result<Owned, Refusal> {
    Owned::new(Settings::new(workers, capacity, depth)?)
}

/// The worker's operation ends now, after so many steps, at this check.
pub fn ends(table: &mut Table, worker: u64, answer: Answer, steps: u64, check: u64) -> Done {
    assert_eq!(table.run(worker, 99)?, Ran::Answered { answer, steps, check });
    Ok(())
}

/// Buckets of 2, depth 1 at most. Worker 0 has inserted the accounts with these totals; no bucket was split.
pub fn holding(workers: u64, rows: &[(u32, i64)]) -> Result<Owned, Refusal> {
    let mut owned = opened(workers, 2, 1)?;
    let mut table = owned.table();
    for &(account, total) in rows {
        table.insert(0, account, total)?;
        ends(&mut table, 0, Answer::Added, 2 * workers + 11, 1)?;
    }
    Ok(owned)
}

/// What document 01's splitting cases hold: the accounts at places 5 and 6, which fill the only bucket.
pub fn holding_5_and_6(workers: u64) -> Result<Owned, Refusal> {
    holding(workers, &[(account_at(5), 50), (account_at(6), 60)])
}

/// Worker 0's post ends with this answer.
pub fn posts(table: &mut Table, account: u32, amount: i64, answer: Answer) -> Done {
    table.post(0, account, amount)?;
    ends(table, 0, answer, 13, 1)
}
