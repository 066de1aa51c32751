//! Rebates by the safe interface: on every edge total and on a million others against the second model; and those of a
//! table, which are on the totals that it lists. Those of tables under random orders are in `model`, those over foreign
//! words in `foreign`.
#[allow(dead_code)]
mod ending;

use ending::{ends, opened, Done};
use model::cents;
use model::rebate::rebate as of_model;
use totals::{account_at, rebate, Answer, Owned, Ran, Refusal, Settings, Table};

#[test]
fn document_02s_figures() {
    assert_eq!([6_000_000, 1_000_033, 1_000_034].map(rebate), [85_000, 0, 1]);
}

#[test]
fn ends_of_bands_and_of_the_range() {
    let totals = [1_000_000, 5_000_000, 20_000_000];
    let rebates = [0, 60_000, 435_000];
    assert_eq!(totals.map(rebate), rebates);
    // a cent less or more is less than half a cent of rebate
    assert_eq!(totals.map(|total| rebate(total - 1)), rebates);
    assert_eq!(totals.map(|total| rebate(total + 1)), rebates);
    assert_eq!([i64::MIN, -1, 0, i64::MAX].map(rebate), [0, 0, 0, 322_818_021_289_652_153]);
}

#[test]
fn a_million_totals_as_the_model() {
    for total in cents::totals(13).take(1_000_000) {
        assert_eq!(rebate(total), of_model(total), "{total}");
    }
}

/// A table of one worker that has as many accounts as totals, inserted in no order of their numbers.
fn holding(totals: &[i64]) -> Result<Owned, Refusal> {
    let mut owned = opened(1, Settings::GREATEST_CAPACITY, Settings::GREATEST_DEPTH)?;
    let mut table = owned.table();
    for (i, total) in (0..).zip(totals) {
        table.insert(0, account_at((i * 1597 % 4096) << 20), *total)?;
        let ran = table.run(0, 23)?;
        assert!(matches!(ran, Ran::Answered { answer: Answer::Added, .. }), "account {i}: {ran:?}");
    }
    Ok(owned)
}

/// The listing's rows with the model's rebates.
fn on_listing(table: &Table) -> Result<Vec<(u32, u64)>, Refusal> {
    Ok(table.listing()?.into_iter().map(|(account, total)| (account, of_model(total))).collect())
}

#[test]
fn rebates_of_tables() -> Done {
    for count in [0, 1, 2, 100, Table::GREATEST_COUNT] {
        let totals: Vec<i64> = cents::totals(14).take(count).collect();
        let mut owned = holding(&totals)?;
        let table = owned.table();
        let rows = on_listing(&table)?;
        assert_eq!(rows.len(), count);
        assert_eq!(table.rebates()?, rows);
    }
    Ok(())
}

/// Three accounts of which one gets 85,000.
const TOTALS: [i64; 3] = [-6_000_000, 6_000_000, 0];

#[test]
fn nothing_is_written_past_the_count() -> Done {
    let mut owned = holding(&TOTALS)?;
    let (mut accounts, mut rebates) = ([7; 5], [7; 4]);
    assert_eq!(owned.table().rebates_into(&mut accounts, &mut rebates), Ok(3));
    assert_eq!((&accounts[3..], &rebates[3..]), (&[7; 2][..], &[7][..]));
    let rows: Vec<(u32, u64)> = accounts.into_iter().zip(rebates).take(3).collect();
    assert_eq!(rows, on_listing(&owned.table())?);
    Ok(())
}

#[test]
fn a_list_that_is_too_short_is_narrow_and_stays() -> Done {
    let mut owned = holding(&TOTALS)?;
    let table = owned.table();
    let (mut accounts, mut rebates) = ([7; 3], [7; 3]);
    for [account_places, rebate_places] in [[2, 3], [3, 2], [2, 2], [0, 3], [3, 0], [0, 0]] {
        let given = table.rebates_into(&mut accounts[..account_places], &mut rebates[..rebate_places]);
        assert_eq!(given, Err(Refusal::Narrow));
        assert_eq!((accounts, rebates), ([7; 3], [7; 3]));
    }
    assert_eq!(table.rebates_into(&mut accounts, &mut rebates), Ok(3));
    Ok(())
}

#[test]
fn strange_words_are_told_before_a_short_list() -> Done {
    let mut words = vec![0; Settings::new(1, 2, 1)?.words_needed()];
    let (mut accounts, mut rebates) = ([7; 3], [7; 3]);
    let table = Table::over(&mut words);
    assert_eq!(table.rebates(), Err(Refusal::Strange));
    for places in [0, 3] {
        let given = table.rebates_into(&mut accounts[..places], &mut rebates[..places]);
        assert_eq!(given, Err(Refusal::Strange));
    }
    assert_eq!((accounts, rebates), ([7; 3], [7; 3]));
    assert!(words.iter().all(|word| *word == 0));
    Ok(())
}

#[test]
fn a_parked_workers_post_counts_where_another_has_carried_it_out() -> Done {
    let mut owned = opened(2, 4, 0)?;
    let mut table = owned.table();
    table.insert(0, 1000, 999_966)?;
    ends(&mut table, 0, Answer::Added, 15, 1)?;
    table.post(1, 1000, 68)?;
    assert_eq!(table.run(1, 3)?, Ran::Moved(3));
    assert_eq!(table.rebates()?, [(1000, 0)]);
    // worker 0 carries out both posts, and 1000 has 1,000,034
    table.post(0, 1001, 6_000_000)?;
    ends(&mut table, 0, Answer::Posted(6_000_000), 15, 1)?;
    assert_eq!(table.rebates()?, [(1000, 1), (1001, 85_000)]);
    Ok(())
}
