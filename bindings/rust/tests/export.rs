//! Exports by the safe interface: document 02's figures and both ends of the range byte by byte, and random rows as the
//! second model's file; outputs that fit, are longer and are too short; strange words. Those of tables under random
//! orders are in `model`, those over foreign words in `foreign`.
#[allow(dead_code)]
mod ending;

use ending::{ends, opened, Done};
use model::export::file;
use model::reading;
use model::rows::rows;
use totals::{account_at, Answer, Owned, Ran, Refusal, Settings, Table};

/// A table of one worker that holds these rows, inserted in this order.
fn holding(rows: &[(u32, i64)]) -> Result<Owned, Refusal> {
    let mut owned = opened(1, Settings::GREATEST_CAPACITY, Settings::GREATEST_DEPTH)?;
    let mut table = owned.table();
    for (account, total) in rows {
        table.insert(0, *account, *total)?;
        let ran = table.run(0, 23)?;
        assert!(matches!(ran, Ran::Answered { answer: Answer::Added, .. }), "account {account}: {ran:?}");
    }
    Ok(owned)
}

/// Rows in no order, and the lines of their file behind the header.
const ROWS: [(u32, i64); 13] = [
    (1000, 100),
    (7, 99),
    (u32::MAX, i64::MIN),
    (6, -99),
    (0, 7),
    (1, -1205),
    (1001, -100),
    (2, -7),
    (10, i64::MAX),
    (3, 0),
    (1002, 1205),
    (4, 1),
    (5, -1),
];
const LINES: [&str; 13] = [
    "0,0.07",
    "1,-12.05",
    "2,-0.07",
    "3,0.00",
    "4,0.01",
    "5,-0.01",
    "6,-0.99",
    "7,0.99",
    "10,92233720368547758.07",
    "1000,1.00",
    "1001,-1.00",
    "1002,12.05",
    "4294967295,-92233720368547758.08",
];

#[test]
fn document_02s_figures_and_the_ends_of_the_range() -> Done {
    let mut owned = holding(&ROWS)?;
    let lines: String = LINES.iter().map(|line| format!("{line}\r\n")).collect();
    assert_eq!(String::from_utf8(owned.table().export()?), Ok(format!("account,total\r\n{lines}")));
    Ok(())
}

#[test]
fn random_rows_as_the_models_file() -> Done {
    for (seed, count) in [(1, 0), (2, 1), (3, 2), (4, 300), (5, Table::GREATEST_COUNT), (6, Table::GREATEST_COUNT)] {
        let mut rows = rows(seed, count);
        let mut owned = holding(&rows)?;
        rows.sort_unstable();
        let table = owned.table();
        assert!(table.export()? == file(&rows), "seed {seed}");
        // what its lines determine is the listing
        assert_eq!(reading::rows(&table.export()?), Some(table.listing()?), "seed {seed}");
    }
    Ok(())
}

/// As many accounts as a table can hold, all of ten digits, with the lowest total: the longest file that there is.
#[test]
fn the_longest_file_has_as_many_bytes_as_are_said() -> Done {
    let long =
        |first: u32| (0..).map(move |low| account_at(first << 24 | low)).filter(|account| *account >= 1_000_000_000);
    let rows: Vec<(u32, i64)> =
        (0..256).flat_map(|first| long(first).take(16)).map(|account| (account, i64::MIN)).collect();
    assert_eq!(rows.len(), Table::GREATEST_COUNT);
    let mut owned = holding(&rows)?;
    let table = owned.table();
    let mut out = vec![b'?'; Table::GREATEST_EXPORT];
    assert_eq!(table.export_into(&mut out[..Table::GREATEST_EXPORT - 1]), Err(Refusal::Narrow));
    assert!(out.iter().all(|byte| *byte == b'?'));
    assert_eq!(table.export_into(&mut out), Ok(Table::GREATEST_EXPORT));
    assert_eq!(reading::rows(&out), Some(table.listing()?));
    Ok(())
}

#[test]
fn nothing_is_written_past_the_file() -> Done {
    let mut owned = holding(&ROWS)?;
    let table = owned.table();
    let file = table.export()?;
    for more in [0, 1, 2, 1000] {
        let mut out = vec![b'?'; file.len() + more];
        assert_eq!(table.export_into(&mut out), Ok(file.len()));
        assert_eq!(out, [&file[..], &vec![b'?'; more]].concat());
    }
    Ok(())
}

#[test]
fn every_output_that_is_too_short_is_narrow_and_stays() -> Done {
    for count in [0, 1, ROWS.len()] {
        let mut owned = holding(&ROWS[..count])?;
        let table = owned.table();
        for length in 0..table.export()?.len() {
            let mut out = vec![b'?'; length];
            assert_eq!(table.export_into(&mut out), Err(Refusal::Narrow), "{length}");
            assert_eq!(out, vec![b'?'; length]);
        }
    }
    Ok(())
}

#[test]
fn strange_words_are_told_before_a_short_output() -> Done {
    let mut words = vec![0; Settings::new(1, 2, 1)?.words_needed()];
    let mut out = [b'?'; 100];
    let table = Table::over(&mut words);
    assert_eq!(table.export(), Err(Refusal::Strange));
    for length in [0, 1, 14, 15, 100] {
        assert_eq!(table.export_into(&mut out[..length]), Err(Refusal::Strange), "{length}");
    }
    assert_eq!(out, [b'?'; 100]);
    assert!(words.iter().all(|word| *word == 0));
    Ok(())
}

#[test]
fn a_parked_workers_post_is_in_the_file_where_another_has_carried_it_out() -> Done {
    let mut owned = opened(2, 4, 0)?;
    let mut table = owned.table();
    table.insert(0, 1000, 7)?;
    ends(&mut table, 0, Answer::Added, 15, 1)?;
    table.post(1, 1000, -14)?;
    assert_eq!(table.run(1, 3)?, Ran::Moved(3));
    assert_eq!(table.export()?, b"account,total\r\n1000,0.07\r\n");
    // worker 0 carries out both posts
    table.post(0, 1001, -1205)?;
    ends(&mut table, 0, Answer::Posted(-1205), 15, 1)?;
    assert_eq!(table.export()?, b"account,total\r\n1000,-0.07\r\n1001,-12.05\r\n");
    Ok(())
}
