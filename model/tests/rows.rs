//! The rows to try the export on: every edge and every size, and room for all of them in one table.

use model::plain::Plain;
use model::records::{Answer, Kind};
use model::rows::{class, fixed_accounts, fixed_totals, rows, CLASSES, MOST};
use model::settings::Settings;
use std::collections::BTreeSet;

#[test]
fn the_rows_to_try_have_all_edges_and_every_size() {
    let rows = rows(7, MOST);
    assert_eq!(rows[..2], [(u32::MAX, i64::MIN), (0, 0)]);
    let accounts: BTreeSet<u32> = rows.iter().map(|row| row.0).collect();
    assert_eq!(accounts.len(), MOST);
    assert!(fixed_accounts()
        .iter()
        .all(|account| accounts.contains(account)));
    let totals: BTreeSet<i64> = rows.iter().map(|row| row.1).collect();
    assert!(fixed_totals().iter().all(|total| totals.contains(total)));
    for total in [-1205, -100, -99, -7, -1, 1, 7, 99, 100, 1205, i64::MAX] {
        assert!(fixed_totals().contains(&total), "{total}");
    }
    let (mut digits, mut classes) = ([0; 20], [0; CLASSES]);
    for total in &totals {
        digits[total.unsigned_abs().to_string().len()] += 1;
        classes[class(*total)] += 1;
    }
    assert!(digits[1..].iter().all(|count| *count >= 10), "{digits:?}");
    let [lowest, units_below, cents_below, zero, cents, units, greatest] = classes;
    assert_eq!([lowest, zero, greatest], [1; 3]);
    assert!(
        [units_below, cents_below, cents, units]
            .iter()
            .all(|count| *count > 50),
        "{classes:?}"
    );
}

#[test]
fn the_greatest_table_has_room_for_the_rows() {
    let settings = Settings::new(1, 16, 8).expect("settings in their range");
    let mut plain = Plain::new(&settings);
    for (account, total) in rows(8, MOST) {
        assert_eq!(
            plain.apply(Kind::Insert, account, total),
            Answer::Added,
            "{account}"
        );
    }
    assert_eq!(plain.accounts.len(), MOST);
}

#[test]
fn rows_are_a_function_of_the_seed() {
    let first = rows(9, MOST);
    assert_eq!(rows(9, MOST), first);
    assert_eq!(rows(9, 1000), first[..1000]);
    assert_ne!(rows(10, MOST), first);
}

#[test]
fn a_unit_is_100_cents() {
    let totals = [
        i64::MIN,
        i64::MIN + 1,
        -100,
        -99,
        -1,
        0,
        1,
        99,
        100,
        i64::MAX - 1,
        i64::MAX,
    ];
    assert_eq!(totals.map(class), [0, 1, 1, 2, 2, 3, 4, 4, 5, 5, 6]);
}
