//! The tariff: the check and the steps of every answer, in random orders and in the stored ones,
//! and the wrong machines that it shows.

mod placed;
mod stored;

use model::fault::Fault;
use model::judge::checks_told;
use model::lines::{read_lines, Line};
use model::machine::Stepped;
use model::off_tariff::OffTariff;
use model::search::{one_order, one_variation, search, verdict, By};
use model::totals::{transcript, Driver};
use placed::placed;
use std::collections::{BTreeMap, BTreeSet};
use stored::{folder, lines, output, stored};

/// Every stored order with the checks told with its answers, in turn; `one-pass` is document 01's
/// last case.
const CHECKS: [(&str, &[u8]); 60] = [
    ("absent-delete-crowded", &[1, 1, 1]),
    ("account-brought-back", &[1, 1, 2, 3]),
    ("always-added", &[1]),
    ("always-crowded", &[1]),
    ("announce-applies", &[1, 1, 2, 1, 1]),
    ("announce-applies-listing", &[]),
    ("applied-not-reset", &[1, 1, 2, 1]),
    ("bucket-swap-blind", &[1]),
    ("check-other-worker", &[1]),
    ("crowded-after-anothers-split", &[1, 1, 2, 1, 4, 2]),
    ("crowded-after-own-split", &[1, 1, 2, 1, 4]),
    ("crowded-at-check", &[1, 1, 1, 1, 1, 1]),
    ("crowded-below-depth", &[1, 1, 2]),
    ("crowded-by-number", &[1, 1, 2]),
    ("crowded-is-settled", &[1, 1, 1, 1, 1, 1]),
    ("crowded-not-settled", &[1, 1, 1]),
    ("crowded-tried-after-answer", &[1, 1, 1, 1]),
    ("crowded-tried-again", &[1, 1, 2, 1, 1]),
    ("delete-crowded", &[1, 1, 1]),
    ("delete-into-full", &[1, 1, 2]),
    ("directory-swap-blind", &[1, 1, 2]),
    ("doubled-in-row", &[1, 1, 2, 2, 0]),
    ("from-1000-fourth-check", &[1, 1, 2, 1, 4]),
    ("from-1000-up", &[1, 1, 2, 1, 2, 2, 1, 1, 1, 1, 1, 1]),
    ("full-as-read", &[1, 1, 1]),
    ("full-takes-changes", &[1, 1, 1, 1, 1, 1, 1, 1, 1, 1]),
    ("held-back-after-splits", &[1, 1, 2]),
    ("held-back-at-m", &[1, 1, 1]),
    ("last-total-told", &[1, 1]),
    ("listed-by-place", &[1, 1]),
    ("listing-filter-by-number", &[1, 1, 2]),
    ("new-into-full", &[1, 1, 1]),
    ("one-bucket-round", &[1]),
    ("one-directory-round", &[1, 1, 2, 4]),
    ("one-pass", &[1, 1, 2, 3]),
    ("one-worker-splits", &[1, 1, 2, 1, 1]),
    ("overrun-at-both-ends", &[1, 1, 1, 1, 1, 1, 1, 1, 1]),
    ("overrun-not-settled", &[1, 1, 1, 1, 2]),
    ("overrun-saturates", &[1, 1]),
    ("overrun-wraps", &[1, 1]),
    ("own-update-only", &[1, 1, 1, 2]),
    ("own-update-only-listing", &[1, 1, 2, 1]),
    ("place-backwards", &[1, 1, 2]),
    ("placed-by-number", &[1, 1, 2]),
    ("post-crowded", &[1, 1, 1]),
    ("post-deletes", &[1]),
    ("post-helped-twice", &[1, 1, 2, 1]),
    ("post-of-zero-makes-nothing", &[1]),
    ("post-replaces", &[1, 1]),
    ("posted-total-not-copied", &[1, 2, 1]),
    ("posts-at-once", &[1, 1, 1, 1, 1, 2, 1]),
    ("replacement-crowded", &[1, 1, 1]),
    ("room-in-one-split", &[1, 1, 2, 1, 1, 1, 2, 1, 1]),
    ("room-in-one-swap", &[1, 1, 1, 1, 1, 1, 1, 1]),
    ("settled-not-copied", &[1, 2, 1]),
    ("slots-backwards", &[1, 1]),
    ("split-by-number", &[1, 1, 2, 0]),
    ("toggle-ignored", &[1, 1]),
    ("toggle-ignored-listing", &[1, 1]),
    ("unsettled-crowded", &[1, 1, 2, 3]),
];

/// The steps of an answer with this check, for so many workers.
fn due(workers: u64, check: u8) -> u64 {
    match check {
        0 => 2,
        1 => 2 * workers + 11,
        2 => 6 * workers + 17,
        3 => 8 * workers + 27,
        4 => 12 * workers + 33,
        _ => panic!("no check {check}"),
    }
}

fn workers(order: &[Line]) -> u64 {
    match order.first() {
        Some(Line::Open { n, .. }) => *n,
        _ => panic!("an order starts with its opening"),
    }
}

#[test]
fn the_stored_orders_are_told_these_checks() {
    for (name, checks) in CHECKS {
        let order = lines(name);
        let told = checks_told(Fault::None, &order).expect("every assertion holds");
        assert_eq!(told, checks, "{name}");
        let printed = stored(name, "out");
        let answered = printed.lines().filter(|line| line.starts_with("answered"));
        let steps: Vec<&str> = answered
            .filter_map(|line| line.rsplit(' ').next())
            .collect();
        let n = workers(&order);
        let all_due: Vec<String> = told.iter().map(|c| due(n, *c).to_string()).collect();
        assert_eq!(steps, all_due, "{name}");
    }
}

#[test]
fn no_stored_order_is_left_out() {
    let named: BTreeSet<String> = CHECKS.map(|(name, _)| format!("{name}.txt")).into();
    let files = std::fs::read_dir(folder()).expect("the stored orders");
    let names = files.map(|file| file.expect("a file").file_name().into_string());
    let orders = names.flatten().filter(|name| name.ends_with(".txt"));
    assert_eq!(named, orders.collect());
}

/// Document 01's last case for so many workers, two or more: worker 0 is parked before its first
/// directory swap, worker 1 after its first bucket pass.
fn third_check(n: u64) -> String {
    let (swap, pass) = (4 * n + 12, 2 * n + 9);
    placed(&format!(
        "O {n} 2 1\nI 0 @5 50\nS 0 999\nI 0 @6 60\nS 0 999\nI 0 @2147483648 80\nS 0 {swap}\n\
         I 1 @2147483649 90\nS 1 {pass}\nS 0 999\nS 1 999\n"
    ))
}

/// The order `crowded-after-own-split` for so many workers, three or more: worker 0 makes its first
/// two checks after worker 2's split, its third after worker 2's last insert.
fn fourth_check(n: u64) -> String {
    let (swap, first, second) = (4 * n + 12, 2 * n + 9, 6 * n + 15);
    let (parked, third) = (2 * n + 1, 2 * n + 11);
    placed(&format!(
        "O {n} 2 2\nI 2 @0 7\nS 2 999\nI 2 @2147483648 7\nS 2 999\nI 2 @2214592512 7\nS 2 {swap}\n\
         I 0 @67108864 7\nS 0 2\nI 1 @3355443200 7\nS 1 2\nS 2 1\nS 1 {first}\nS 0 {second}\n\
         S 1 {parked}\nS 2 999\nI 2 @134217728 7\nS 2 999\nS 0 {third}\nS 1 1\nS 0 999\n"
    ))
}

#[test]
fn the_third_and_the_fourth_check_answer_for_every_number_of_workers() {
    let printed = |text: &str| String::from_utf8(transcript(text.as_bytes(), Fault::None));
    assert_eq!(printed(&third_check(2)), Ok(stored("one-pass", "out")));
    let own_split = stored("crowded-after-own-split", "out");
    assert_eq!(printed(&fourth_check(3)), Ok(own_split));
    let orders = (2..=8).map(|n| (n, 3, third_check(n)));
    for (n, check, text) in orders.chain((3..=8).map(|n| (n, 4, fourth_check(n)))) {
        let order = read_lines(&text).expect("lines");
        let told = checks_told(Fault::None, &order).expect("every assertion holds");
        assert_eq!(told.last(), Some(&check), "n {n}");
        let mut seen = Tally::new();
        tally(&order, &mut seen);
        assert_eq!(seen.get(&(n, check, due(n, check))), Some(&1), "n {n}");
    }
}

/// How often each check answered after how many steps, for each number of workers.
type Tally = BTreeMap<(u64, u8, u64), u64>;

fn tally(order: &[Line], seen: &mut Tally) {
    let mut driver = Driver::default();
    for line in order {
        let Line::Step { worker, count } = *line else {
            driver.answer_line(line);
            continue;
        };
        let machine = driver.machine.as_mut().expect("an opening comes first");
        let mut stepped = (0..count).map(|_| machine.step(worker).stepped);
        let ended = stepped.find(|stepped| *stepped != Stepped::Moved);
        if let Some(Stepped::Answered { steps, check, .. }) = ended {
            let n = machine.settings.workers as u64;
            *seen.entry((n, check, steps)).or_default() += 1;
        }
    }
}

#[test]
fn random_orders_give_the_figures_and_no_others() {
    let mut seen = Tally::new();
    for seed in 0..2_500 {
        let drawn = one_order(By::AllAssertions, Fault::None, seed, 300);
        let varied = one_variation(By::AllAssertions, Fault::None, seed);
        for (order, outcome) in [drawn, varied] {
            assert_eq!(outcome.err(), None, "seed {seed}");
            tally(&order, &mut seen);
        }
    }
    for (n, check, steps) in seen.keys() {
        assert_eq!(*steps, due(*n, *check), "n {n}, check {check}");
    }
    let told = |n: u64| -> Vec<u8> {
        let of_n = seen.keys().filter(|(workers, ..)| *workers == n);
        of_n.map(|(_, check, _)| *check).collect()
    };
    assert_eq!(told(1), [0, 1, 2]);
    assert_eq!(told(2), [0, 1, 2, 3, 4]);
    assert_eq!(told(3), [0, 1, 2, 3, 4]);
}

/// A wrong machine on a stored order: what all assertions say, and what the external statement says,
/// if it says anything.
type Wrong = (OffTariff, &'static str, &'static str, Option<&'static str>);

/// Both say the same.
const fn both(fault: OffTariff, order: &'static str, words: &'static str) -> Wrong {
    (fault, order, words, Some(words))
}

const WRONG: [Wrong; 10] = [
    both(
        OffTariff::CheckOneLess,
        "always-crowded",
        "insert of worker 0 told check 0",
    ),
    both(
        OffTariff::CheckOneMore,
        "always-crowded",
        "insert of worker 0 told check 2 after 13 steps, not 23",
    ),
    both(
        OffTariff::LookupCheckOne,
        "doubled-in-row",
        "lookup of worker 0 told check 1",
    ),
    both(
        OffTariff::DeleteCheckZero,
        "always-added",
        "delete of worker 0 told check 0",
    ),
    both(
        OffTariff::PassTold,
        "one-pass",
        "insert of worker 0 told check 1 after 29 steps, not 15",
    ),
    both(
        OffTariff::ThirdCheckEarly,
        "one-pass",
        "insert of worker 1 told check 3 after 42 steps, not 43",
    ),
    both(
        OffTariff::StepFilledIn,
        "one-pass",
        "insert of worker 1 told 43 steps, but 42 were made",
    ),
    // From outside this cannot be seen where there are two workers.
    (
        OffTariff::SecondCheckIdle,
        "one-pass",
        "insert of worker 1 told check 3, but 2 were made",
        None,
    ),
    both(
        OffTariff::SecondCheckIdle,
        "one-worker-splits",
        "insert of worker 0 told check 3 after 35 steps, with no other worker",
    ),
    both(
        OffTariff::FirstDirectoryPassIdle,
        "one-worker-splits",
        "insert of worker 0 told check 4 after 45 steps, with no other worker",
    ),
];

#[test]
fn wrong_machines_are_found_in_stored_orders() {
    for (fault, name, inside, outside) in WRONG {
        let order = lines(name);
        let said = |by| match verdict(by, Fault::OffTariff(fault), &order) {
            Ok(_) => None,
            Err((_, violation)) => Some(violation.to_string()),
        };
        let words = |words: &str| format!("tariff: {words}");
        assert_eq!(said(By::AllAssertions), Some(words(inside)), "{fault:?}");
        assert_eq!(said(By::External), outside.map(words), "{fault:?}");
    }
    for fault in OffTariff::ALL {
        assert!(WRONG.iter().any(|wrong| wrong.0 == fault), "{fault:?}");
    }
}

#[test]
fn wrong_machines_are_found_by_random_search() {
    for fault in Fault::off_tariff() {
        for by in By::BOTH {
            let (_, failure) = search(by, fault, 1, 100_000);
            let failure = failure.unwrap_or_else(|| panic!("{} not found", fault.name()));
            assert_eq!(failure.violation.name, "tariff", "{fault:?}");
            assert!(verdict(by, fault, &failure.shrunk).is_err(), "{fault:?}");
            assert!(
                verdict(by, Fault::None, &failure.shrunk).is_ok(),
                "{fault:?}"
            );
        }
    }
}

#[test]
fn totals_prints_no_check() {
    for (name, _) in CHECKS {
        for fault in OffTariff::TELLING.map(Fault::OffTariff) {
            assert_eq!(output(name, fault), stored(name, "out"), "{fault:?}");
        }
    }
}

#[test]
fn totals_prints_a_wrong_number_of_steps() {
    for (fault, name, shown) in [
        (OffTariff::ThirdCheckEarly, "one-pass", "added 42"),
        (OffTariff::SecondCheckIdle, "one-worker-splits", "added 35"),
        (
            OffTariff::FirstDirectoryPassIdle,
            "one-worker-splits",
            "added 45",
        ),
    ] {
        let shown = format!("answered {shown}\n");
        let wrong = output(name, Fault::OffTariff(fault));
        assert!(wrong.contains(&shown), "{fault:?}");
        assert!(!stored(name, "out").contains(&shown), "{fault:?}");
    }
}
