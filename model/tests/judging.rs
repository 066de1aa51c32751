//! Judging logs: that the judge by permutations, the search without cuts and the one with them give
//! the same verdict and the same order; and the checks, what is printed, and what cannot be read.

use model::cuts::{search, Cuts};
use model::judging::{explains, judge, judge_input, refused, Verdict, MOST};
use model::log::{read, Log};
use model::logged_runs::run_log;
use model::logs::{any_log, right_log};
use model::prng::Prng;

fn log(text: &str) -> Log {
    read(text.as_bytes()).expect("a log")
}

/// Random logs of at most so many operations.
fn logs(seed: u64, count: usize, most: usize) -> impl Iterator<Item = Log> {
    let mut prng = Prng::new(seed);
    let any = std::iter::repeat_with(move || any_log(&mut prng));
    let short = move |log: &Log| log.operations.len() <= most;
    any.filter(short).take(count)
}

/// The order that the judge finds in a log that is not refused.
fn order(log: &Log) -> Option<Vec<usize>> {
    match judge(log, MOST) {
        Verdict::Order(order) => Some(order),
        Verdict::No => None,
        other => panic!("{other}\n{log}"),
    }
}

#[test]
fn right_logs_and_logs_of_runs_are_accepted_with_an_order_that_explains_them() {
    let mut prng = Prng::new(11);
    for i in 0..100_000 {
        let log = match i % 2 {
            0 => right_log(&mut prng),
            _ => run_log(&mut prng),
        };
        let order = order(&log).unwrap_or_else(|| panic!("no order\n{log}"));
        assert!(explains(&log, &order), "{order:?}\n{log}");
    }
}

#[test]
fn of_the_good_logs_about_half_are_accepted() {
    let good: Vec<Log> = logs(12, 20_000, 99)
        .filter(|log| refused(log, MOST).is_none())
        .collect();
    let accepted = good.iter().filter(|log| order(log).is_some()).count();
    assert!((40..=60).contains(&(100 * accepted / good.len())));
    assert!((60..=90).contains(&(100 * good.len() / 20_000)));
}

#[test]
fn the_searches_find_the_same_order() {
    for (seed, count, most) in [(21, 60_000, 8), (22, 20_000, MOST)] {
        for log in logs(seed, count, most).filter(|log| refused(log, MOST).is_none()) {
            let order = order(&log);
            for cuts in Cuts::ALL {
                // Without cut 1 a search can take minutes.
                if cuts.exchanged || log.operations.len() <= 8 {
                    assert_eq!(search(&log, cuts).0, order, "{cuts:?}\n{log}");
                }
            }
        }
    }
}

/// All orders of these places.
fn orders(places: &[usize]) -> Vec<Vec<usize>> {
    let mut all = vec![Vec::new()];
    for place in places {
        let put = |order: &Vec<usize>| -> Vec<Vec<usize>> {
            let at = 0..=order.len();
            at.map(|at| [&order[..at], &[*place], &order[at..]].concat())
                .collect()
        };
        all = all.iter().flat_map(put).collect();
    }
    all
}

/// Every order tried: the verdict is no exactly where none explains the log, and else the first.
#[test]
fn the_order_is_the_first_of_all_that_explain_the_log() {
    let mut several = 0;
    for log in logs(31, 8_000, 6).filter(|log| refused(log, MOST).is_none()) {
        let places: Vec<usize> = (0..log.operations.len()).collect();
        let all = orders(&places).into_iter();
        let mut right: Vec<Vec<usize>> = all.filter(|order| explains(&log, order)).collect();
        right.sort_unstable();
        several += usize::from(right.len() > 1);
        assert_eq!(order(&log), right.into_iter().next(), "{log}");
    }
    assert!(several > 500, "{several}");
}

#[test]
fn a_text_read_again_is_the_same_log() {
    for log in logs(41, 5_000, 99) {
        assert_eq!(read(log.to_string().as_bytes()), Ok(log));
    }
}

/// Inputs and what is printed.
const PRINTED: [(&str, &str); 30] = [
    ("2 1", "order"),
    ("2 1\n", "order"),
    ("", "unread 1"),
    ("\n", "unread 1"),
    ("2 1\n\n", "unread 2"),
    ("2 1\n\n0 1 5 7 added 0 1 2", "unread 2"),
    ("2 1\n0 1 5 7 added 0 1 2", "order 0"),
    (
        "2 1\n0 1 5 7 added 0 1 2\n0 3 5 0 found 7 3 4\n",
        "order 0 1",
    ),
    (
        "2 1\n0 3 5 0 found 7 3 4\n0 1 5 7 added 0 1 2\n",
        "order 1 0",
    ),
    ("2 1\n0 3 5 0 found 7 1 2\n0 1 5 7 added 0 3 4\n", "no"),
    ("2 1\n0 1 5 7 found 7 1 2\n", "no"),
    ("2 1\n0 3 5 7 none 7 1 2\n", "order 0"),
    ("1 1", "refused 1"),
    ("17 1", "refused 1"),
    ("2 9", "refused 1"),
    ("65535 65535", "refused 1"),
    ("65536 1", "unread 1"),
    ("2 65536", "unread 1"),
    ("0 0\n0 9 5 7 added 0 2 1", "refused 1"),
    ("0 0\n0 9 5 7 added 0 2 1\nx", "unread 3"),
    ("2 1\n0 0 5 7 added 0 1 2", "refused 14"),
    ("2 1\n0 5 5 7 added 0 1 2", "refused 14"),
    ("2 1\n0 1 5 7 added 0 2 2", "refused 14"),
    ("2 1\n0 1 5 7 added 0 2 1", "refused 14"),
    ("2 1\n0 1 5 7 added 0 1 3\n0 3 6 0 none 0 2 4", "refused 14"),
    ("2 1\n0 1 5 7 added 0 1 2\n1 3 6 0 none 0 2 4", "refused 14"),
    (
        "2 1\n0 1 4294967295 7 added 0 0 18446744073709551615",
        "order 0",
    ),
    ("2 1\n0 1 4294967296 7 added 0 1 2", "unread 2"),
    ("2 1\n0 1 5 07 added 0 1 2", "unread 2"),
    ("2 1\n0 1 5 7 added  0 1 2", "unread 2"),
];

#[test]
fn verdicts_are_printed() {
    for (input, printed) in PRINTED {
        let verdict = judge_input(input.as_bytes());
        assert_eq!(verdict.to_string(), printed, "{input:?}");
    }
}

#[test]
fn a_list_too_short_for_the_order_is_refused_after_a_bad_log_and_before_the_search() {
    let right = log("2 1\n0 1 5 7 added 0 1 2\n0 3 5 0 found 7 3 4");
    let wrong = log("2 1\n0 1 5 7 added 0 1 2\n0 3 5 0 none 0 3 4");
    let bad = log("2 1\n0 1 5 7 added 0 1 3\n0 3 5 0 found 7 2 4");
    for room in [0, 1] {
        assert_eq!(judge(&right, room), Verdict::Refused(10));
        assert_eq!(judge(&wrong, room), Verdict::Refused(10));
        assert_eq!(judge(&bad, room), Verdict::Refused(14));
    }
    for room in [2, 3, 100] {
        assert_eq!(judge(&right, room), Verdict::Order(vec![0, 1]));
        assert_eq!(judge(&wrong, room), Verdict::No);
    }
    assert_eq!(judge(&log("2 1"), 0), Verdict::Order(vec![]));
}
