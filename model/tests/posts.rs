//! Posts as document 02 has them: the sum, the account made, overrun at both ends of the range,
//! crowded for a new account only, and what a helped worker is told. `@5` in a line, and `at(5)`,
//! is the account whose place is 5.

mod placed;
mod session;

use model::fault::Fault;
use model::machine::{Machine, Stepped};
use model::places::account_at as at;
use model::plain::Plain;
use model::records::{Answer, Kind, Settled, KIND_DELETE, KIND_INSERT, KIND_POST};
use model::settings::Settings;

fn session(pairs: &[(&str, &str)], checks: &[u8]) {
    session::session(Fault::None.into(), pairs, checks);
}

#[test]
fn a_post_takes_the_steps_of_an_insert() {
    session(
        &[
            ("O 1 2 1", "ok"),
            ("P 0 @5 700", "ok"),
            ("P 0 @5 700", "refused 4"),
            ("S 0 12", "moved 12"),
            ("S 0 9", "answered posted 700 13"),
            ("P 1 @5 1", "refused 3"),
            ("P 0 @5 -701", "ok"),
            ("S 0 99", "answered posted -1 13"),
            ("P 0 @6 60", "ok"),
            ("S 0 99", "answered posted 60 13"),
            ("P 0 @2147483648 80", "ok"),
            ("S 0 22", "moved 22"),
            ("S 0 1", "answered posted 80 23"),
            ("T", "@5 -1\n@6 60\n@2147483648 80\nend 3"),
        ],
        &[1, 1, 1, 2],
    );
}

#[test]
fn an_amount_of_0_makes_the_account() {
    session(
        &[
            ("O 1 2 0", "ok"),
            ("P 0 5 0", "ok"),
            ("S 0 99", "answered posted 0 13"),
            ("T", "5 0\nend 1"),
            ("I 0 5 7", "ok"),
            ("S 0 99", "answered replaced 13"),
            ("P 0 5 0", "ok"),
            ("S 0 99", "answered posted 7 13"),
            ("T", "5 7\nend 1"),
        ],
        &[1, 1, 1],
    );
}

#[test]
fn a_post_after_a_delete_starts_from_0() {
    session(
        &[
            ("O 1 3 0", "ok"),
            ("I 0 5 50", "ok"),
            ("S 0 99", "answered added 13"),
            ("P 0 5 7", "ok"),
            ("S 0 99", "answered posted 57 13"),
            ("D 0 5", "ok"),
            ("S 0 99", "answered removed 13"),
            ("P 0 5 -7", "ok"),
            ("S 0 99", "answered posted -7 13"),
            ("T", "5 -7\nend 1"),
        ],
        &[1, 1, 1, 1],
    );
}

#[test]
fn what_follows_a_post_is_answered_as_without_it() {
    session(
        &[
            ("O 1 3 0", "ok"),
            ("P 0 5 7", "ok"),
            ("S 0 99", "answered posted 7 13"),
            ("I 0 6 60", "ok"),
            ("S 0 99", "answered added 13"),
            ("I 0 5 50", "ok"),
            ("S 0 99", "answered replaced 13"),
            ("L 0 5", "ok"),
            ("S 0 2", "answered found 50 2"),
            ("P 0 5 -50", "ok"),
            ("S 0 99", "answered posted 0 13"),
            ("D 0 7", "ok"),
            ("S 0 99", "answered absent 13"),
            ("D 0 5", "ok"),
            ("S 0 99", "answered removed 13"),
            ("T", "6 60\nend 1"),
        ],
        &[1, 1, 1, 0, 1, 1, 1],
    );
}

#[test]
fn a_sum_above_the_range_is_turned_down() {
    session(
        &[
            ("O 1 3 0", "ok"),
            ("P 0 5 9223372036854775806", "ok"),
            ("S 0 99", "answered posted 9223372036854775806 13"),
            ("P 0 5 2", "ok"),
            ("S 0 12", "moved 12"),
            ("S 0 1", "answered overrun 13"),
            ("P 0 5 1", "ok"),
            ("S 0 99", "answered posted 9223372036854775807 13"),
            ("P 0 5 9223372036854775807", "ok"),
            ("S 0 99", "answered overrun 13"),
            ("P 0 5 -9223372036854775808", "ok"),
            ("S 0 99", "answered posted -1 13"),
            ("T", "5 -1\nend 1"),
        ],
        &[1, 1, 1, 1, 1],
    );
}

#[test]
fn a_sum_below_the_range_is_turned_down() {
    session(
        &[
            ("O 1 3 0", "ok"),
            ("I 0 5 -9223372036854775807", "ok"),
            ("S 0 99", "answered added 13"),
            ("P 0 5 -2", "ok"),
            ("S 0 99", "answered overrun 13"),
            ("P 0 5 -1", "ok"),
            ("S 0 99", "answered posted -9223372036854775808 13"),
            ("P 0 5 -9223372036854775808", "ok"),
            ("S 0 99", "answered overrun 13"),
            ("P 0 5 9223372036854775807", "ok"),
            ("S 0 99", "answered posted -1 13"),
            ("T", "5 -1\nend 1"),
        ],
        &[1, 1, 1, 1, 1],
    );
}

/// A sum outside the range needs a total that is there, and crowded an account that is not.
#[test]
fn only_a_post_to_a_new_account_is_crowded() {
    session(
        &[
            ("O 1 2 1", "ok"),
            ("I 0 @5 9223372036854775807", "ok"),
            ("S 0 99", "answered added 13"),
            ("P 0 @6 60", "ok"),
            ("S 0 99", "answered posted 60 13"),
            // The split comes before the answer.
            ("P 0 @7 1", "ok"),
            ("S 0 99", "answered crowded 23"),
            ("P 0 @5 1", "ok"),
            ("S 0 99", "answered overrun 13"),
            ("P 0 @6 -60", "ok"),
            ("S 0 99", "answered posted 0 13"),
            ("P 0 @7 0", "ok"),
            ("S 0 99", "answered crowded 13"),
            ("P 0 @7 -9223372036854775808", "ok"),
            ("S 0 99", "answered crowded 13"),
            ("P 0 @2147483648 -9223372036854775808", "ok"),
            ("S 0 99", "answered posted -9223372036854775808 13"),
            ("P 0 @2147483648 -1", "ok"),
            ("S 0 99", "answered overrun 13"),
            (
                "T",
                "@5 9223372036854775807\n@6 0\n@2147483648 -9223372036854775808\nend 3",
            ),
        ],
        &[1, 1, 2, 1, 1, 1, 1, 1, 1],
    );
}

/// Below depth M a full bucket is split first, and the sum is tried there.
#[test]
fn an_overrun_may_come_after_a_split() {
    session(
        &[
            ("O 1 2 1", "ok"),
            ("I 0 @5 9223372036854775807", "ok"),
            ("S 0 99", "answered added 13"),
            ("I 0 @2147483648 80", "ok"),
            ("S 0 99", "answered added 13"),
            ("P 0 @5 1", "ok"),
            ("S 0 99", "answered overrun 23"),
            ("P 0 @5 -7", "ok"),
            ("S 0 99", "answered posted 9223372036854775800 13"),
            ("T", "@5 9223372036854775800\n@2147483648 80\nend 2"),
        ],
        &[1, 1, 2, 1],
    );
}

#[test]
fn each_of_two_workers_is_told_its_own_sum() {
    session(
        &[
            ("O 2 2 1", "ok"),
            ("P 1 5 30", "ok"),
            ("S 1 3", "moved 3"),
            ("P 0 5 700", "ok"),
            ("S 0 99", "answered posted 700 15"),
            ("T", "5 730\nend 1"),
            ("P 0 5 1000", "ok"),
            ("S 0 99", "answered posted 1730 15"),
            ("S 1 99", "answered posted 730 15"),
            ("T", "5 1730\nend 1"),
        ],
        &[1, 1, 1],
    );
}

#[test]
fn a_helped_worker_is_told_of_its_overrun() {
    session(
        &[
            ("O 2 2 1", "ok"),
            ("P 1 5 9223372036854775807", "ok"),
            ("S 1 3", "moved 3"),
            ("P 0 5 1", "ok"),
            ("S 0 99", "answered posted 1 15"),
            ("T", "5 1\nend 1"),
            // Its sum would be inside the range now, but its ticket is settled.
            ("P 0 5 -1", "ok"),
            ("S 0 99", "answered posted 0 15"),
            ("S 1 99", "answered overrun 15"),
            ("T", "5 0\nend 1"),
        ],
        &[1, 1, 1],
    );
}

fn run(machine: &mut Machine, kind: u64, account: u32, total: i64) -> Stepped {
    machine.call(0, kind, account, total).expect("idle");
    loop {
        match machine.step(0).stepped {
            Stepped::Moved => {}
            answered => return answered,
        }
    }
}

#[test]
fn every_answer_of_a_post_is_settled_with_its_total() {
    let mut machine = Machine::open(1, 2, 0, u64::MAX).expect("in range");
    let mut ticket = 0;
    let mut settles = |kind, account, total, answer: Answer| {
        run(&mut machine, kind, account, total);
        ticket += 1;
        let expected = Settled {
            ticket,
            answer: Some(answer),
        };
        let bucket = machine.directory.bucket(account);
        assert_eq!(bucket.current().settled, [expected]);
    };
    settles(KIND_POST, 5, i64::MAX, Answer::Posted(i64::MAX));
    settles(KIND_POST, 5, 1, Answer::Overrun);
    settles(KIND_POST, 5, -7, Answer::Posted(i64::MAX - 7));
    settles(KIND_INSERT, 5, 50, Answer::Replaced);
    settles(KIND_POST, 6, 0, Answer::Posted(0));
    // Full now, at depth M.
    settles(KIND_POST, 7, 1, Answer::Crowded);
    settles(KIND_INSERT, 7, 1, Answer::Crowded);
    settles(KIND_POST, 6, 1, Answer::Posted(1));
    settles(KIND_POST, 6, i64::MAX, Answer::Overrun);
    settles(KIND_DELETE, 7, 0, Answer::Absent);
    settles(KIND_DELETE, 6, 0, Answer::Removed);
    settles(KIND_POST, 7, 1, Answer::Posted(1));
}

#[test]
fn the_plain_table_posts() {
    let mut plain = Plain::new(&Settings::new(1, 2, 1).expect("in range"));
    let mut post = |account, amount| plain.apply(Kind::Post, account, amount);
    assert_eq!(post(at(5), 0), Answer::Posted(0));
    assert_eq!(post(at(5), i64::MIN), Answer::Posted(i64::MIN));
    assert_eq!(post(at(5), -1), Answer::Overrun);
    assert_eq!(post(at(5), i64::MAX), Answer::Posted(-1));
    assert_eq!(post(at(5), i64::MIN), Answer::Overrun);
    assert_eq!(post(at(1 << 31), i64::MAX), Answer::Posted(i64::MAX));
    assert_eq!(post(at(1 << 31), i64::MAX), Answer::Overrun);
    assert_eq!(post(at(6), 7), Answer::Posted(7));
    // Places 5 and 6 leave no room for 7, whatever the amount; their own totals can be changed.
    assert_eq!(post(at(5), i64::MIN), Answer::Overrun);
    assert_eq!(post(at(6), 0), Answer::Posted(7));
    assert_eq!(post(at(6), -8), Answer::Posted(-1));
    for amount in [0, 1, i64::MAX, i64::MIN] {
        assert_eq!(post(at(7), amount), Answer::Crowded);
    }
    assert!(plain.lists_as(&[(at(5), -1), (at(6), -1), (at(1 << 31), i64::MAX)]));
}
