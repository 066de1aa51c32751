//! The cases of document 01, as driver lines and whole output, and its refusals. As document 02 has
//! it, the splitting ones are run with the accounts whose places are the numbers given there: `@5`
//! in a line, and `at(5)`, is the account whose place is 5.

mod placed;
mod session;

use model::fault::Fault;
use model::machine::{Machine, Stepped};
use model::places::account_at as at;
use model::records::{
    Answer, Kind, GREATEST_TICKET, KIND_DELETE, KIND_INSERT, KIND_LOOKUP, KIND_POST,
};
use model::refusal;
use model::settings::Settings;

fn session(pairs: &[(&str, &str)], checks: &[u8]) {
    session::session(Fault::None.into(), pairs, checks);
}

#[test]
fn settings_outside_their_range_are_refused() {
    session(
        &[
            ("O 0 2 1", "refused 1"),
            ("O 9 2 1", "refused 1"),
            ("O 1 1 1", "refused 1"),
            ("O 1 17 1", "refused 1"),
            ("O 1 2 9", "refused 1"),
        ],
        &[],
    );
}

#[test]
fn the_greatest_settings_open_over_the_words_needed() {
    let words = Settings::new(8, 16, 8).expect("in range").words();
    assert!(Machine::open(8, 16, 8, words).is_ok());
    assert_eq!(
        Machine::open(8, 16, 8, words - 1).err(),
        Some(refusal::SHORT)
    );
    assert_eq!(Machine::open(9, 16, 8, 0).err(), Some(refusal::SETTINGS));
}

#[test]
fn the_words_needed_are_within_the_limit_for_all_settings() {
    for (n, b, m) in all_settings() {
        let words = Settings::new(n, b, m).expect("in range").words();
        assert!(words <= 16 * (2 * n + 1) * (1 << m) * (b + n + 4));
    }
}

fn all_settings() -> impl Iterator<Item = (u64, u64, u64)> {
    (1..=8).flat_map(|n| (2..=16).flat_map(move |b| (0..=8).map(move |m| (n, b, m))))
}

#[test]
fn the_least_and_the_greatest_words_needed() {
    let words = |(n, b, m)| Settings::new(n, b, m).expect("in range").words();
    assert_eq!(words((1, 2, 0)), 162);
    assert_eq!(words((8, 16, 8)), 17_305);
    assert_eq!(all_settings().map(words).min(), Some(162));
    assert_eq!(all_settings().map(words).max(), Some(17_305));
    let fitting = all_settings().filter(|settings| words(*settings) <= 8_192);
    assert_eq!(fitting.count(), 983);
}

#[test]
fn settings_at_the_border_of_the_lent_words() {
    session(
        &[
            ("O 8 16 7", "refused 2"),
            ("T", "refused 8"),
            ("O 8 12 7", "ok"),
            ("O 5 4 8", "refused 2"),
            ("T", "end 0"),
        ],
        &[],
    );
    let words = |n, b, m| Settings::new(n, b, m).expect("in range").words();
    assert_eq!(words(8, 16, 7), 9_241);
    assert_eq!(words(8, 12, 7), 8_137);
    assert_eq!(words(5, 4, 8), 8_200);
}

#[test]
fn a_fresh_table_lists_nothing() {
    for (n, b, m) in all_settings() {
        let machine = Machine::open(n, b, m, u64::MAX).expect("in range");
        assert_eq!(machine.listing(0, 0), Ok(Vec::new()));
    }
    session(&[("O 2 2 1", "ok"), ("T", "end 0")], &[]);
}

#[test]
fn the_session() {
    session(
        &[
            ("O 1 2 1", "ok"),
            ("I 0 5 700", "ok"),
            ("S 0 12", "moved 12"),
            ("S 0 9", "answered added 13"),
            ("L 0 5", "ok"),
            ("S 0 2", "answered found 700 2"),
            ("T", "5 700\nend 1"),
        ],
        &[1, 0],
    );
}

/// One worker, holding the accounts whose places are 5 and 6.
const HOLDING: [(&str, &str); 5] = [
    ("O 1 2 1", "ok"),
    ("I 0 @5 50", "ok"),
    ("S 0 99", "answered added 13"),
    ("I 0 @6 60", "ok"),
    ("S 0 99", "answered added 13"),
];

#[test]
fn a_split_then_crowded() {
    let mut pairs = HOLDING.to_vec();
    pairs.extend([
        ("I 0 @2147483648 80", "ok"),
        ("S 0 99", "answered added 23"),
        ("I 0 @7 70", "ok"),
        ("S 0 99", "answered crowded 13"),
        ("T", "@5 50\n@6 60\n@2147483648 80\nend 3"),
        // Document 02: it can be closed, and makes room.
        ("D 0 @5", "ok"),
        ("S 0 99", "answered removed 13"),
        ("I 0 @7 70", "ok"),
        ("S 0 99", "answered added 13"),
        ("T", "@6 60\n@7 70\n@2147483648 80\nend 3"),
    ]);
    session(&pairs, &[1, 1, 2, 1, 1, 1]);
}

#[test]
fn crowded_straight_away_and_the_split_stays() {
    let mut pairs = HOLDING.to_vec();
    pairs.extend([
        ("I 0 @7 70", "ok"),
        ("S 0 99", "answered crowded 23"),
        ("T", "@5 50\n@6 60\nend 2"),
        ("D 0 @5", "ok"),
        ("S 0 99", "answered removed 13"),
        ("T", "@6 60\nend 1"),
    ]);
    session(&pairs, &[1, 1, 2, 1]);
}

/// A full bucket below depth M still holds a delete back: it is split first.
#[test]
fn a_delete_splits_first() {
    let mut pairs = HOLDING.to_vec();
    pairs.extend([
        ("D 0 @5", "ok"),
        ("S 0 22", "moved 22"),
        ("S 0 1", "answered removed 23"),
        ("T", "@6 60\nend 1"),
    ]);
    session(&pairs, &[1, 1, 2]);
}

#[test]
fn busy_idle_and_stranger() {
    session(
        &[
            ("O 2 2 1", "ok"),
            ("S 0 1", "refused 5"),
            ("I 0 5 7", "ok"),
            ("I 0 5 7", "refused 4"),
            ("L 0 5", "refused 4"),
            ("I 2 5 7", "refused 3"),
            ("S 2 1", "refused 3"),
            ("S 1 1", "refused 5"),
        ],
        &[],
    );
}

#[test]
fn a_lookup_after_a_delete() {
    session(
        &[
            ("O 2 2 1", "ok"),
            ("I 0 5 50", "ok"),
            ("S 0 99", "answered added 15"),
            ("L 1 5", "ok"),
            ("S 1 1", "moved 1"),
            ("D 0 5", "ok"),
            ("S 0 99", "answered removed 15"),
            ("S 1 1", "answered none 2"),
        ],
        &[1, 1, 0],
    );
}

#[test]
fn a_helped_insert() {
    session(
        &[
            ("O 2 2 1", "ok"),
            ("I 1 9 90", "ok"),
            ("S 1 3", "moved 3"),
            ("I 0 5 50", "ok"),
            ("S 0 99", "answered added 15"),
            ("T", "5 50\n9 90\nend 2"),
            ("S 1 99", "answered added 15"),
        ],
        &[1, 1],
    );
}

#[test]
fn the_second_pass_is_needed() {
    session(
        &[
            ("O 2 2 1", "ok"),
            ("I 0 @5 50", "ok"),
            ("S 0 99", "answered added 15"),
            ("I 0 @6 60", "ok"),
            ("S 0 99", "answered added 15"),
            ("I 0 @2147483648 80", "ok"),
            ("S 0 20", "moved 20"),
            ("I 1 @2147483649 90", "ok"),
            ("S 1 13", "moved 13"),
            ("S 0 99", "answered added 29"),
            ("S 1 99", "answered added 43"),
        ],
        &[1, 1, 2, 3],
    );
}

#[test]
fn refusals_of_a_call_come_in_order() {
    let mut machine = Machine::open(1, 2, 1, u64::MAX).expect("in range");
    assert_eq!(machine.call(1, 9, 5, 0), Err(refusal::STRANGER));
    assert_eq!(machine.call(0, 0, 5, 0), Err(refusal::KIND));
    assert_eq!(machine.call(0, 5, 5, 0), Err(refusal::KIND));
    machine.workers[0].last_ticket = GREATEST_TICKET;
    assert_eq!(machine.call(0, 5, 5, 0), Err(refusal::KIND));
    assert_eq!(machine.call(0, KIND_INSERT, 5, 0), Err(refusal::SPENT));
    assert_eq!(machine.call(0, KIND_DELETE, 5, 0), Err(refusal::SPENT));
    assert_eq!(machine.call(0, KIND_POST, 5, 0), Err(refusal::SPENT));
    assert_eq!(machine.call(0, KIND_LOOKUP, 5, 0), Ok(()));
    assert_eq!(machine.call(0, 9, 5, 0), Err(refusal::BUSY));
    assert_eq!(machine.step(1).stepped, Stepped::Refused(refusal::STRANGER));
}

#[test]
fn a_listing_is_narrow_exactly_below_the_count() {
    let mut machine = Machine::open(1, 2, 1, u64::MAX).expect("in range");
    for account in [9, 5] {
        machine.call(0, KIND_INSERT, account, 7).expect("idle");
        while machine.step(0).stepped == Stepped::Moved {}
    }
    assert_eq!(machine.listing(1, 2), Err(refusal::NARROW));
    assert_eq!(machine.listing(2, 1), Err(refusal::NARROW));
    assert_eq!(machine.listing(2, 2), Ok(vec![(5, 7), (9, 7)]));
}

#[test]
fn the_plain_table_answers_as_its_rules_say() {
    let settings = Settings::new(1, 2, 1).expect("in range");
    let mut plain = model::plain::Plain::new(&settings);
    assert_eq!(plain.apply(Kind::Lookup, at(5), 0), Answer::None);
    assert_eq!(plain.apply(Kind::Delete, at(5), 0), Answer::Absent);
    assert_eq!(plain.apply(Kind::Insert, at(5), 1), Answer::Added);
    assert_eq!(plain.apply(Kind::Insert, at(5), 2), Answer::Replaced);
    assert_eq!(plain.apply(Kind::Lookup, at(5), 0), Answer::Found(2));
    assert_eq!(plain.apply(Kind::Insert, at(1 << 31), 3), Answer::Added);
    assert_eq!(plain.apply(Kind::Insert, at(6), 4), Answer::Added);
    // Places 5 and 6 leave no room for 7; what is there can be changed.
    assert_eq!(plain.apply(Kind::Insert, at(7), 9), Answer::Crowded);
    assert_eq!(plain.apply(Kind::Lookup, at(7), 0), Answer::None);
    assert_eq!(plain.apply(Kind::Delete, at(7), 0), Answer::Absent);
    assert_eq!(plain.apply(Kind::Insert, at(5), 9), Answer::Replaced);
    assert_eq!(plain.apply(Kind::Delete, at(1 << 31), 0), Answer::Removed);
    assert!(plain.lists_as(&[(at(5), 9), (at(6), 4)]));
    assert_eq!(plain.apply(Kind::Delete, at(6), 0), Answer::Removed);
    assert_eq!(plain.apply(Kind::Insert, at(7), 9), Answer::Added);
    assert!(plain.lists_as(&[(at(5), 9), (at(7), 9)]));
}
