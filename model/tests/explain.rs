//! The external statement's search over all choices of moments, and the shrinking of orders.

use model::explain::Explainer;
use model::fault::Fault;
use model::lines::Line;
use model::places::account_at as at;
use model::records::{Answer, Kind, Update};
use model::search::{one_order, verdict, By};
use model::settings::Settings;
use model::shrink::shrink;

fn fresh() -> Explainer {
    Explainer::new(&Settings::new(3, 2, 1).expect("in range"))
}

fn operation(kind: Kind, account: u32, total: i64) -> Update {
    let ticket = 1;
    Update {
        kind,
        account,
        total,
        ticket,
    }
}

#[test]
fn overlapping_operations_may_take_effect_in_either_order() {
    for seen in [Answer::None, Answer::Found(7)] {
        let mut all = fresh();
        all.called(0, operation(Kind::Insert, 5, 7));
        all.called(1, operation(Kind::Lookup, 5, 0));
        assert!(all.answered(1, seen).is_ok());
        assert!(all.answered(0, Answer::Added).is_ok());
    }
}

#[test]
fn an_answered_insert_is_seen_by_a_later_lookup() {
    let mut all = fresh();
    all.called(0, operation(Kind::Insert, 5, 7));
    assert!(all.answered(0, Answer::Added).is_ok());
    all.called(1, operation(Kind::Lookup, 5, 0));
    assert!(all.answered(1, Answer::None).is_err());
}

#[test]
fn an_unanswered_update_may_show_in_a_listing_but_not_before_a_step() {
    let mut all = fresh();
    all.called(0, operation(Kind::Insert, 5, 7));
    let mut too_early = all.clone();
    assert!(too_early.listed(&[(5, 7)]).is_err());
    all.moved();
    assert!(all.listed(&[(5, 7)]).is_ok());
    assert!(all.listed(&[]).is_err());
}

#[test]
fn one_update_does_not_take_effect_twice() {
    let mut all = fresh();
    all.called(0, operation(Kind::Insert, 5, 7));
    all.moved();
    assert!(all.listed(&[(5, 7)]).is_ok());
    all.called(1, operation(Kind::Delete, 5, 0));
    assert!(all.answered(1, Answer::Removed).is_ok());
    assert!(all.listed(&[(5, 7)]).is_err());
}

#[test]
fn crowded_is_explained_exactly_by_the_crowding_rule() {
    let mut all = fresh();
    for account in [5, 6].map(at) {
        all.called(0, operation(Kind::Insert, account, 7));
        assert!(all.answered(0, Answer::Added).is_ok());
    }
    let explains = |kind: Kind, account: u32, answer: Answer| {
        let mut all = all.clone();
        all.called(0, operation(kind, account, 9));
        all.answered(0, answer).is_ok()
    };
    for (kind, there, new) in [
        (Kind::Insert, Answer::Replaced, Answer::Added),
        (Kind::Post, Answer::Posted(16), Answer::Posted(9)),
        (Kind::Delete, Answer::Removed, Answer::Absent),
    ] {
        // An account that is there, a new one beside it, and one in the other half.
        let crowds = kind != Kind::Delete;
        assert!(explains(kind, at(5), there) && !explains(kind, at(5), Answer::Crowded));
        assert_eq!(explains(kind, at(7), Answer::Crowded), crowds);
        assert_eq!(explains(kind, at(7), new), !crowds);
        assert!(explains(kind, at(1 << 31), new) && !explains(kind, at(1 << 31), Answer::Crowded));
    }
}

#[test]
fn crowded_is_explained_by_a_moment_before_room_was_made() {
    for late in [false, true] {
        let mut all = fresh();
        for account in [5, 6].map(at) {
            all.called(0, operation(Kind::Insert, account, 7));
            assert!(all.answered(0, Answer::Added).is_ok());
        }
        if !late {
            all.called(1, operation(Kind::Insert, at(7), 7));
        }
        all.called(0, operation(Kind::Delete, at(5), 0));
        assert!(all.answered(0, Answer::Removed).is_ok());
        if late {
            all.called(1, operation(Kind::Insert, at(7), 7));
        }
        assert_eq!(all.answered(1, Answer::Crowded).is_ok(), !late);
    }
}

#[test]
fn two_posts_at_once_are_told_their_sums_in_one_order() {
    let both = |first: i64, second: i64, listed: i64| {
        let mut all = fresh();
        all.called(0, operation(Kind::Post, 5, 7));
        all.called(1, operation(Kind::Post, 5, 20));
        let outcome = all.answered(0, Answer::Posted(first));
        let outcome = outcome.and_then(|()| all.answered(1, Answer::Posted(second)));
        outcome.and_then(|()| all.listed(&[(5, listed)])).is_ok()
    };
    assert!(both(7, 27, 27));
    assert!(both(27, 20, 27));
    // One is lost, one is added twice, one is told the other's sum, or a total replaces another.
    assert!(!both(7, 20, 20));
    assert!(!both(7, 27, 34));
    assert!(!both(27, 27, 27));
    assert!(!both(7, 20, 27));
}

#[test]
fn an_overrun_is_explained_exactly_by_a_sum_outside_the_range() {
    for (total, amount) in [(i64::MAX, 1), (i64::MIN, -1), (1, i64::MAX)] {
        let mut all = fresh();
        all.called(0, operation(Kind::Insert, 5, total));
        assert!(all.answered(0, Answer::Added).is_ok());
        let mut inside = all.clone();
        all.called(0, operation(Kind::Post, 5, amount));
        assert!(all.answered(0, Answer::Overrun).is_ok());
        assert!(all.listed(&[(5, total)]).is_ok());
        inside.called(0, operation(Kind::Post, 5, -amount));
        assert!(inside.answered(0, Answer::Overrun).is_err());
    }
    let mut missing = fresh();
    missing.called(0, operation(Kind::Post, 5, i64::MIN));
    assert!(missing.answered(0, Answer::Overrun).is_err());
}

#[test]
fn eight_pending_operations_are_all_followed() {
    let mut all = Explainer::new(&Settings::new(8, 2, 0).expect("in range"));
    for worker in 0..8 {
        all.called(worker, operation(Kind::Insert, 1, worker as i64));
    }
    all.moved();
    let name = all.listed(&[(9, 9)]).map_err(|violation| violation.name);
    assert_eq!(name, Err("no choice of moments explains"));
    let mut all = Explainer::new(&Settings::new(8, 16, 0).expect("in range"));
    for worker in 0..8 {
        let kind = [Kind::Insert, Kind::Delete][worker % 2];
        all.called(
            worker,
            operation(kind, worker as u32 / 2 % 2, worker as i64),
        );
    }
    all.moved();
    assert!(all.listed(&[]).is_ok());
}

#[test]
fn a_shrunk_order_still_fails_and_is_shorter() {
    let fails = |lines: &[Line]| verdict(By::External, Fault::BucketSwapBlind, lines).is_err();
    let seeds = (0..200).map(|seed| one_order(By::External, Fault::BucketSwapBlind, seed, 200));
    let failing: Vec<Vec<Line>> = seeds
        .filter(|(_, outcome)| outcome.is_err())
        .map(|(lines, _)| lines)
        .take(5)
        .collect();
    assert_eq!(failing.len(), 5);
    for order in failing {
        let shrunk = shrink(&order, &fails);
        assert!(fails(&shrunk));
        assert!(
            shrunk.len() <= 14 && shrunk.len() <= order.len(),
            "{shrunk:?}"
        );
    }
}
