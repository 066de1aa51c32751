//! Crowding at depth M: where crowded has its moment, in which order one swap settles a delete and a
//! new account, and short orders in full.

mod stored;

use model::fault::Fault;
use model::judge::{judge, Event, Internal};
use model::lines::Line;
use model::machine::{Machine, Stepped};
use model::places::account_at as at;
use model::plain::Plain;
use model::records::{Answer, Kind};
use model::settings::Settings;
use model::task::StepKind;
use model::totals::PLACES;
use stored::{lines, output};

/// The steps of a stored order, with every assertion.
fn events(name: &str) -> Vec<Event> {
    let mut all = Internal::new(Fault::None);
    all.record = true;
    judge(&mut all, &lines(name)).expect("every assertion holds");
    all.events
}

/// A step with several moments: whose it is, what it does, and worker and answer of each moment.
type Shared = (usize, StepKind, Vec<(usize, Answer)>);

fn shared(name: &str) -> Vec<Shared> {
    let events = events(name);
    let several = events.iter().filter(|event| event.moments.len() > 1);
    let answers = |event: &Event| {
        let each = event.moments.iter().map(|m| (m.worker, m.answer));
        each.collect()
    };
    several
        .map(|event| (event.worker, event.report.kind, answers(event)))
        .collect()
}

#[test]
fn a_full_bucket_takes_changes_and_no_new_account() {
    let printed = output("full-takes-changes", Fault::None);
    let answers = printed
        .lines()
        .filter_map(|line| line.strip_prefix("answered "));
    let expected = [
        "added 13",
        "added 13",
        "crowded 13",
        "crowded 13",
        "replaced 13",
        "overrun 13",
        "posted 67 13",
        "absent 13",
        "removed 13",
        "added 13",
    ];
    assert_eq!(answers.collect::<Vec<_>>(), expected);
}

#[test]
fn crowded_has_its_moment_at_the_swap_that_settles_it() {
    use Answer::{Crowded, Posted};
    let swap = StepKind::SwapState { succeeded: true };
    // Worker 0's swap settles both; worker 1 is told crowded after room was made.
    let expected = vec![(0, swap, vec![(0, Posted(61)), (1, Crowded)])];
    assert_eq!(shared("crowded-is-settled"), expected);
    let events = events("crowded-is-settled");
    let answered = |answer: Answer| {
        let told = |event: &Event| match event.report.stepped {
            Stepped::Answered { answer: told, .. } => told == answer,
            _ => false,
        };
        events.iter().position(told).expect("an answer")
    };
    let crowded = &events[answered(Crowded)];
    assert!(answered(Answer::Removed) < answered(Crowded));
    assert_eq!((crowded.worker, crowded.moments.len()), (1, 0));
}

/// A delete makes room for the workers after its own, and not for those before.
#[test]
fn one_swap_goes_by_worker_order() {
    use Answer::{Added, Crowded, Posted, Removed};
    let swap = StepKind::SwapState { succeeded: true };
    let expected = [
        (2, swap, vec![(0, Removed), (1, Added), (2, Posted(61))]),
        (2, swap, vec![(0, Crowded), (1, Removed), (2, Posted(62))]),
    ];
    assert_eq!(shared("room-in-one-swap"), expected);
    let swap = StepKind::SwapDirectory { succeeded: true };
    let expected = [
        (2, swap, vec![(0, Removed), (1, Added), (2, Added)]),
        (2, swap, vec![(0, Crowded), (1, Removed), (2, Added)]),
    ];
    assert_eq!(shared("room-in-one-split"), expected);
}

/// An update, as a call has it.
type Update = (Kind, u32, i64);

/// Inserts, deletes and posts of these accounts.
fn updates(accounts: &[u32]) -> Vec<Update> {
    let each = |account: &u32| {
        let account = *account;
        [
            (Kind::Insert, account, 3),
            (Kind::Delete, account, 0),
            (Kind::Post, account, i64::MAX),
        ]
    };
    accounts.iter().flat_map(each).collect()
}

/// One worker makes every sequence of four updates of three accounts, whose places are 5, 6 and 7;
/// two fill a bucket.
#[test]
fn one_worker_answers_as_the_plain_table_whatever_the_sequence() {
    let updates = updates(&[5, 6, 7].map(at));
    let each = updates.len();
    for (depth, number) in (0..=1).flat_map(|m| (0..each.pow(4)).map(move |k| (m, k))) {
        let settings = Settings::new(1, 2, depth).expect("in range");
        let mut machine = Machine::fresh(settings);
        let mut plain = Plain::new(&settings);
        for place in 0..4 {
            let (kind, account, total) = updates[number / each.pow(place) % each];
            let called = machine.call(0, kind.number(), account, total);
            assert_eq!(called, Ok(()));
            let told = (0..23).find_map(|_| match machine.step(0).stepped {
                Stepped::Answered { answer, .. } => Some(answer),
                _ => None,
            });
            let expected = plain.apply(kind, account, total);
            assert_eq!(told, Some(expected), "depth {depth}, sequence {number}");
            let items = machine.listing(PLACES, PLACES).expect("wide enough");
            assert!(plain.lists_as(&items), "depth {depth}, sequence {number}");
        }
    }
}

/// Two workers in a full bucket at depth M: the one is parked after any number of steps, then the
/// other, then both go on; every pair of updates of an account that is there and of new ones.
#[test]
fn every_assertion_holds_wherever_two_workers_are_parked() {
    let call = |worker: usize, (kind, account, total): Update| Line::Call {
        kind,
        worker,
        account,
        total,
    };
    let step = |worker: usize, count: u64| Line::Step { worker, count };
    let mut crowded = 0;
    for (first, one) in updates(&[5, 7]).into_iter().flat_map(|u| [(0, u), (1, u)]) {
        for other in updates(&[5, 7, 8]) {
            for (i, j) in (1..=15).flat_map(|i| (1..=15).map(move |j| (i, j))) {
                let second = 1 - first;
                let mut order = vec![Line::Open { n: 2, b: 2, m: 0 }];
                for account in [5, 6] {
                    order.extend([call(0, (Kind::Insert, account, 1)), step(0, 99)]);
                }
                order.extend([call(first, one), step(first, i)]);
                order.extend([call(second, other), step(second, j)]);
                order.extend([step(first, 99), step(second, 99)]);
                let judged = judge(&mut Internal::new(Fault::None), &order);
                crowded += judged.expect("every assertion holds").crowded;
            }
        }
    }
    println!("crowded {crowded}");
    assert!(crowded > 5_000);
}
