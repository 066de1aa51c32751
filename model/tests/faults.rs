//! Each wrong machine is caught by the external statement, but for two, which the output of their
//! stored orders tells apart; each stored order is judged well on the true machine and gives the
//! stored output.

mod placed;
mod stored;

use model::explain::UNDECIDED;
use model::fault::Fault;
use model::judge::{judge, Event, Internal};
use model::lines::Line;
use model::machine::Stepped;
use model::off_tariff::OffTariff;
use model::records::Answer;
use model::search::{search, verdict, By};
use model::task::StepKind;
use model::trace::record::record;
use model::trace::Step;
use model::wrong_crowding::WrongCrowding;
use model::wrong_places::WrongPlace;
use model::wrong_posts::WrongPost;
use placed::placed;
use stored::{lines, output, stored};

/// Wrong machines that random search with this seed and budget does not catch by the external
/// statement; their stored orders do.
const NOT_BY_SEARCH: [Fault; 4] = [
    Fault::OneDirectoryRound,
    Fault::AnnounceApplies,
    Fault::Crowding(WrongCrowding::AtCheck),
    Fault::Post(WrongPost::OverrunNotSettled),
];

/// The wrong machines of which no order is known that the external statement rejects: a later moment
/// is found for an update that the one misses, and for a crowded one that the other carries out
/// before its worker has an answer. Their stored orders tell them apart by the output.
const NOT_BY_STATEMENT: [Fault; 2] = [
    Fault::SlotsBackwards,
    Fault::Crowding(WrongCrowding::TriedAgain),
];

/// The wrong machine whose stored order only tells it apart by the output, and the order that the
/// external statement rejects.
const REJECTED_BY: (Fault, &str) = (Fault::DeleteIntoFull, "account-brought-back");
const SEED: u64 = 1;
const BUDGET: u64 = 100_000;

/// Stored orders that are not named after a fault, with the fault whose output they tell apart
/// from the true machine's.
const MORE: [(&str, Fault); 15] = [
    ("account-brought-back", Fault::DeleteIntoFull),
    ("crowded-after-anothers-split", Fault::OneDirectoryRound),
    ("crowded-after-own-split", Fault::OneDirectoryRound),
    (
        "crowded-is-settled",
        Fault::Crowding(WrongCrowding::AtCheck),
    ),
    ("from-1000-fourth-check", Fault::Place(WrongPlace::ByNumber)),
    ("from-1000-up", Fault::Place(WrongPlace::ByNumber)),
    ("full-takes-changes", Fault::Crowding(WrongCrowding::Delete)),
    (
        "room-in-one-split",
        Fault::Crowding(WrongCrowding::HeldBackAfterSplits),
    ),
    ("room-in-one-swap", Fault::FullAsRead),
    ("own-update-only-listing", Fault::OwnUpdateOnly),
    ("toggle-ignored-listing", Fault::ToggleIgnored),
    ("announce-applies-listing", Fault::AnnounceApplies),
    (
        "one-worker-splits",
        Fault::OffTariff(OffTariff::FirstDirectoryPassIdle),
    ),
    (
        "overrun-at-both-ends",
        Fault::Post(WrongPost::OverrunSaturates),
    ),
    ("posts-at-once", Fault::Post(WrongPost::LastTotalTold)),
];

/// Rejected by the external statement, and not merely undecided.
fn is_rejected(fault: Fault, order: &[Line]) -> bool {
    let verdict = verdict(By::External, fault, order);
    verdict.is_err_and(|(_, violation)| violation.name != UNDECIDED)
}

#[test]
fn random_search_catches_faults_by_the_external_statement() {
    let caught =
        |fault: &Fault| !NOT_BY_SEARCH.contains(fault) && !NOT_BY_STATEMENT.contains(fault);
    for fault in Fault::ALL.into_iter().filter(caught) {
        let (counts, failure) = search(By::External, fault, SEED, BUDGET);
        let failure = failure.unwrap_or_else(|| panic!("{} not caught", fault.name()));
        println!("{} after {} steps", fault.name(), counts.steps);
        assert!(is_rejected(fault, &failure.shrunk));
        assert!(verdict(By::External, Fault::None, &failure.shrunk).is_ok());
        assert!(verdict(By::AllAssertions, Fault::None, &failure.drawn).is_ok());
    }
}

#[test]
fn every_fault_has_a_stored_order_that_the_external_statement_rejects() {
    let rejected = |fault: &Fault| !NOT_BY_STATEMENT.contains(fault);
    for fault in Fault::ALL.into_iter().filter(rejected) {
        let order = match fault == REJECTED_BY.0 {
            true => lines(REJECTED_BY.1),
            false => lines(fault.name()),
        };
        assert!(is_rejected(fault, &order), "{fault:?}");
        assert!(
            verdict(By::AllAssertions, fault, &order).is_err(),
            "{fault:?}"
        );
    }
}

#[test]
fn stored_orders_hold_on_the_true_machine_with_the_stored_output() {
    let named = Fault::ALL.map(|fault| (fault.name(), fault));
    for (name, fault) in named.into_iter().chain(MORE) {
        let order = lines(name);
        assert!(
            verdict(By::AllAssertions, Fault::None, &order).is_ok(),
            "{name}"
        );
        assert!(verdict(By::External, Fault::None, &order).is_ok(), "{name}");
        assert_eq!(output(name, Fault::None), stored(name, "out"), "{name}");
        assert_ne!(output(name, fault), stored(name, "out"), "{name}");
    }
}

#[test]
fn the_second_directory_round_is_needed() {
    let order = lines("crowded-after-own-split");
    let mut all = Internal::new(Fault::None);
    all.record = true;
    assert!(judge(&mut all, &order).is_ok());
    let last: &Event = all.events.last().expect("steps were made");
    let answered = Stepped::Answered {
        answer: Answer::Crowded,
        steps: 69,
        check: 4,
    };
    assert_eq!(last.worker, 0);
    assert_eq!(last.report.stepped, answered);
    assert_eq!(last.report.kind, StepKind::CheckState { check: 4 });
    // Crowded is settled by the swap before, with nothing left for the check to find out.
    let settles = |event: &&Event| event.moments.iter().any(|moment| moment.worker == 0);
    let settling = all.events.iter().rfind(settles).expect("a moment");
    assert_eq!(settling.moments[0].answer, Answer::Crowded);
    let swapped = StepKind::SwapDirectory { succeeded: true };
    assert_eq!((settling.worker, settling.report.kind), (0, swapped));
    let fault = Fault::OneDirectoryRound;
    assert!(verdict(By::AllAssertions, fault, &order).is_err());
    assert!(verdict(By::External, fault, &order).is_err());
}

/// The worker whose directory swap was the last to split.
fn last_to_split(name: &str) -> usize {
    let lists = record(stored(name, "txt").as_bytes()).expect("the true machine");
    let list = lists.last().expect("a table was opened");
    let split = |step: &&Step| step.is_in_force() && !step.splits.is_empty();
    let last = list.steps.iter().rfind(split).expect("a split");
    list.operations[last.operation].worker
}

#[test]
fn an_update_is_crowded_at_its_last_check_whoever_split() {
    for (name, worker) in [
        ("crowded-after-own-split", 0),
        ("crowded-after-anothers-split", 1),
    ] {
        assert_eq!(last_to_split(name), worker, "{name}");
        assert!(
            stored(name, "out").contains("answered crowded 69"),
            "{name}"
        );
    }
}

#[test]
fn an_announcement_that_applies_changes_two_cells_at_once() {
    let order = lines("announce-applies-listing");
    let failed = verdict(By::AllAssertions, Fault::AnnounceApplies, &order);
    assert!(failed.is_err());
    // The listing alone can be explained: the moment would be the announcement.
    assert!(verdict(By::External, Fault::AnnounceApplies, &order).is_ok());
}

#[test]
fn slots_read_backwards_show_in_a_listing() {
    let fault = Fault::SlotsBackwards;
    // Worker 1 announces between worker 0's two reads of slots, and is taken.
    let taken = placed("@2147483649 90\nend 4\n");
    assert!(output(fault.name(), Fault::None).ends_with(&taken));
    // Read backwards, its slot comes too early: it is not taken, and has its moment later.
    let missed = placed("@2147483648 80\nend 3\n");
    assert!(output(fault.name(), fault).ends_with(&missed));
}

#[test]
fn a_crowded_update_that_is_tried_again_shows_in_its_answer() {
    let fault = Fault::Crowding(WrongCrowding::TriedAgain);
    // Worker 0's split settles worker 1's insert as crowded, and then worker 0 makes room.
    let listing = placed("@6 60\n@2147483648 80\nend 2\n");
    let crowded = format!("answered removed 15\nanswered crowded 15\n{listing}");
    assert!(output(fault.name(), Fault::None).ends_with(&crowded));
    let listing = placed("@6 60\n@7 70\n@2147483648 80\nend 3\n");
    let added = format!("answered removed 15\nanswered added 15\n{listing}");
    assert!(output(fault.name(), fault).ends_with(&added));
}

#[test]
fn some_wrong_machines_are_found_by_all_assertions_only() {
    for fault in NOT_BY_STATEMENT {
        let order = lines(fault.name());
        assert!(verdict(By::AllAssertions, fault, &order).is_err());
        assert!(verdict(By::External, fault, &order).is_ok());
        let (_, failure) = search(By::AllAssertions, fault, SEED, BUDGET);
        assert!(failure.is_some(), "{fault:?}");
        let (_, failure) = search(By::External, fault, SEED, BUDGET);
        assert!(failure.is_none(), "{fault:?}");
    }
}

#[test]
fn fault_names_are_distinct_and_found_again() {
    for fault in Fault::every() {
        assert_eq!(Fault::from_name(fault.name()), Some(fault));
    }
    assert_eq!(Fault::from_name("none"), None);
    assert_eq!(Fault::from_name("no-such-fault"), None);
}
