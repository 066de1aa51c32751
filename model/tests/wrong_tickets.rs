//! The wrong machines on tickets: each is found by all assertions and by the external statement, but
//! not from last tickets 0.

use model::explain::UNDECIDED;
use model::fault::Fault;
use model::lines::read_lines;
use model::records::GREATEST_TICKET;
use model::search::{search, search_from, verdict, By};
use model::starts::{near_edges, Start};
use model::wrong_tickets::WrongTicket;

/// One worker's three updates and a lookup.
const SHOWING: &str = "O 1 2 0\nI 0 5 50\nS 0 99\nL 0 5\nS 0 2\nP 0 5 1\nS 0 99\nD 0 5\nS 0 99\n";

/// A wrong machine, the least last ticket from which that order shows it, what all assertions say
/// then, and what the external statement says. No wrong machine on tickets is hidden from either.
type Wrong = (WrongTicket, u64, &'static str, &'static str);

/// Both say that refusal 7 is wrong.
const fn spent(fault: WrongTicket, least: u64, words: &'static str) -> Wrong {
    (fault, least, words, words)
}

const WRONG: [Wrong; 12] = [
    spent(
        WrongTicket::SpentEarly,
        GREATEST_TICKET - 3,
        "spent: delete of worker 0 told refused 7, numbers left 1",
    ),
    spent(
        WrongTicket::SpentLate,
        GREATEST_TICKET - 2,
        "spent: delete of worker 0 told ok, numbers left 0",
    ),
    spent(
        WrongTicket::PostSpentLate,
        GREATEST_TICKET - 1,
        "spent: post of worker 0 told ok, numbers left 0",
    ),
    spent(
        WrongTicket::SpentAfter65535,
        (1 << 16) - 3,
        "spent: delete of worker 0 told refused 7, numbers left 18446744073709486080",
    ),
    spent(
        WrongTicket::LookupSpent,
        GREATEST_TICKET - 1,
        "spent: lookup of worker 0 told refused 7, numbers left 0",
    ),
    spent(
        WrongTicket::LookupNumbered,
        GREATEST_TICKET - 3,
        "spent: delete of worker 0 told refused 7, numbers left 1",
    ),
    (
        WrongTicket::LastOf16Bits,
        (1 << 16) - 3,
        "S3: worker 0: settled 65535, slot 0",
        "no choice of moments explains: worker 0 got Posted(51)",
    ),
    (
        WrongTicket::LastOf32Bits,
        (1 << 32) - 3,
        "S3: worker 0: settled 4294967295, slot 0",
        "no choice of moments explains: worker 0 got Posted(51)",
    ),
    (
        WrongTicket::SlotOf32Bits,
        (1 << 32) - 3,
        "S3: worker 0: settled 4294967295, slot 0",
        "step bound: delete of worker 0 without answer after 45 steps",
    ),
    (
        WrongTicket::SettledOf32Bits,
        (1 << 32) - 3,
        "listing: listing [], plain table {5: 51}",
        "step bound: delete of worker 0 without answer after 45 steps",
    ),
    (
        WrongTicket::SettledSigned,
        (1 << 63) - 3,
        "W0: worker 0",
        "no choice of moments explains: worker 0 got Posted(51)",
    ),
    (
        WrongTicket::SettledByDifference,
        1 << 63,
        "W0: worker 0",
        "step bound: insert of worker 0 without answer after 45 steps",
    ),
];

/// What is said of a machine whose first worker took this ticket last.
fn said(by: By, fault: Fault, ticket: u64) -> Option<String> {
    let mut start = Start::from(fault);
    start.last_tickets[0] = ticket;
    let order = read_lines(SHOWING).expect("lines");
    let failed = verdict(by, start, &order).err();
    failed.map(|(_, violation)| violation.to_string())
}

#[test]
fn wrong_machines_show_from_their_number_on() {
    for (fault, least, inside, outside) in WRONG {
        for (by, words) in [(By::AllAssertions, inside), (By::External, outside)] {
            let wrong = Fault::Ticket(fault);
            assert_eq!(said(by, wrong, least).as_deref(), Some(words));
            assert_eq!(said(by, wrong, least - 1), None, "{fault:?}");
            assert_eq!(said(by, Fault::None, least), None, "{fault:?}");
        }
    }
    assert_eq!(WRONG.map(|wrong| wrong.0), WrongTicket::ALL);
}

/// A short order from last tickets 0 has no ticket at which they go wrong.
#[test]
fn wrong_machines_are_found_near_the_edges_and_not_from_0() {
    for (fault, by) in Fault::on_tickets().flat_map(|fault| By::BOTH.map(|by| (fault, by))) {
        let (_, failure) = search_from(by, fault, 1, 100_000, &near_edges);
        let failure = failure.unwrap_or_else(|| panic!("{} not found", fault.name()));
        assert_ne!(failure.violation.name, UNDECIDED, "{fault:?}");
        assert!(verdict(by, failure.start, &failure.shrunk).is_err());
        let truth = Start::new(Fault::None, failure.start.last_tickets);
        for by in By::BOTH {
            let failed = verdict(by, truth, &failure.shrunk).err();
            assert_eq!(failed, None, "{fault:?}");
        }
        let (_, from_0) = search(by, fault, 1, 20_000);
        assert!(from_0.is_none(), "{fault:?}");
    }
}
