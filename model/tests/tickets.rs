//! Tickets of 64 bits: the last numbers and refusal 7, and orders from last tickets near the edges
//! and anywhere.

mod placed;
mod session;

use model::fault::Fault;
use model::judge::{judge, Event, Internal, Judge};
use model::lines::{read_lines, Line};
use model::machine::{LastTickets, Machine, Report};
use model::prng::Prng;
use model::records::{Answer, Kind, State, GREATEST_TICKET};
use model::refusal;
use model::search::{new_judge, one_order, one_variation, By};
use model::starts::{near_edges, Start, EDGES};
use model::totals::Driver;
use placed::placed;
use session::session;
use std::array::from_fn;
use std::rc::Rc;

/// The first ticket that 63 bits do not hold.
const HALF: u64 = 1 << 63;

/// The true machine from these last tickets.
fn from(last_tickets: LastTickets) -> Start {
    Start::new(Fault::None, last_tickets)
}

/// The true machine from these last tickets of the first workers.
fn first(tickets: &[u64]) -> Start {
    let mut last_tickets = LastTickets::default();
    last_tickets[..tickets.len()].copy_from_slice(tickets);
    from(last_tickets)
}

#[test]
fn the_last_number_is_used_and_no_update_follows_it() {
    session(
        first(&[GREATEST_TICKET - 1]),
        &[
            ("O 2 3 1", "ok"),
            ("I 0 5 50", "ok"),
            ("S 0 99", "answered added 15"),
            ("I 0 6 60", "refused 7"),
            ("D 0 5", "refused 7"),
            ("P 0 5 1", "refused 7"),
            ("S 0 1", "refused 5"),
            ("L 0 5", "ok"),
            ("D 0 5", "refused 4"),
            ("S 0 99", "answered found 50 2"),
            ("I 1 6 60", "ok"),
            ("S 1 99", "answered added 15"),
            ("D 1 5", "ok"),
            ("S 1 99", "answered removed 15"),
            ("D 0 6", "refused 7"),
            ("T", "6 60\nend 1"),
        ],
        &[1, 0, 1, 1],
    );
}

#[test]
fn a_post_uses_up_a_number() {
    session(
        first(&[GREATEST_TICKET - 2]),
        &[
            ("O 1 3 1", "ok"),
            ("P 0 5 9223372036854775807", "ok"),
            ("S 0 99", "answered posted 9223372036854775807 13"),
            ("P 0 5 1", "ok"),
            ("S 0 99", "answered overrun 13"),
            ("P 0 5 1", "refused 7"),
            ("I 0 5 1", "refused 7"),
            ("L 0 5", "ok"),
            ("S 0 2", "answered found 9223372036854775807 2"),
            ("P 0 5 -1", "refused 7"),
            ("T", "5 9223372036854775807\nend 1"),
        ],
        &[1, 1, 0],
    );
}

#[test]
fn lookups_need_no_number() {
    session(
        first(&[GREATEST_TICKET - 1, GREATEST_TICKET]),
        &[
            ("O 2 3 1", "ok"),
            ("L 0 5", "ok"),
            ("S 0 2", "answered none 2"),
            ("I 1 5 50", "refused 7"),
            ("L 1 5", "ok"),
            ("D 0 5", "ok"),
            ("S 0 99", "answered absent 15"),
            ("S 1 2", "answered none 2"),
            ("I 0 5 50", "refused 7"),
            ("L 0 5", "ok"),
            ("S 0 2", "answered none 2"),
            ("T", "end 0"),
        ],
        &[0, 1, 0, 0],
    );
}

#[test]
fn a_spent_call_changes_nothing() {
    let mut machine = first(&[GREATEST_TICKET]).open(1, 2, 1).expect("in range");
    let before = format!("{machine:?}");
    for kind in [Kind::Insert, Kind::Delete, Kind::Post] {
        let called = machine.call(0, kind.number(), 5, 50);
        assert_eq!(called, Err(refusal::SPENT));
        assert_eq!(format!("{machine:?}"), before);
    }
}

/// The settled tickets in each current bucket, in the order of their places.
fn settled(machine: &Machine) -> Vec<Vec<u64>> {
    let mut buckets = machine.directory.entries.clone();
    buckets.dedup_by(|bucket, before| Rc::ptr_eq(bucket, before));
    let tickets = |state: Rc<State>| state.settled.iter().map(|one| one.ticket).collect();
    let states = buckets.iter().map(|bucket| bucket.current());
    states.map(tickets).collect()
}

/// Takes more lines, in which `@5` is the account whose place is 5, and answers what is settled
/// then.
fn settled_after(by: &mut dyn Judge, text: &str) -> Vec<Vec<u64>> {
    let lines = read_lines(&placed(text)).expect("lines");
    judge(by, &lines).expect("every assertion holds");
    settled(by.machine().expect("a table was opened"))
}

/// The worker whose update is carried out by another, and that other.
const HELPED: [(usize, usize); 2] = [(0, 1), (1, 0)];

#[test]
fn tickets_1_and_2_to_the_63_settle_in_one_bucket() {
    for ((helped, helper), by) in HELPED.iter().flat_map(|pair| By::BOTH.map(|by| (pair, by))) {
        let mut all = new_judge(by, first(&[0, HALF - 1]));
        // The helped update has made three steps when both are settled.
        let text = format!(
            "O 3 2 1\nI {helped} @5 50\nS {helped} 3\nI {helper} @2147483648 80\nS {helper} 99\nT\n"
        );
        assert_eq!(settled_after(&mut *all, &text), [[1, HALF, 0]]);
        // The full bucket is split for worker 2, in the left half.
        let text = format!("S {helped} 99\nI 2 @6 60\nS 2 99\nT\n");
        let halves = [[1, HALF, 1], [1, HALF, 0]];
        assert_eq!(settled_after(&mut *all, &text), halves);
        // The next tickets of both in the right half.
        let text = format!(
            "I {helped} @2147483648 81\nS {helped} 3\nD {helper} @2147483648\nS {helper} 99\nT\n\
             S {helped} 99\n"
        );
        let halves = [[1, HALF, 1], [2, HALF + 1, 0]];
        assert_eq!(settled_after(&mut *all, &text), halves);
    }
}

#[test]
fn tickets_1_and_2_to_the_63_settle_by_a_split() {
    for ((helped, helper), by) in HELPED.iter().flat_map(|pair| By::BOTH.map(|by| (pair, by))) {
        let mut all = new_judge(by, first(&[0, HALF - 1]));
        let text = "O 3 2 1\nI 2 @5 50\nS 2 99\nI 2 @2147483648 80\nS 2 99\n";
        assert_eq!(settled_after(&mut *all, text), [[0, 0, 2]]);
        // The helper's directory pass takes both: the helped update to the left, its own to the
        // right.
        let text =
            format!("I {helped} @6 60\nS {helped} 1\nI {helper} @2147483649 90\nS {helper} 99\n");
        let mut halves = [[0, 0, 2], [0, 0, 2]];
        halves[0][*helped] = [1, HALF][*helped];
        halves[1][*helper] = [1, HALF][*helper];
        assert_eq!(settled_after(&mut *all, &text), halves);
        let text = format!("T\nS {helped} 99\nT\n");
        assert_eq!(settled_after(&mut *all, &text), halves);
    }
}

/// How often each edge was reached from below, and how often a call was refused 7.
#[derive(Debug, Default)]
struct Tally {
    reached: [u64; EDGES.len()],
    spent: u64,
}

fn tally(start: Start, order: &[Line], seen: &mut Tally) {
    let mut driver = Driver::new(start);
    for line in order {
        seen.spent += u64::from(driver.answer_line(line) == "refused 7\n");
    }
    let machine = driver.machine.expect("a table was opened");
    for (worker, before) in machine.workers.iter().zip(start.last_tickets) {
        for (edge, count) in EDGES.iter().zip(&mut seen.reached) {
            *count += u64::from(before < *edge && *edge <= worker.last_ticket);
        }
    }
}

#[test]
fn every_assertion_holds_near_the_edges() {
    let mut seen = Tally::default();
    for seed in 0..4_000 {
        let start = from(near_edges(seed));
        for (order, outcome) in [
            one_order(By::AllAssertions, start, seed, 300),
            one_variation(By::AllAssertions, start, seed),
            one_order(By::External, start, seed, 200),
        ] {
            assert_eq!(outcome.err(), None, "seed {seed}");
            tally(start, &order, &mut seen);
        }
    }
    println!("{seen:?}");
    assert!(seen.spent > 1_000, "{seen:?}");
    for (edge, count) in EDGES.iter().zip(seen.reached) {
        assert!(count > 300, "{edge} was reached {count} times");
    }
}

/// What is printed for each line.
fn printed(start: Start, order: &[Line]) -> Vec<String> {
    let mut driver = Driver::new(start);
    order.iter().map(|line| driver.answer_line(line)).collect()
}

/// What an order gives: the printed lines, each step's worker and report, and the answers of its
/// moments.
type Given = (Vec<String>, Vec<(usize, Report, Vec<Answer>)>);

fn given(start: Start, order: &[Line]) -> Given {
    let mut all = Internal::new(start);
    all.record = true;
    judge(&mut all, order).expect("every assertion holds");
    let answers = |event: &Event| event.moments.iter().map(|moment| moment.answer).collect();
    let step = |event: &Event| (event.worker, event.report, answers(event));
    let steps = all.events.iter().map(step).collect();
    (printed(start, order), steps)
}

/// Some numbers near the edges and some anywhere, with so many left at least.
fn any_tickets(seed: u64, left: u64) -> LastTickets {
    let near = near_edges(seed);
    let mut prng = Prng::new(seed + 1_000_000);
    let drawn = near.map(|near| if prng.percent(50) { near } else { prng.draw() });
    drawn.map(|ticket| ticket.min(GREATEST_TICKET - left))
}

#[test]
fn from_any_tickets_an_order_gives_the_same() {
    for seed in 0..2_000 {
        let start = from(any_tickets(seed, 200));
        let (order, outcome) = one_order(By::AllAssertions, start, seed, 150);
        assert_eq!(outcome.err(), None, "seed {seed}");
        let same = given(start, &order) == given(Fault::None.into(), &order);
        assert!(same, "seed {seed}, {:?}", start.last_tickets);
    }
}

/// The places of a worker's accepted updates.
fn updates(order: &[Line], printed: &[String], w: usize) -> Vec<usize> {
    let accepted = |place: &usize| match order[*place] {
        Line::Call { kind, worker, .. } => {
            worker == w && kind != Kind::Lookup && printed[*place] == "ok\n"
        }
        _ => false,
    };
    (0..order.len()).filter(accepted).collect()
}

#[test]
fn with_one_number_less_the_last_update_is_spent() {
    for seed in 0..1_000 {
        let (order, _) = one_order(By::AllAssertions, Fault::None, seed, 150);
        let whole = given(Fault::None.into(), &order);
        let places: [Vec<usize>; 8] = from_fn(|w| updates(&order, &whole.0, w));
        let exact = from_fn(|w| GREATEST_TICKET - places[w].len() as u64);
        assert!(given(from(exact), &order) == whole, "seed {seed}");
        for (w, places) in places.iter().enumerate().filter(|(_, all)| !all.is_empty()) {
            let mut less = exact;
            less[w] += 1;
            let short = printed(from(less), &order);
            let place = (0..order.len()).find(|place| short[*place] != whole.0[*place]);
            assert_eq!(place.as_ref(), places.last(), "seed {seed}, worker {w}");
            assert_eq!(place.map(|place| &*short[place]), Some("refused 7\n"));
        }
    }
}
