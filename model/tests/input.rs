//! Random input for `totals`: a function of the seed, worth answering, with settings of every sort
//! and half of the calls to accounts whose places agree.

use model::check::Counts;
use model::fault::Fault;
use model::input::Input;
use model::judge::{judge, Internal};
use model::lines::{read_line, Line};
use model::places::{first_bits, place};
use model::totals::{transcript, Driver};
use std::collections::{BTreeMap, BTreeSet, HashSet};

fn lines(seed: u64, count: usize) -> Vec<Vec<u8>> {
    let mut input = Input::new(seed);
    (0..count).map(|_| input.next_line()).collect()
}

#[test]
fn the_seed_decides() {
    assert_eq!(lines(5, 5_000), lines(5, 5_000));
    assert_ne!(lines(5, 5_000), lines(6, 5_000));
}

#[test]
fn no_line_holds_a_line_feed() {
    assert!(lines(7, 50_000).iter().all(|line| !line.contains(&b'\n')));
}

#[test]
fn every_sort_of_answer_occurs() {
    let output = transcript(&lines(1, 50_000).join(&b'\n'), Fault::None);
    let text = String::from_utf8(output).expect("output is text");
    let words = |line: &str| -> String {
        let first = line.split(' ').take(2).collect::<Vec<_>>().join(" ");
        first
            .trim_end_matches(|c: char| c.is_ascii_digit())
            .trim_end()
            .to_string()
    };
    let refusals: HashSet<&str> = text
        .lines()
        .filter(|line| line.starts_with("refused"))
        .collect();
    assert_eq!(refusals.len(), 6, "{refusals:?}");
    let sorts: HashSet<String> = text.lines().map(words).collect();
    let answers = [
        "added", "replaced", "removed", "absent", "found", "none", "crowded", "posted", "overrun",
    ];
    for answer in answers {
        assert!(sorts.contains(&format!("answered {answer}")), "{answer}");
    }
    for word in ["ok", "refused", "moved", "unread", "end"] {
        assert!(sorts.contains(word), "{word}");
    }
}

#[test]
fn full_buckets_at_the_greatest_depth_are_met_with_every_update() {
    let mut counts = Counts::default();
    for seed in 1..=80 {
        let read = |line: &Vec<u8>| read_line(line);
        let order: Vec<Line> = lines(seed, 1_500).iter().filter_map(read).collect();
        let judged = judge(&mut Internal::new(Fault::None), &order);
        counts.add(&judged.expect("every assertion holds"));
    }
    println!("{counts:?}");
    let full = counts.amid_full;
    assert!(full.crowded > 300, "{full:?}");
    assert!(full.replaced > 200, "{full:?}");
    assert!(full.posted > 100, "{full:?}");
    assert!(full.removed > 50, "{full:?}");
    assert!(full.absent > 50, "{full:?}");
    assert!(full.overruns > 20, "{full:?}");
    assert!(full.helped_crowded > 10, "{full:?}");
    assert!(full.room_since > 2, "{full:?}");
    assert!(full.made_room > 2, "{full:?}");
}

#[test]
fn crowded_input_keeps_buckets_full() {
    let mut input = Input::crowded(3);
    let order: Vec<Line> = (0..30_000)
        .filter_map(|_| read_line(&input.next_line()))
        .collect();
    let judged = judge(&mut Internal::new(Fault::None), &order);
    let counts = judged.expect("every assertion holds");
    println!("{counts:?}");
    let full = counts.amid_full;
    assert!(full.crowded > 500, "{full:?}");
    assert!(full.replaced > 300, "{full:?}");
    assert!(full.removed > 100, "{full:?}");
    assert!(full.posted > 200, "{full:?}");
    assert!(full.absent > 100, "{full:?}");
}

#[test]
fn most_settings_that_fit_are_opened() {
    let opened: HashSet<Vec<u8>> = lines(2, 400_000)
        .into_iter()
        .filter(|line| transcript(line, Fault::None) == b"ok\n")
        .collect();
    assert!(opened.len() > 400, "{}", opened.len());
}

/// A list's greatest depth, and the accounts of its calls, the refused ones too.
type List = (u32, Vec<u32>);

fn lists(seed: u64, count: usize) -> Vec<List> {
    let mut driver = Driver::default();
    let mut lists: Vec<List> = Vec::new();
    for line in lines(seed, count).iter().filter_map(|line| read_line(line)) {
        let output = driver.answer_line(&line);
        match (line, lists.last_mut()) {
            (Line::Open { m, .. }, _) if output == "ok\n" => lists.push((m as u32, Vec::new())),
            (Line::Call { account, .. }, Some(list)) => list.1.push(account),
            _ => {}
        }
    }
    lists
}

/// Drawn as a place: between the first bits and the last ones, all are 0 or all are 1.
fn is_drawn_as_place(account: u32) -> bool {
    let between = place(account) << 10 >> 15;
    between == 0 || between == u32::MAX >> 15
}

/// How many of a list's calls go to an account that was drawn as a place, and whose place agrees in
/// the first M bits with that of another such account of the list.
fn agreeing((depth, calls): &List) -> usize {
    let bits = |account: u32| first_bits(place(account), *depth);
    let drawn = calls
        .iter()
        .copied()
        .filter(|call| is_drawn_as_place(*call));
    let mut near: BTreeMap<u32, BTreeSet<u32>> = BTreeMap::new();
    for account in drawn.clone() {
        near.entry(bits(account)).or_default().insert(account);
    }
    drawn.filter(|call| near[&bits(*call)].len() > 1).count()
}

#[test]
fn half_of_the_calls_go_to_accounts_whose_places_agree() {
    for seed in 1..=6 {
        let lists = lists(seed, 100_000);
        let calls: usize = lists.iter().map(|list| list.1.len()).sum();
        let near: usize = lists.iter().map(agreeing).sum();
        let upward = |list: &List| {
            let from = |call: &&u32| (1_000..10_000).contains(*call);
            list.1.iter().filter(from).count()
        };
        let upward: usize = lists.iter().map(upward).sum();
        let shares = [near, upward].map(|count| count as f64 / calls as f64);
        println!("seed {seed}: {calls} calls, {shares:?}");
        assert!(
            shares.iter().all(|share| (0.4..0.6).contains(share)),
            "seed {seed}"
        );
    }
}
