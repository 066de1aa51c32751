//! The logs in `worst`, whose searches are the longest known: their verdicts, and the nodes of the
//! search for them and for shorter logs of their form. The README has the nodes of the whole ones.

use model::cuts::{search, Cuts};
use model::judging::judge_input;
use model::log::{read, Log, Word};

const DIRECTORY: &str = concat!(env!("CARGO_MANIFEST_DIR"), "/worst");
/// Operations of a shorter log at most.
const SHORT: usize = 8;

fn input(name: &str) -> Vec<u8> {
    std::fs::read(format!("{DIRECTORY}/{name}.log")).expect("a log")
}

/// The nodes with none of the cuts, the first, the second and both.
fn nodes(log: &Log) -> [u64; 4] {
    Cuts::ALL.map(|cuts| search(log, cuts).1)
}

fn factorial(n: u64) -> u64 {
    (1..=n).product()
}

/// How many sequences there are of some of so many things, each at most once.
fn sequences(n: u64) -> u64 {
    (0..=n).map(|k| factorial(n) / factorial(k)).sum()
}

/// The log with only so many of the operations that have this answer.
fn shorter(name: &str, answer: Word, kept: usize) -> Log {
    let mut log = read(&input(name)).expect("a log");
    let mut left = kept;
    log.operations.retain(|one| {
        let counts = one.answer == answer;
        let stays = !counts || left > 0;
        left -= usize::from(counts && stays);
        stays
    });
    log
}

#[test]
fn their_verdicts() {
    for (name, verdict) in [
        ("late-order", "order 11 10 0 1 2 3 4 5 6 7 8 9"),
        ("two-added", "no"),
        ("never-found", "no"),
        ("eleven-commute", "no"),
        ("room-for-eleven", "no"),
    ] {
        assert_eq!(judge_input(&input(name)).to_string(), verdict, "{name}");
    }
}

/// Neither cut helps where no two operations commute and all answers say that the table changes.
#[test]
fn nodes_of_logs_that_the_cuts_do_not_shorten() {
    for replaced in 1..=SHORT - 2 {
        let all = sequences(replaced as u64);
        let late = shorter("late-order", Word::Replaced, replaced);
        assert_eq!(nodes(&late), [2 * all + replaced as u64 + 2; 4]);
        let two = shorter("two-added", Word::Replaced, replaced);
        assert_eq!(nodes(&two), [2 * all + 1; 4]);
        let never = shorter("never-found", Word::Replaced, replaced);
        assert_eq!(nodes(&never), [all + 1; 4]);
    }
    assert_eq!(2 * sequences(10) + 12, 19_728_214);
}

/// With cut 1 commuting operations stand in one order only.
#[test]
fn nodes_of_logs_whose_operations_commute() {
    for added in 2..=SHORT as u64 - 1 {
        let one = 1 << added;
        let commuting = shorter("eleven-commute", Word::Added, added as usize);
        let all = sequences(added);
        assert_eq!(nodes(&commuting), [all, one, all, one]);
        let mut roomless = shorter("room-for-eleven", Word::Added, added as usize + 1);
        roomless.b = added;
        let all = sequences(added + 1) - factorial(added + 1);
        assert_eq!(nodes(&roomless), [all, 2 * one - 1, all, 2 * one - 1]);
    }
    let whole = |name: &str| search(&read(&input(name)).expect("a log"), Cuts::BOTH).1;
    assert_eq!(whole("eleven-commute"), 2_048);
    assert_eq!(whole("room-for-eleven"), 4_095);
    assert_eq!(sequences(11), 108_505_112);
    assert_eq!(sequences(12) - factorial(12), 823_059_745);
}
