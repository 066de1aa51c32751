//! The commands on logs: what is written is judged, and another judge's verdicts are compared.

use model::judges::{judge, logs, split, verdicts, Sort};
use model::judging::{explains, judge_input};
use model::log::read;
use std::process::Command;

fn written(seed: u64, count: u64, sort: Sort) -> Vec<u8> {
    let mut text = Vec::new();
    logs(seed, count, sort, &mut text).expect("writing memory does not fail");
    text
}

fn judged(text: &[u8]) -> String {
    let mut lines = Vec::new();
    judge(text, &mut lines).expect("writing memory does not fail");
    String::from_utf8(lines).expect("text")
}

fn compared(logs: &[u8], lines: &str) -> (u8, String) {
    let mut said = Vec::new();
    let code = verdicts(logs, lines.as_bytes(), &mut said).expect("writing memory does not fail");
    (code, String::from_utf8(said).expect("text"))
}

#[test]
fn so_many_logs_are_written_and_split_again() {
    for sort in [Sort::Any, Sort::Runs, Sort::Unread] {
        for count in [1, 2, 500] {
            let text = written(7, count, sort);
            assert_eq!(split(&text).len() as u64, count, "{sort:?}");
            let joined = split(&text).join(&b"\n\n"[..]);
            assert_eq!([&joined[..], b"\n"].concat(), text);
            assert_eq!(judged(&text).lines().count() as u64, count);
        }
    }
}

#[test]
fn of_each_sort_there_are_the_verdicts_that_its_name_says() {
    let shares = |sort: Sort| {
        let lines = judged(&written(8, 3_000, sort));
        ["order", "no", "refused 1", "refused 14", "unread"].map(|start| {
            let same = |line: &&str| *line == start || line.starts_with(&format!("{start} "));
            lines.lines().filter(same).count()
        })
    };
    let [orders, nos, strange, bad, unread] = shares(Sort::Any);
    assert!(orders > 900 && nos > 900 && strange > 50 && bad > 300 && unread == 0);
    assert_eq!(shares(Sort::Runs), [3_000, 0, 0, 0, 0]);
    assert!(shares(Sort::Unread)[4] > 1_000);
}

#[test]
fn own_verdicts_are_the_same_and_another_order_is_not() {
    for sort in [Sort::Any, Sort::Unread] {
        let text = written(9, 2_000, sort);
        let (code, said) = compared(&text, &judged(&text));
        assert!(code == 0 && said.starts_with("2000 verdicts are the same, "));
    }
    let two = b"2 0\n0 3 5 0 none 0 1 3\n1 3 5 0 none 0 2 4\n";
    let other = read(two).expect("a log");
    assert!(explains(&other, &[1, 0]));
    assert_eq!(judge_input(two).to_string(), "order 0 1");
    assert_eq!(compared(two, "order 1 0\n").0, 1);
    let same = "1 verdicts are the same, 1 of them the first of several orders\n";
    assert_eq!(compared(two, "order 0 1\n"), (0, same.to_string()));
}

/// No verdict on a log that only the order 0, 1 explains.
const WRONG: [&str; 15] = [
    "order 1 0",
    "order 0",
    "order 0 0",
    "order 0 1 2",
    "order 00 1",
    "order 0  1",
    "order 0 1 ",
    "order +0 1",
    "no",
    "order",
    "",
    "refused 1",
    "unread 2",
    "Order 0 1",
    "order 0 1\r",
];

#[test]
fn a_verdict_that_differs_is_shown_with_its_log() {
    let logs = b"2 0\n\n2 0\n0 1 5 7 added 0 1 2\n0 3 5 0 found 7 3 4\n\n1 0\n";
    assert_eq!(compared(logs, "order\norder 0 1\nrefused 1\n").0, 0);
    for wrong in WRONG {
        let (code, said) = compared(logs, &format!("order\n{wrong}\nrefused 1\n"));
        assert_eq!(code, 1, "{wrong:?}");
        assert!(said.starts_with("log 2: ") && said.contains("here order 0 1\n2 0\n0 1 5 7 "));
    }
    for wrong in ["order\n", "order\norder 0 1\nrefused 1\nno\n"] {
        let (code, said) = compared(logs, wrong);
        assert_eq!(code, 1);
        assert!(said.starts_with("3 logs, "));
    }
    assert_eq!(compared(logs, "order\norder 0 1\nrefused 14\n").0, 1);
}

#[test]
fn the_binary_has_these_commands() {
    let run = |arguments: &[&str]| {
        let command = Command::new(env!("CARGO_BIN_EXE_model"))
            .args(arguments)
            .output();
        command.expect("the binary starts")
    };
    assert_eq!(run(&["logs", "3", "40"]).stdout, written(3, 40, Sort::Any));
    let runs = run(&["logs", "3", "40", "--runs"]).stdout;
    assert_eq!(runs, written(3, 40, Sort::Runs));
    let unread = run(&["logs", "3", "40", "--unread"]).stdout;
    assert_eq!(unread, written(3, 40, Sort::Unread));
    assert_eq!(
        run(&["verdicts", "no such file", "nor this"]).status.code(),
        Some(1)
    );
}
