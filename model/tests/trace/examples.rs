//! The examples in docs/trace: fresh pages, small pictures, and runs that are as their text says.

use crate::placed::placed;
use crate::{assert_page_is_the_run, elements, titles};
use model::fault::Fault;
use model::totals::transcript;
use model::trace::command::title;
use model::trace::page::page;
use model::trace::record::record;
use std::fs::{read, read_to_string};
use std::process::{Command, Output, Stdio};

const DOCS: &str = concat!(env!("CARGO_MANIFEST_DIR"), "/../docs/trace");
const NAMES: [&str; 4] = ["second-pass", "helped", "overtaken", "posts"];
/// Those with a picture.
const PICTURES: [&str; 3] = ["second-pass", "helped", "overtaken"];
/// Bytes of a picture.
const MOST: usize = 200_000;

fn input(name: &str) -> Vec<u8> {
    read(format!("{DOCS}/{name}.lines")).expect("an example's lines")
}

fn answers(name: &str) -> Vec<String> {
    let output = transcript(&input(name), Fault::None);
    let output = String::from_utf8(output).expect("text");
    let answered = output.lines().filter(|line| line.starts_with("answered"));
    answered.map(String::from).collect()
}

/// The moments of an example: operation and answer, entry and worker.
fn moments(name: &str) -> Vec<(String, String)> {
    let titles = titles(&elements(&input(name)), "moment");
    let two = |title: &String| -> (String, String) {
        let mut lines = title.lines().map(String::from);
        (lines.next().expect("what"), lines.next().expect("where"))
    };
    titles.iter().map(two).collect()
}

#[test]
fn the_examples_are_shown_whole() {
    for name in NAMES {
        assert_page_is_the_run(&input(name));
    }
}

#[test]
fn the_pages_in_docs_are_fresh() {
    for name in NAMES {
        let lists = record(&input(name)).expect("every assertion holds");
        let fresh = page(&title(&format!("{name}.lines")), &lists);
        let stored = read_to_string(format!("{DOCS}/{name}.html")).expect("a page");
        assert!(
            stored == fresh,
            "docs/trace/{name}.html is not what the command prints"
        );
    }
}

#[test]
fn the_pictures_are_small_and_the_text_shows_them() {
    let text = read_to_string(format!("{DOCS}/README.md")).expect("a text");
    for name in PICTURES {
        let picture = read(format!("{DOCS}/{name}.png")).expect("a picture");
        assert!(
            picture.starts_with(b"\x89PNG") && picture.len() < MOST,
            "{name}"
        );
        assert!(text.contains(&format!("({name}.png)")), "{name}");
    }
    for name in NAMES {
        assert!(text.contains(&format!("({name}.html)")), "{name}");
        assert!(text.contains(&format!("({name}.lines)")), "{name}");
    }
}

/// On the page of these lines an operation has this end, in its hover text and in a label; `@5` in
/// it is the account whose place is 5.
fn assert_end(lines: &[u8], operation: &str, end: &str) {
    let operation = placed(operation);
    let elements = elements(lines);
    let whole = format!("{operation}: {end}");
    assert!(titles(&elements, "operation").contains(&whole), "{whole}");
    let mut labels = elements.iter().filter(|e| e.has_class("label"));
    assert!(labels.any(|e| e.text == end || e.text == whole), "{whole}");
}

#[test]
fn the_check_that_answered_is_said_on_the_page() {
    let lines = input("second-pass");
    assert_end(&lines, "insert @5 = 50", "added, 15 steps, check 1");
    assert_end(
        &lines,
        "insert @2147483648 = 80",
        "added, 29 steps, check 2",
    );
    assert_end(
        &lines,
        "insert @2147483649 = 90",
        "added, 43 steps, check 3",
    );
    let lines = include_bytes!("../../orders/crowded-after-own-split.txt");
    assert_end(lines, "insert @67108864 = 7", "crowded, 69 steps, check 4");
    assert_end(&input("overtaken"), "lookup @5", "found 50, 2 steps");
    let lines = b"O 1 2 0\nD 0 5\nS 0 1\n";
    assert_end(lines, "delete 5", "no answer, 1 step");
}

#[test]
fn the_second_pass_takes_up_what_the_first_lost() {
    let expected = ["added 15", "added 15", "added 29", "added 43"];
    assert_eq!(
        answers("second-pass"),
        expected.map(|a| format!("answered {a}"))
    );
    let moments = moments("second-pass");
    let (what, at) = &moments[3];
    let insert = placed("moment 4 insert @2147483649 = 90: added");
    assert_eq!(*what, insert);
    // Its call is entry 54, and its second pass starts with its step 30, at entry 93.
    assert_eq!(at, "at entry 99, of worker 1");
}

#[test]
fn a_helped_update_has_its_moment_at_the_helpers_swap() {
    assert_eq!(answers("helped"), ["answered added 15"; 2]);
    let seen = moments("helped");
    let expected = [
        ("moment 1 insert 5 = 50: added", "at entry 13, of worker 0"),
        ("moment 2 insert 9 = 90: added", "at entry 13, of worker 1"),
    ];
    assert_eq!(seen, expected.map(|(what, at)| (what.into(), at.into())));
}

#[test]
fn an_overtaken_lookup_has_its_moment_before_the_split() {
    let answers = answers("overtaken");
    assert_eq!(
        answers.last().map(String::as_str),
        Some("answered found 50 2")
    );
    let elements = elements(&input("overtaken"));
    let split = titles(&elements, "split");
    assert_eq!(split.len(), 1);
    assert!(split[0].starts_with("entry 56: ") && split[0].ends_with("\nsplit * into 0*, 1*"));
    let seen = moments("overtaken");
    let expected = [
        ("moment 3 lookup @5: found 50", "at entry 56, of worker 1"),
        (
            "moment 4 insert @2147483649 = 90: added",
            "at entry 56, of worker 0",
        ),
        (
            "moment 5 insert @5 = 55: replaced",
            "at entry 73, of worker 0",
        ),
    ];
    assert_eq!(
        seen[2..],
        expected.map(|(what, at)| (placed(what), at.into()))
    );
}

#[test]
fn of_two_posts_at_once_each_is_told_its_own_total() {
    let expected = [
        "added",
        "posted 1700",
        "posted 1500",
        "posted 1730",
        "overrun",
    ];
    assert_eq!(
        answers("posts"),
        expected.map(|a| format!("answered {a} 15"))
    );
    let lines = input("posts");
    assert_end(&lines, "post 5 + 30", "posted 1730, 15 steps, check 1");
    assert_end(&lines, "post 5 - 230", "posted 1500, 15 steps, check 1");
    let last = "post 5 + 9223372036854775807";
    assert_end(&lines, last, "overrun, 15 steps, check 1");
    let seen = moments("posts");
    let expected = [
        ("2 post 5 + 1000: posted 1700", "29, of worker 0"),
        ("3 post 5 + 30: posted 1730", "29, of worker 1"),
        ("4 post 5 - 230: posted 1500", "45, of worker 0"),
        ("5 post 5 + 9223372036854775807: overrun", "74, of worker 0"),
    ];
    let shown = expected.map(|(what, at)| (format!("moment {what}"), format!("at entry {at}")));
    assert_eq!(seen[1..], shown);
}

fn command(arguments: &[&str], input: Stdio) -> Output {
    let mut command = Command::new(env!("CARGO_BIN_EXE_model"));
    command.args(arguments).stdin(input);
    command.output().expect("the binary starts")
}

#[test]
fn the_command_prints_the_page_of_a_file_or_of_its_input() {
    let file = format!("{DOCS}/helped.lines");
    let lists = record(&input("helped")).expect("every assertion holds");
    let named = command(&["trace", &file], Stdio::null());
    assert_eq!(named.status.code(), Some(0));
    assert!(named.stdout == page("Trace of helped.lines", &lists).into_bytes());
    let lines = std::fs::File::open(&file).expect("an example's lines");
    let piped = command(&["trace", "-"], lines.into());
    assert_eq!(piped.status.code(), Some(0));
    assert!(piped.stdout == page("Trace", &lists).into_bytes());
    let missing = command(&["trace", "no such file"], Stdio::null());
    assert_eq!(missing.status.code(), Some(1));
    assert!(missing.stdout.is_empty() && missing.stderr.starts_with(b"model: "));
    for wrong in [
        &["trace"][..],
        &["trace", "a", "b"],
        &["trace", "--seed", "1"],
    ] {
        assert_eq!(command(wrong, Stdio::null()).status.code(), Some(2));
    }
}
