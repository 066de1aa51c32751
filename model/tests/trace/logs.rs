//! The pages of logs: every operation a bar, the order found joined to the bars, the same care for
//! labels; and the examples in docs.

use crate::reader::{read, Element};
use crate::{assert_labels_apart, assert_moments_on_bars, assert_self_contained, count, titles};
use model::judging::{judge, judge_input, Verdict, MOST};
use model::log::Log;
use model::logged_runs::run_log;
use model::logs::any_log;
use model::prng::Prng;
use model::trace::command::log_title;
use model::trace::log_page::log_page;
use std::fs;
use std::process::Command;

const DOCS: &str = concat!(env!("CARGO_MANIFEST_DIR"), "/../docs/trace");
const NAMES: [&str; 2] = ["log", "no-order"];

fn elements(input: &[u8]) -> Vec<Element> {
    read(&log_page("Log", input)).expect("well-formed")
}

fn input(name: &str) -> Vec<u8> {
    fs::read(format!("{DOCS}/{name}.lines")).expect("an example's lines")
}

/// The places of the marks in the row of the plain table, in their order from the left.
fn shown_order(elements: &[Element]) -> Vec<usize> {
    let marks = elements.iter().filter(|e| e.has_class("moment"));
    let mut at: Vec<i32> = marks.map(|e| e.number("x")).collect();
    assert!(at.is_sorted());
    at.dedup();
    let titles = titles(elements, "moment");
    assert_eq!(at.len(), titles.len());
    let place = |title: &String| -> usize {
        let (_, after) = title.split_once("place ").expect("a place");
        let (place, _) = after.split_once(' ').expect("an operation");
        place.parse().expect("a number")
    };
    titles.iter().map(place).collect()
}

fn assert_page_is_the_log(log: &Log) {
    let elements = elements(log.to_string().as_bytes());
    assert_self_contained(&elements);
    assert_labels_apart(&elements);
    assert_moments_on_bars(&elements);
    let operations = log.operations.len() as u64;
    let said = elements.iter().find(|e| e.has_class("verdict"));
    let said = &said.expect("a verdict").text;
    match judge(log, MOST) {
        Verdict::Order(order) => {
            assert_eq!(count(&elements, "operation"), operations);
            assert_eq!(count(&elements, "effect"), operations);
            assert_eq!(shown_order(&elements), order, "{log}");
        }
        Verdict::No => {
            assert_eq!(count(&elements, "operation"), operations);
            assert_eq!(count(&elements, "effect") + count(&elements, "moment"), 0);
            assert_eq!(said, "No order of the plain table explains this log.");
        }
        _ => assert_eq!(count(&elements, "chart"), 0),
    }
}

#[test]
fn random_logs_are_shown_whole() {
    let mut prng = Prng::new(5);
    for i in 0..600 {
        let log = match i % 3 {
            0 => run_log(&mut prng),
            _ => any_log(&mut prng),
        };
        assert_page_is_the_log(&log);
    }
}

#[test]
fn what_is_no_log_has_a_sentence() {
    for (input, sentence) in [
        ("", "Line 1 is none of a log."),
        (
            "2 0\n0 1 5 7 added 0 1 2\n<b>&\n",
            "Line 3 is none of a log.",
        ),
        ("1 0", "b or M is out of its range."),
        ("2 0\n0 1 5 7 added 0 2 1", "It is a bad log."),
        ("2 0", "The log is empty."),
    ] {
        let elements = elements(input.as_bytes());
        let mut said = elements.iter().filter(|e| e.name == "p");
        assert!(said.any(|e| e.text == sentence), "{sentence}");
    }
}

#[test]
fn the_pages_in_docs_are_fresh_and_the_text_names_them() {
    let text = fs::read_to_string(format!("{DOCS}/README.md")).expect("a text");
    for name in NAMES {
        let fresh = log_page(&log_title(&format!("{name}.lines")), &input(name));
        let stored = fs::read_to_string(format!("{DOCS}/{name}.html")).expect("a page");
        assert!(
            stored == fresh,
            "docs/trace/{name}.html is not what the command prints"
        );
        assert!(text.contains(&format!("({name}.html)")), "{name}");
        assert!(text.contains(&format!("({name}.lines)")), "{name}");
    }
}

#[test]
fn the_examples_have_the_verdicts_of_their_text() {
    let order = judge_input(&input("log")).to_string();
    assert_eq!(order, "order 0 2 3 1 4 5");
    assert_eq!(judge_input(&input("no-order")), Verdict::No);
}

#[test]
fn the_command_prints_the_page_of_a_file_or_of_its_input() {
    let file = format!("{DOCS}/log.lines");
    let page = |argument: &str| {
        let mut command = Command::new(env!("CARGO_BIN_EXE_model"));
        let lines = fs::File::open(&file).expect("an example's lines");
        let command = command.args(["page", argument]).stdin(lines);
        command.output().expect("the binary starts")
    };
    assert!(page(&file).stdout == log_page("Log of log.lines", &input("log")).into_bytes());
    assert!(page("-").stdout == log_page("Log", &input("log")).into_bytes());
    assert_eq!(page("no such file").status.code(), Some(1));
}
