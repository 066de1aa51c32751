//! The page of a log: its verdict in a sentence, and the chart of a log that is judged.

use super::labels::escape;
use super::log_chart::{chart, workers};
use super::looks::MOMENT;
use super::page::{key, whole};
use crate::judging::{judge, Verdict, MOST};
use crate::log::{read, Log};
use crate::refusal;

const NOTES: &str =
    "A bar runs from its call (thick edge) to its answer; in front of its operation \
stands its place in the log, counted from 0. A column is a position.";

const ORDER_NOTES: &str =
    " In the row of the plain table the operations stand in the order found, \
each as early as its call and those before it allow. Pointing at a mark shows what the plain table \
then holds.";

/// The page of an input of `judge` under this title.
pub fn log_page(title: &str, input: &[u8]) -> String {
    let section = match read(input) {
        Ok(log) => section(&log),
        Err(line) => format!("<p>Line {line} is none of a log.</p>\n"),
    };
    whole(title, &[&MOMENT], &section)
}

fn section(log: &Log) -> String {
    let verdict = judge(log, MOST);
    let head = format!("b {}, M {}: {verdict}", log.b, log.m);
    let (sentence, chart) = match &verdict {
        Verdict::Order(order) => (explained(order), chart(log, Some(order))),
        Verdict::No => (
            "No order of the plain table explains this log.".to_string(),
            chart(log, None),
        ),
        Verdict::Refused(refusal::SETTINGS) => {
            ("b or M is out of its range.".into(), String::new())
        }
        _ => ("It is a bad log.".to_string(), String::new()),
    };
    let counts = counts(log);
    let legend = legend(&verdict);
    format!(
        "<section>\n<h2>{}</h2>\n<p class=\"counts\">{counts}</p>\n<p class=\"verdict\">{sentence}</p>\n\
         {chart}</section>\n{legend}",
        escape(&head)
    )
}

fn explained(order: &[usize]) -> String {
    let places: Vec<String> = order.iter().map(usize::to_string).collect();
    match places.len() {
        0 => "The log is empty.".to_string(),
        _ => format!(
            "The plain table gives all the answers in the order {}. It is the first that does, by place.",
            places.join(", ")
        ),
    }
}

fn counts(log: &Log) -> String {
    let (workers, operations) = (workers(log).len(), log.operations.len());
    format!("workers {workers}, operations {operations}")
}

fn legend(verdict: &Verdict) -> String {
    let (keys, notes) = match verdict {
        Verdict::Order(_) => {
            let taken = "in the order found the operation takes effect here";
            (format!("<ul>\n{}</ul>\n", key(&MOMENT, taken)), ORDER_NOTES)
        }
        Verdict::No => (String::new(), ""),
        _ => return String::new(),
    };
    format!("<h2>Legend</h2>\n{keys}<p class=\"notes\">{NOTES}{notes}</p>\n")
}
