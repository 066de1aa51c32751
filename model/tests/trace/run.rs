//! What a page must show of an input, counted from the driver's output and the judge's events.

use model::fault::Fault;
use model::judge::{Event, Internal, Judge};
use model::lines::{read_line, Line};
use model::machine::{Machine, Stepped};
use model::moments::Moment;
use model::records::{Answer, Kind};
use model::task::StepKind;
use model::totals::{answer_words, Driver};
use std::collections::BTreeMap;
use std::rc::Rc;

#[derive(Default)]
pub struct Run {
    pub workers: u64,
    pub operations: u64,
    /// The first lines of the steps' hover texts, ascending.
    pub steps: Vec<String>,
    /// The hover texts of the moments in their order.
    pub moments: Vec<String>,
    /// The answered operations with answer, steps and check, ascending.
    pub answered: Vec<String>,
    /// Bucket swaps that succeeded and failed, directory swaps likewise.
    swaps: [u64; 4],
    pub splits: u64,
    pub splits_in_force: u64,
    /// The hover texts of the listings in their order.
    pub listings: Vec<String>,
    refused: u64,
    unread: u64,
    /// Of the list under way: its workers, places, moments, what the plain table holds, and per worker
    /// its operation with its steps.
    own_workers: u64,
    places: u64,
    numbered: u64,
    held: BTreeMap<u32, i64>,
    under_way: BTreeMap<usize, (String, u64)>,
}

impl Run {
    pub fn of(input: &[u8]) -> Run {
        let mut run = Run::default();
        let mut driver = Driver::default();
        let mut judge = Internal::new(Fault::None);
        judge.record = true;
        let text = input.strip_suffix(b"\n").unwrap_or(input);
        for bytes in text.split(|byte| *byte == b'\n') {
            let output = driver.answer(bytes);
            let line = read_line(bytes);
            if let Some(line) = &line {
                let before = judge.machine().map_or(0, buckets);
                judge.take(line).expect("every assertion holds");
                run.line(line, &output);
                if matches!(line, Line::Step { .. }) {
                    let now = judge.machine().map_or(0, buckets);
                    run.splits_in_force += now - before;
                }
            }
            run.place(line.as_ref(), &output);
            for event in std::mem::take(&mut judge.events) {
                run.event(&event);
            }
        }
        run.splits = judge.counts().splits;
        run.answered.sort();
        run.steps.sort();
        run
    }

    /// Counts in the order of the page's line of counts.
    pub fn shown(&self) -> Vec<u64> {
        let moments = self.moments.len() as u64;
        let steps = self.steps.len() as u64;
        let first = [self.workers, self.operations, steps, moments];
        [first, self.swaps].concat()
    }

    pub fn others(&self) -> [u64; 3] {
        [self.listings.len() as u64, self.refused, self.unread]
    }

    fn line(&mut self, line: &Line, output: &str) {
        match *line {
            Line::Open { n, .. } if output == "ok\n" => {
                self.workers += n;
                self.own_workers = n;
                self.places = 0;
                self.numbered = 0;
                self.held.clear();
            }
            Line::Call {
                kind,
                worker,
                account,
                total,
            } if output == "ok\n" => {
                self.operations += 1;
                let called = (name(kind, account, total), 0);
                self.under_way.insert(worker, called);
            }
            Line::Step { worker, .. } => {
                if let Some(answer) = output.strip_prefix("answered ") {
                    let (name, _) = &self.under_way[&worker];
                    let end = end(self.own_workers, answer.trim_end());
                    self.answered.push(format!("{name}: {end}"));
                }
            }
            _ => {}
        }
    }

    /// A call, a listing, a refused or an unread line takes a place; steps take theirs themselves.
    fn place(&mut self, line: Option<&Line>, output: &str) {
        self.unread += u64::from(output == "unread\n");
        self.refused += u64::from(output.starts_with("refused"));
        let steps = output.starts_with("moved") || output.starts_with("answered");
        let opened = matches!(line, Some(Line::Open { .. })) && output == "ok\n";
        self.places += u64::from(!steps && !opened);
        if line == Some(&Line::List) && !output.starts_with("refused") {
            let mut items: Vec<String> = output.lines().map(|l| l.replace(' ', " = ")).collect();
            let end = items.pop().expect("the end").replace("end = ", "");
            let place = self.places;
            let items = or_nothing(&items);
            self.listings
                .push(format!("entry {place}: listing of {end}: {items}"));
        }
    }

    fn event(&mut self, event: &Event) {
        if matches!(event.report.stepped, Stepped::Refused(_)) {
            return;
        }
        self.places += 1;
        let (w, place) = (event.worker, self.places);
        let (name, number) = self.under_way.get_mut(&w).expect("an operation");
        *number += 1;
        self.steps.push(format!(
            "entry {place}: step {number} of worker {w}'s {name}"
        ));
        match event.report.kind {
            StepKind::SwapState { succeeded } => self.swaps[usize::from(!succeeded)] += 1,
            StepKind::SwapDirectory { succeeded } => self.swaps[2 + usize::from(!succeeded)] += 1,
            _ => {}
        }
        for moment in &event.moments {
            self.moment(moment);
        }
    }

    fn moment(&mut self, moment: &Moment) {
        let update = moment.operation;
        self.numbered += 1;
        match moment.answer {
            Answer::Added | Answer::Replaced => {
                self.held.insert(update.account, update.total);
            }
            Answer::Removed => {
                self.held.remove(&update.account);
            }
            Answer::Posted(total) => {
                self.held.insert(update.account, total);
            }
            _ => {}
        }
        let held: Vec<String> = self
            .held
            .iter()
            .map(|(a, t)| format!("{a} = {t}"))
            .collect();
        let held = or_nothing(&held);
        self.moments.push(format!(
            "moment {} {}: {}\nat entry {}, of worker {}\nthe plain table then holds {held}",
            self.numbered,
            name(update.kind, update.account, update.total),
            answer_words(moment.answer),
            self.places,
            moment.worker
        ));
    }
}

/// An answer with its steps, and the check that answers after so many: none after a lookup's two.
fn end(n: u64, output: &str) -> String {
    let (answer, steps) = output.rsplit_once(' ').expect("steps");
    let figures = [2 * n + 11, 6 * n + 17, 8 * n + 27, 12 * n + 33];
    let place = figures.iter().position(|due| due.to_string() == steps);
    let check = place.map_or(String::new(), |place| format!(", check {}", place + 1));
    format!("{answer}, {steps} steps{check}")
}

fn or_nothing(items: &[String]) -> String {
    match items.is_empty() {
        true => "nothing".to_string(),
        false => items.join(", "),
    }
}

/// The buckets of the current directory, each once.
fn buckets(machine: &Machine) -> u64 {
    let mut all: Vec<_> = machine.directory.entries.iter().map(Rc::as_ptr).collect();
    all.dedup();
    all.len() as u64
}

fn name(kind: Kind, account: u32, total: i64) -> String {
    match kind {
        Kind::Insert => format!("insert {account} = {total}"),
        Kind::Delete => format!("delete {account}"),
        Kind::Lookup => format!("lookup {account}"),
        Kind::Post if total < 0 => format!("post {account} - {}", total.unsigned_abs()),
        Kind::Post => format!("post {account} + {total}"),
    }
}
