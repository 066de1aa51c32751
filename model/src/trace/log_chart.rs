//! The chart of a log: a column for each position, a row per worker with its operations as bars, and
//! the row of the plain table with the order found. An operation takes effect in it as early as its
//! call and the operations before it allow.

use super::drawn::{frame, mark, rules, text};
use super::labels::{escape, width, Levels};
use super::looks::MOMENT;
use super::words;
use crate::judging::{feed, table};
use crate::log::{Log, Logged};
use crate::plain::Plain;
use crate::records::{Kind, Update};
use std::collections::BTreeSet;

/// Width of the rows' names at least.
const NAMES: i32 = 92;
const MARGIN: i32 = 10;
const BAR: i32 = 26;
/// Height of a level of labels.
const LEVEL: i32 = 15;
const UNDER: i32 = 12;
/// Width of a column at least, and between two moments.
const COLUMN: i32 = 48;
const APART: i32 = 12;

/// The chart under way: what is drawn lies under the bars, in the rows, or over all.
struct Chart<'a> {
    log: &'a Log,
    /// All positions, ascending: one a column.
    positions: Vec<u64>,
    column: i32,
    /// Width of the rows' names.
    beside: i32,
    under: String,
    rows: String,
    over: String,
    names: String,
    /// Where the next row starts, and where the others end.
    y: i32,
    rules: Vec<i32>,
    right: i32,
    /// Per place the lower edge of its bar.
    bars: Vec<i32>,
}

/// The operation at a place with its answer.
pub fn said(one: &Logged) -> String {
    let kind = Kind::of(one.kind).expect("a good log");
    let operation = words::operation(&Update {
        kind,
        account: one.account,
        total: one.total,
        ticket: 0,
    });
    match one.answer.has_total() {
        true => format!("{operation}: {} {}", one.answer.name(), one.answer_total),
        false => format!("{operation}: {}", one.answer.name()),
    }
}

/// What is said of the i-th operation of an order, after which the table is this.
fn title(i: usize, words: &str, table: &Plain) -> String {
    let held: Vec<(u32, i64)> = table.accounts.iter().map(|(a, t)| (*a, *t)).collect();
    let held = words::items(&held);
    let number = i + 1;
    format!("{number}. of the order: place {words}\nthe plain table then holds {held}")
}

fn name(worker: u64) -> String {
    format!("worker {worker}")
}

/// The chart of a good log as an element, with its order if there is one.
pub fn chart(log: &Log, order: Option<&[usize]>) -> String {
    let mut chart = Chart::new(log);
    let gaps = order.map(|order| chart.gaps(order));
    chart.measure(gaps.as_deref().unwrap_or(&[]));
    chart.axis();
    for worker in workers(log) {
        chart.worker(worker);
    }
    if let (Some(order), Some(gaps)) = (order, gaps) {
        chart.order(order, &gaps);
    }
    chart.element()
}

/// The workers of a log, ascending.
pub fn workers(log: &Log) -> BTreeSet<u64> {
    log.operations.iter().map(|one| one.worker).collect()
}

impl<'a> Chart<'a> {
    fn new(log: &'a Log) -> Chart<'a> {
        let all = &log.operations;
        let mut positions: Vec<u64> = all.iter().flat_map(|one| [one.call, one.end]).collect();
        positions.sort_unstable();
        let names = workers(log).into_iter().map(|worker| width(&name(worker)));
        Chart {
            log,
            positions,
            column: 0,
            beside: NAMES.max(names.max().unwrap_or(0) + 2 * MARGIN),
            under: String::new(),
            rows: String::new(),
            over: String::new(),
            names: String::new(),
            y: 0,
            rules: Vec::new(),
            right: 0,
            bars: vec![0; all.len()],
        }
    }

    fn rank(&self, position: u64) -> usize {
        self.positions.partition_point(|other| *other < position)
    }

    fn x(&self, rank: usize) -> i32 {
        MARGIN + self.column / 2 + rank as i32 * self.column
    }

    /// For each operation in its order the column after which it takes effect.
    fn gaps(&self, order: &[usize]) -> Vec<usize> {
        let mut last = 0;
        let mut gap = |place: &usize| {
            last = last.max(self.rank(self.log.operations[*place].call));
            last
        };
        order.iter().map(&mut gap).collect()
    }

    /// Columns as wide as the longest position and the most moments between two of them.
    fn measure(&mut self, gaps: &[usize]) {
        let longest = self.positions.iter().map(|one| width(&one.to_string()));
        let most = gaps
            .iter()
            .map(|gap| gaps.iter().filter(|other| *other == gap).count());
        let moments = APART * (most.max().unwrap_or(0) as i32 + 1);
        self.column = COLUMN.max(moments).max(longest.max().unwrap_or(0) + APART);
        self.right = MARGIN + self.column * self.positions.len().max(1) as i32;
    }

    /// Ends a row of so much height under its name.
    fn end_row(&mut self, name: &str, name_y: i32, height: i32) {
        self.names += &text("name", self.beside - 8, name_y, name);
        self.y += height;
        self.rules.push(self.y);
    }

    fn axis(&mut self) {
        for (rank, position) in self.positions.iter().enumerate() {
            self.over += &text("number", self.x(rank), 13, &position.to_string());
        }
        self.end_row("position", 13, 18);
    }

    fn worker(&mut self, worker: u64) {
        let all = &self.log.operations;
        let own = (0..all.len()).filter(|place| all[*place].worker == worker);
        let mut own: Vec<usize> = own.collect();
        own.sort_by_key(|place| all[*place].call);
        let mut levels = Levels::default();
        let label = |place: &usize| format!("{place} {}", said(&all[*place]));
        let left = |place: usize| self.x(self.rank(all[place].call));
        let mut put =
            |place: &usize| levels.place(left(*place), left(*place) + width(&label(place)));
        let at: Vec<i32> = own.iter().map(&mut put).collect();
        let top = self.y + 8 + levels.count() * LEVEL;
        self.right = self.right.max(levels.rightmost());
        self.rows += "<g class=\"worker\">\n";
        for (place, level) in own.iter().zip(at) {
            self.bar(*place, &label(place), top, level);
        }
        self.rows += "</g>\n";
        let height = top + BAR + UNDER - self.y;
        self.end_row(&name(worker), top + BAR / 2 + 4, height);
    }

    fn bar(&mut self, place: usize, label: &str, top: i32, level: i32) {
        let one = &self.log.operations[place];
        let (left, right) = (self.x(self.rank(one.call)), self.x(self.rank(one.end)));
        let (bottom, y) = (top + BAR, top - 5 - level * LEVEL);
        let title = escape(&format!(
            "place {place}, worker {}: {}\ncalled at {}, answered at {}",
            one.worker,
            said(one),
            one.call,
            one.end
        ));
        self.rows += &format!(
            "<g class=\"operation\"><title>{title}</title>\
             <path class=\"bar\" d=\"M{right},{top}H{left}V{bottom}H{right}Z\"/>\
             <path class=\"call\" d=\"M{left},{top}V{bottom}\"/></g>\n"
        );
        if level > 0 {
            self.rows += &format!("<path class=\"leader\" d=\"M{left},{y}V{top}\"/>\n");
        }
        self.over += &text("label", left, y, label);
        self.bars[place] = bottom;
    }

    /// Where a moment stands: those after one column share the way to the next.
    fn moment(&self, gaps: &[usize], i: usize) -> i32 {
        let same = |gaps: &[usize], gap| gaps.iter().filter(|other| **other == gap).count() as i32;
        let (inside, before) = (same(gaps, gaps[i]), same(&gaps[..i], gaps[i]));
        self.x(gaps[i]) + self.column * (before + 1) / (inside + 1)
    }

    /// The row of the plain table, each operation joined to its bar.
    fn order(&mut self, order: &[usize], gaps: &[usize]) {
        let mut levels = Levels::default();
        let mut table = table(self.log).expect("a good log");
        let first = self.y + LEVEL;
        self.over += "<g class=\"moments\">\n";
        for (i, place) in order.iter().enumerate() {
            let told = feed(self.log, &mut table, *place);
            assert!(told, "the order explains the log");
            let words = format!("{place} {}", said(&self.log.operations[*place]));
            let title = title(i, &words, &table);
            let x = self.moment(gaps, i);
            let y = first + LEVEL * levels.place(x - 6, x + 8 + width(&words)) - 4;
            let bar = self.bars[*place];
            self.under += &format!("<path class=\"join\" d=\"M{x},{bar}V{y}\"/>\n");
            self.over += &mark(&MOMENT, "moment", x, y, &title);
            self.over += &mark(&MOMENT, "effect", x, bar, &title);
            self.over += &text("label", x + 8, y + 4, &words);
        }
        self.over += "</g>\n";
        self.right = self.right.max(levels.rightmost());
        self.end_row("plain table", first, levels.count() * LEVEL + 8);
    }

    fn element(self) -> String {
        let (height, wide) = (self.y + 1, self.right + MARGIN);
        let line = |rank: usize| {
            format!(
                "<path class=\"grid\" d=\"M{},18V{height}\"/>\n",
                self.x(rank)
            )
        };
        let grid: String = (0..self.positions.len()).map(line).collect();
        let rules = rules(&self.rules, wide);
        let drawn = [grid, rules, self.under, self.rows, self.over].concat();
        frame(
            &self.rules,
            (self.beside, &self.names),
            (wide, &drawn),
            height,
        )
    }
}
