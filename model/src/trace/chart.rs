//! The chart of one list: a row per worker, and rows for the plain table, the directory,
//! listings and refused lines. A column is a place of the list.

use super::drawn::{frame, mark, rules, text};
use super::labels::{escape, width, Levels};
use super::looks;
use super::marks::{self, middle, Mark, COLUMN, MARGIN};
use super::{words, List, Operation};

/// Width of the rows' names.
const NAMES: i32 = 92;
const BAR: i32 = 26;
/// Height of a level of labels.
const LEVEL: i32 = 15;
/// Height under a bar: for the marks of moments, and for a bracket with its label.
const UNDER: i32 = 12;
const BRACKET: i32 = 10;
/// How far an answer ends before its bar.
const INSET: i32 = 8;
const SECOND_PASS: &str = "second pass";
/// Places between two numbers of the axis.
const NUMBERED: usize = 10;

/// The chart under way: what is drawn lies under bars, in the rows, or over all.
struct Chart<'a> {
    list: &'a List,
    under: String,
    rows: String,
    over: String,
    names: String,
    /// Where the next row starts.
    y: i32,
    /// Where the rows end.
    rules: Vec<i32>,
    right: i32,
    /// Per worker the lower edge of its bars.
    bars: Vec<i32>,
}

/// An operation with its place in its worker's row.
struct Bar<'a> {
    operation: &'a Operation,
    left: i32,
    right: i32,
    level: i32,
    /// Its labels: the operation, and the answer where the bar has room for it at its end.
    name: String,
    end: Option<String>,
}

/// The chart as an element, its names beside what scrolls.
pub fn chart(list: &List) -> String {
    let mut chart = Chart {
        list,
        under: String::new(),
        rows: String::new(),
        over: String::new(),
        names: String::new(),
        y: 0,
        rules: Vec::new(),
        right: right(list.places),
        bars: Vec::new(),
    };
    chart.axis();
    chart.lines();
    let workers = list.opening.map_or(0, |(_, settings)| settings.workers);
    for worker in 0..workers {
        chart.worker(worker);
    }
    if workers > 0 {
        chart.moments();
        chart.mark_row("directory", "splits", &marks::splits(list));
        chart.mark_row("listings", "listings", &marks::listings(list));
    }
    chart.mark_row("refused", "refusals", &marks::refusals(list));
    chart.element()
}

fn left(place: usize) -> i32 {
    middle(place) - COLUMN / 2
}

fn right(place: usize) -> i32 {
    middle(place) + COLUMN / 2
}

impl Chart<'_> {
    /// Ends a row of so much height under its name.
    fn end_row(&mut self, name: &str, name_y: i32, height: i32) {
        self.names += &text("name", NAMES - 8, name_y, name);
        self.y += height;
        self.rules.push(self.y);
    }

    fn axis(&mut self) {
        for place in (NUMBERED..=self.list.places).step_by(NUMBERED) {
            self.over += &text("number", middle(place), 13, &place.to_string());
        }
        self.end_row("entry", 13, 18);
    }

    fn lines(&mut self) {
        let top = self.y + 3;
        for (i, met) in self.list.lines.iter().enumerate() {
            let (x, end) = (left(met.first), right(met.last));
            let parity = ["even", "odd"][i % 2];
            let said = format!("line {}: {}\n{}", met.number, met.text, met.output);
            self.rows += &format!(
                "<rect class=\"line {parity}\" x=\"{x}\" y=\"{top}\" width=\"{}\" height=\"16\">\
                 <title>{}</title></rect>\n",
                end - x,
                escape(&said)
            );
            // The whole line where it fits, else its letter.
            let letters = match width(&met.text) + 4 <= end - x {
                true => met.text.len(),
                false => 1,
            };
            if !met.is_unread() {
                self.over += &text("input", x + 3, top + 12, &met.text[..letters]);
            }
        }
        self.end_row("input line", top + 12, 22);
    }

    fn worker(&mut self, worker: usize) {
        let mut levels = Levels::default();
        let operations = self.list.operations.iter();
        let own = operations.filter(|operation| operation.worker == worker);
        let bars: Vec<Bar> = own.map(|own| self.bar(own, &mut levels)).collect();
        let top = self.y + 8 + levels.count() * LEVEL;
        self.right = self.right.max(levels.rightmost());
        self.rows += "<g class=\"worker\">\n";
        for bar in &bars {
            self.draw_bar(bar, top);
        }
        let steps = self.list.steps.iter();
        for step in steps.filter(|step| self.list.operations[step.operation].worker == worker) {
            let look = looks::of(step.kind);
            let class = format!("step {}", look.id);
            let title = marks::step_title(self.list, step);
            self.rows += &mark(look, &class, middle(step.place), top + BAR / 2, &title);
        }
        self.rows += "</g>\n";
        let bottom = top + BAR;
        self.bars.push(bottom);
        let under = UNDER + self.second_passes(&bars, bottom);
        let name = format!("worker {worker}");
        self.end_row(&name, top + BAR / 2 + 4, bottom + under - self.y);
    }

    fn bar<'a>(&self, operation: &'a Operation, levels: &mut Levels) -> Bar<'a> {
        let last = operation.steps.last().copied().unwrap_or(operation.call);
        let left = left(operation.call) + 1;
        let right = match operation.answer {
            Some(_) => right(last) - 1,
            None => right(self.list.places),
        };
        let name = words::operation(&operation.update);
        let end = words::end(operation);
        let both = width(&name) + width(&end) + INSET + 2 * COLUMN;
        let (name, end, until) = match both <= right - left {
            true => (name, Some(end), right - INSET),
            false => {
                let name = format!("{name}: {end}");
                let until = left + width(&name);
                (name, None, until)
            }
        };
        Bar {
            operation,
            left,
            right,
            level: levels.place(left, until),
            name,
            end,
        }
    }

    fn draw_bar(&mut self, bar: &Bar, top: i32) {
        let Bar { left, right, .. } = *bar;
        let bottom = top + BAR;
        let open = match bar.operation.answer {
            Some(_) => "Z",
            None => "",
        };
        let title = match &bar.end {
            Some(end) => escape(&format!("{}: {end}", bar.name)),
            None => escape(&bar.name),
        };
        self.rows += &format!(
            "<g class=\"operation\"><title>{title}</title>\
             <path class=\"bar\" d=\"M{right},{top}H{left}V{bottom}H{right}{open}\"/>\
             <path class=\"call\" d=\"M{left},{top}V{bottom}\"/></g>\n"
        );
        self.parked(bar.operation, top);
        let y = top - 5 - bar.level * LEVEL;
        if bar.level > 0 {
            self.rows += &format!("<path class=\"leader\" d=\"M{left},{y}V{top}\"/>\n");
        }
        self.over += &text("label", left, y, &bar.name);
        if let Some(end) = &bar.end {
            self.over += &text("label end", right - INSET, y, end);
        }
    }

    /// The second passes of a row, each a bracket under its part of the bar; answers their height.
    fn second_passes(&mut self, bars: &[Bar], bottom: i32) -> i32 {
        let (_, settings) = self.list.opening.expect("a worker's list has an opening");
        let first_pass = settings.check_steps()[1] as usize;
        let mut height = 0;
        for bar in bars {
            let Some(start) = bar.operation.steps.get(first_pass) else {
                continue;
            };
            let (x, y, end) = (left(*start) + 1, bottom + 6, bar.right);
            let down = y - 3;
            self.rows += &format!("<path class=\"bracket\" d=\"M{x},{down}V{y}H{end}V{down}\"/>\n");
            self.over += &text("label", x, y + 11, SECOND_PASS);
            self.right = self.right.max(x + width(SECOND_PASS));
            height = BRACKET;
        }
        height
    }

    /// The stretches of an operation's bar in which other workers' entries stand.
    fn parked(&mut self, operation: &Operation, top: i32) {
        let mut before = operation.call;
        let open = match operation.answer {
            Some(_) => None,
            None => Some(self.list.places + 1),
        };
        for next in operation.steps.iter().copied().chain(open) {
            let entries = next - before - 1;
            let (x, middle) = (right(before), top + BAR / 2);
            if entries > 0 {
                self.rows += &format!(
                    "<g class=\"parked\"><title>worker {} is parked: {entries} entries</title>\
                     <rect x=\"{x}\" y=\"{}\" width=\"{}\" height=\"{}\"/><path d=\"M{x},{middle}H{}\"/></g>\n",
                    operation.worker,
                    top + 1,
                    left(next) - x,
                    BAR - 2,
                    left(next)
                );
            }
            before = next;
        }
    }

    /// The row of the plain table, each moment joined to its operation's bar.
    fn moments(&mut self) {
        let marks: Vec<Mark> = (0..self.list.effects.len())
            .map(|i| marks::moment(self.list, i))
            .collect();
        let placed = self.mark_row("plain table", "moments", &marks);
        for ((effect, mark_there), (x, y)) in self.list.effects.iter().zip(&marks).zip(placed) {
            let operation = &self.list.operations[effect.operation];
            let bar = self.bars[operation.worker];
            self.under += &format!("<path class=\"join\" d=\"M{x},{bar}V{y}\"/>\n");
            self.over += &mark(&looks::MOMENT, "effect", x, bar, &mark_there.title);
        }
    }

    /// A row of marks with labels; answers where each mark stands.
    fn mark_row(&mut self, name: &str, class: &str, marks: &[Mark]) -> Vec<(i32, i32)> {
        let mut levels = Levels::default();
        let mut placed = Vec::new();
        let first = self.y + LEVEL;
        self.over += &format!("<g class=\"{class}\">\n");
        for one in marks {
            let end = one.x + 8 + width(&one.text);
            let y = first + LEVEL * levels.place(one.x - 6, end) - 4;
            self.over += &mark(one.look, one.look.id, one.x, y, &one.title);
            if !one.text.is_empty() {
                self.over += &text("label", one.x + 8, y + 4, &one.text);
            }
            placed.push((one.x, y));
        }
        self.over += "</g>\n";
        self.right = self.right.max(levels.rightmost());
        self.end_row(name, first, levels.count() * LEVEL + 8);
        placed
    }

    fn element(self) -> String {
        let (height, wide) = (self.y + 1, self.right + MARGIN);
        let rules = rules(&self.rules, wide);
        let mut grid = String::new();
        for place in (NUMBERED..=self.list.places).step_by(NUMBERED) {
            let x = middle(place);
            grid += &format!("<path class=\"grid\" d=\"M{x},18V{height}\"/>\n");
        }
        let drawn = [grid, rules, self.under, self.rows, self.over].concat();
        frame(&self.rules, (NAMES, &self.names), (wide, &drawn), height)
    }
}
