//! The page: title, counts, a chart per list, and the legend. It is strict in its tags, loads
//! nothing and has no script; what a mark means is its hover text.

use super::chart::chart;
use super::labels::escape;
use super::looks::{Look, OTHERS, STEPS};
use super::{List, Step};
use crate::task::StepKind;

const STYLE: &str = "
:root { color-scheme: light; }
body { margin: 16px; background: #fff; color: #222; font: 14px sans-serif; }
h1 { font-size: 20px; margin: 0 0 8px; }
h2 { font-size: 16px; margin: 16px 0 4px; }
p { margin: 0 0 8px; }
.notes { margin: 8px 0 0; font-size: 12px; max-width: 1200px; }
.chart { display: flex; border: 1px solid #bbb; width: fit-content; max-width: 100%; box-sizing: border-box; }
.chart svg { display: block; font: 11px monospace; }
.names { flex: none; border-right: 1px solid #bbb; }
.scroll { overflow-x: auto; }
.shapes { position: absolute; width: 0; height: 0; }
text { fill: #222; paint-order: stroke; stroke: #fff; stroke-width: 4px; stroke-linejoin: round; }
.name, .end { text-anchor: end; }
.number { text-anchor: middle; fill: #666; }
.input { fill: #444; stroke: none; }
.line { stroke: #bbb; }
.even { fill: #eee; }
.odd { fill: #fff; }
.cell { fill: none; pointer-events: all; }
.rule { stroke: #ccc; }
.grid { stroke: #eee; }
.bar { fill: #eaeae2; stroke: #555; }
.call { stroke: #222; stroke-width: 3px; }
.bracket { fill: none; stroke: #555; }
.leader { stroke: #999; stroke-dasharray: 1 2; }
.parked rect { fill: #fff; }
.parked path { stroke: #999; stroke-dasharray: 2 4; }
.join { stroke: #000; stroke-width: 1px; stroke-dasharray: 4 2; opacity: .6; }
ul { list-style: none; display: flex; flex-wrap: wrap; gap: 4px 20px; margin: 0; padding: 0; font-size: 12px; \
max-width: 1200px; }
li { display: flex; align-items: center; gap: 5px; }
";

/// The page of a recorded run under this title.
pub fn page(title: &str, lists: &[List]) -> String {
    let sections: String = lists.iter().map(section).collect();
    let looks: Vec<&Look> = STEPS.iter().chain(&OTHERS).copied().collect();
    let legend = legend();
    whole(title, &looks, &format!("{sections}{legend}"))
}

/// A page under this title, with the shapes that it uses.
pub fn whole(title: &str, looks: &[&Look], body: &str) -> String {
    let title = escape(title);
    let shapes: String = looks.iter().map(|look| shape(look)).collect();
    format!(
        "<!DOCTYPE html>\n<html lang=\"en\">\n<head>\n<meta charset=\"utf-8\"/>\n<title>{title}</title>\n\
         <style>{STYLE}</style>\n</head>\n<body>\n<svg class=\"shapes\"><defs>\n{shapes}</defs></svg>\n\
         <h1>{title}</h1>\n{body}</body>\n</html>\n"
    )
}

/// A shape by its name, with a cell around it that can be pointed at.
fn shape(look: &Look) -> String {
    let (id, shape) = (look.id, look.shape);
    format!("<g id=\"{id}\"><path class=\"cell\" d=\"M-6,-11H6V11H-6Z\"/>{shape}</g>\n")
}

fn section(list: &List) -> String {
    let head = match list.opening {
        None => "Before any opening".to_string(),
        Some((line, set)) => format!(
            "List opened by line {line}: n {}, b {}, M {}",
            set.workers, set.bucket_size, set.greatest_depth
        ),
    };
    let counts = counts(list);
    let chart = chart(list);
    format!("<section>\n<h2>{head}</h2>\n<p class=\"counts\">{counts}</p>\n{chart}</section>\n")
}

/// One line: how many of each there are.
fn counts(list: &List) -> String {
    let made = |kind: StepKind| list.steps.iter().filter(|step| step.kind == kind).count();
    let splits = |in_force: bool| -> usize {
        let steps = list.steps.iter();
        let those = steps.filter(|step: &&Step| step.is_in_force() == in_force);
        let new = those.flat_map(|step| &step.splits);
        new.map(|split| split.into.len() - 1).sum()
    };
    let unread = list.lines.iter().filter(|met| met.is_unread()).count();
    let refused = list.lines.iter().filter(|met| met.is_refused()).count() - unread;
    format!(
        "workers {}, operations {}, steps {}, moments {}; bucket swaps {} succeeded, {} failed; \
         directory swaps {} succeeded, {} failed; splits {} in the directory, {} in working copies; \
         listings {}, refused {refused}, unread {unread}",
        list.opening.map_or(0, |(_, settings)| settings.workers),
        list.operations.len(),
        list.steps.len(),
        list.effects.len(),
        made(StepKind::SwapState { succeeded: true }),
        made(StepKind::SwapState { succeeded: false }),
        made(StepKind::SwapDirectory { succeeded: true }),
        made(StepKind::SwapDirectory { succeeded: false }),
        splits(true),
        splits(false),
        list.listings.len()
    )
}

/// A mark with its words in the legend.
pub fn key(look: &Look, words: &str) -> String {
    let id = look.id;
    format!("<li><svg width=\"16\" height=\"24\"><use href=\"#{id}\" x=\"8\" y=\"12\"/></svg>{words}</li>\n")
}

fn legend() -> String {
    let steps: String = STEPS.iter().map(|look| key(look, look.words)).collect();
    let others: String = OTHERS.iter().map(|look| key(look, look.words)).collect();
    format!(
        "<h2>Legend</h2>\n<ul>\n{steps}</ul>\n<ul>\n{others}</ul>\n\
         <p class=\"notes\">A bar runs from its call (thick edge) to its answer; \
         its steps stand after the answer and, for an update, which of its four checks answered. \
         A bar without answer is open at its end. A white stretch of a bar: its worker is parked. \
         Time is counted in entries of the list: calls, steps of all workers and listings, the refused ones too; \
         an unread line takes a place as well. \
         A bucket is written as the first bits of its accounts' places and a star. Pointing at a mark shows more.</p>\n"
    )
}
