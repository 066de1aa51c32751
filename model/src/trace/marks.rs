//! Marks with labels: the moments, splits, listings and refused lines, and what steps say.

use super::looks::{self, Look};
use super::{words, List, Step};
use crate::totals::answer_words;

/// Width of a column.
pub const COLUMN: i32 = 12;
/// Free space left of the first column and right of the last.
pub const MARGIN: i32 = 10;

/// A mark with a label in one of the lower rows.
pub struct Mark {
    pub x: i32,
    pub look: &'static Look,
    pub text: String,
    pub title: String,
}

/// The middle of a column.
pub fn middle(place: usize) -> i32 {
    MARGIN + place as i32 * COLUMN - COLUMN / 2
}

pub fn step_title(list: &List, step: &Step) -> String {
    let operation = &list.operations[step.operation];
    let mut title = format!(
        "entry {}: step {} of worker {}'s {}\n{}",
        step.place,
        step.number,
        operation.worker,
        words::operation(&operation.update),
        looks::of(step.kind).words
    );
    if !step.note.is_empty() {
        title += &format!("\n{}", step.note);
    }
    if !step.splits.is_empty() {
        title += &format!("\nsplit {}", words::splits(&step.splits));
    }
    title
}

/// Moments at one place stand side by side in their order.
pub fn moment(list: &List, i: usize) -> Mark {
    let effect = &list.effects[i];
    let operation = &list.operations[effect.operation];
    let first = list.effects.partition_point(|e| e.place < effect.place);
    let end = list.effects.partition_point(|e| e.place <= effect.place);
    let apart = (COLUMN - 2) / (end - first) as i32;
    let from_first = (i - first) as i32 * apart;
    let half = (end - first - 1) as i32 * apart / 2;
    let said = format!(
        "{} {}: {}",
        i + 1,
        words::operation(&operation.update),
        answer_words(effect.answer)
    );
    let title = format!(
        "moment {said}\nat entry {}, of worker {}\nthe plain table then holds {}",
        effect.place,
        operation.worker,
        words::items(&effect.contents)
    );
    Mark {
        x: middle(effect.place) + from_first - half,
        look: &looks::MOMENT,
        text: said,
        title,
    }
}

pub fn splits(list: &List) -> Vec<Mark> {
    let swaps = list.steps.iter();
    let swaps = swaps.filter(|step| step.is_in_force() && !step.splits.is_empty());
    swaps
        .map(|step| Mark {
            x: middle(step.place),
            look: &looks::SPLIT,
            text: format!("split {}", words::splits(&step.splits)),
            title: step_title(list, step),
        })
        .collect()
}

pub fn listings(list: &List) -> Vec<Mark> {
    let each = list.listings.iter();
    each.map(|listing| Mark {
        x: middle(listing.place),
        look: &looks::LISTING,
        text: listing.items.len().to_string(),
        title: format!(
            "entry {}: listing of {}: {}",
            listing.place,
            listing.items.len(),
            words::items(&listing.items)
        ),
    })
    .collect()
}

pub fn refusals(list: &List) -> Vec<Mark> {
    let refused = list.lines.iter().filter(|met| met.is_refused());
    refused
        .map(|met| Mark {
            x: middle(met.first),
            look: match met.is_unread() {
                true => &looks::UNREAD,
                false => &looks::REFUSED,
            },
            text: match met.is_unread() {
                true => String::new(),
                false => met.output.replace("refused ", ""),
            },
            title: format!("line {}: {}\n{}", met.number, met.text, met.output),
        })
        .collect()
}
