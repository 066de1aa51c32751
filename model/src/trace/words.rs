//! What the page says of an operation, a bucket, a line or a step.

use super::leaf::{leaves, Leaf, Split};
use super::Operation;
use crate::machine::Machine;
use crate::places::place;
use crate::records::{Bucket, Directory, Kind, Update};
use crate::task::{StepKind, Task};
use crate::totals::{answer_words, LONGEST};
use std::rc::Rc;

/// A line's bytes as printable text; what no line can hold is cut.
pub fn line(bytes: &[u8]) -> String {
    let kept = &bytes[..bytes.len().min(LONGEST)];
    let rest = if bytes.len() > LONGEST { " ..." } else { "" };
    format!("{}{rest}", kept.escape_ascii())
}

pub fn operation(update: &Update) -> String {
    match update.kind {
        Kind::Insert => format!("insert {} = {}", update.account, update.total),
        Kind::Delete => format!("delete {}", update.account),
        Kind::Lookup => format!("lookup {}", update.account),
        Kind::Post => format!("post {} {}", update.account, amount(update.total)),
    }
}

/// An amount with its sign, as it is added to a total.
fn amount(amount: i64) -> String {
    let sign = if amount < 0 { '-' } else { '+' };
    format!("{sign} {}", amount.unsigned_abs())
}

/// How an operation ended: its answer, its steps and, of an update, the check that answered.
pub fn end(operation: &Operation) -> String {
    let steps = match operation.steps.len() {
        1 => "1 step".to_string(),
        steps => format!("{steps} steps"),
    };
    match operation.answer {
        None => format!("no answer, {steps}"),
        Some((answer, 0)) => format!("{}, {steps}", answer_words(answer)),
        Some((answer, check)) => format!("{}, {steps}, check {check}", answer_words(answer)),
    }
}

/// A bucket by the first bits of its accounts' places; the star stands for the others.
pub fn leaf(leaf: &Leaf) -> String {
    match leaf.depth {
        0 => "*".to_string(),
        depth => format!("{:0width$b}*", leaf.prefix, width = depth as usize),
    }
}

fn all_leaves(all: &[Leaf]) -> String {
    let names: Vec<String> = all.iter().map(leaf).collect();
    names.join(", ")
}

pub fn splits(all: &[Split]) -> String {
    let one = |split: &Split| format!("{} into {}", leaf(&split.old), all_leaves(&split.into));
    let each: Vec<String> = all.iter().map(one).collect();
    each.join("; ")
}

pub fn items(items: &[(u32, i64)]) -> String {
    joined(items, |(account, total)| format!("{account} = {total}"))
}

/// The same, each with its account's place.
fn placed_items(items: &[(u32, i64)]) -> String {
    let place_of = |(account, total)| format!("{account} = {total} (place {})", place(account));
    joined(items, place_of)
}

/// Ascending by account, with commas.
fn joined(items: &[(u32, i64)], words: impl Fn((u32, i64)) -> String) -> String {
    if items.is_empty() {
        return "nothing".to_string();
    }
    let mut sorted = items.to_vec();
    sorted.sort_unstable();
    let each: Vec<String> = sorted.into_iter().map(words).collect();
    each.join(", ")
}

fn directory(directory: &Directory) -> String {
    let all = leaves(&directory.entries);
    format!("depth {}, buckets {}", directory.depth, all_leaves(&all))
}

fn name(bucket: &Bucket) -> String {
    leaf(&Leaf::of(bucket))
}

fn state(bucket: &Bucket) -> String {
    format!(
        "bucket {}: {}",
        name(bucket),
        placed_items(&bucket.current().items)
    )
}

/// The state of a bucket, and whether it is still that account's bucket.
fn held_state(bucket: &Rc<Bucket>, machine: &Machine, account: u32) -> String {
    let current = Rc::ptr_eq(bucket, machine.directory.bucket(account));
    let gone = if current { "" } else { " (split since)" };
    format!("{}{gone}", state(bucket))
}

fn toggle(bucket: &Bucket) -> String {
    let bits: String = bucket
        .toggle
        .borrow()
        .iter()
        .map(|bit| if *bit { '1' } else { '0' })
        .collect();
    format!("bucket {}: toggle {bits}, worker 0 first", name(bucket))
}

fn slot(machine: &Machine, i: usize) -> String {
    match &machine.slots[i] {
        None => format!("slot {i}: empty"),
        Some(update) => {
            let words = operation(update);
            format!("slot {i}: {words}, ticket {}", update.ticket)
        }
    }
}

/// The bucket whose state a state step read.
fn state_step(before: &Task, slot: usize) -> String {
    let working = before.working.as_ref();
    let update = before.slots[slot];
    match (working, update) {
        (Some(working), Some(update)) => {
            let read = state(working.bucket(update.account));
            format!("for slot {slot}, {read}")
        }
        _ => format!("for slot {slot}"),
    }
}

/// What a step read or changed, from its task before it and the machine after it.
pub fn note(before: &Task, machine: &Machine, worker: usize, kind: StepKind) -> String {
    let account = before.operation.account;
    let now = machine.workers[worker].task.as_ref().unwrap_or(before);
    match kind {
        StepKind::Announce => slot(machine, worker),
        StepKind::ReadSlot(i) | StepKind::ResizeSlot(i) => slot(machine, i),
        StepKind::LookupDirectory
        | StepKind::ReadDirectory
        | StepKind::CheckDirectory { .. }
        | StepKind::ResizeDirectory
        | StepKind::SwapDirectory { succeeded: true } => directory(&machine.directory),
        StepKind::LookupState | StepKind::CheckState { .. } => {
            held_state(before.own_bucket(), machine, account)
        }
        StepKind::ReadState | StepKind::SwapState { succeeded: true } => {
            held_state(now.pass_bucket(), machine, account)
        }
        StepKind::Flip | StepKind::ReadToggle => toggle(now.pass_bucket()),
        StepKind::SwapState { succeeded: false } => "another state is current".to_string(),
        StepKind::SwapDirectory { succeeded: false } => "another directory is current".to_string(),
        StepKind::ResizeState {
            slot, read: true, ..
        } => state_step(before, slot),
        StepKind::ResizeState { slot, .. } => format!("for slot {slot}"),
        StepKind::Nothing => String::new(),
    }
}
