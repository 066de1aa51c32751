//! The overtaking style of random orders: whom to park, whom to hurry, which accounts to fill, so
//! that updates are overtaken by splits and answered only by the third or fourth check. The crowding
//! style: whom to park, so that new accounts find their bucket full at depth M, and room comes and
//! goes before they are answered.

use crate::machine::Machine;
use crate::moments::is_done;
use crate::records::Kind;
use crate::task::{Position, Task};
use std::rc::Rc;

fn task(machine: &Machine, w: usize) -> Option<&Task> {
    machine.workers[w].task.as_ref()
}

fn others(machine: &Machine, w: usize) -> impl Iterator<Item = &Task> {
    let workers = machine.workers.iter().enumerate();
    workers.filter_map(move |(v, other)| other.task.as_ref().filter(|_| v != w))
}

/// About to swap a directory, and the one that was read is current.
fn is_about_to_swap(machine: &Machine, task: &Task) -> bool {
    task.next == Position::SwapDirectory
        && task.working.is_some()
        && Rc::ptr_eq(task.directory(), &machine.directory)
}

/// In the second pass with an update that is not done, in a bucket below depth M.
fn is_late(machine: &Machine, w: usize) -> bool {
    task(machine, w).is_some_and(|task| {
        let leaf = machine.directory.bucket(task.operation.account);
        let below = leaf.depth < machine.settings.greatest_depth;
        task.is_update() && task.checks >= 2 && below && !is_done(machine, w, &task.operation)
    })
}

fn is_full(machine: &Machine, account: u32) -> bool {
    let leaf = machine.directory.bucket(account);
    let full = leaf.state.borrow().is_full(machine.settings.bucket_size);
    full
}

/// Late with a full bucket: to be hurried before others split that bucket.
pub fn is_urgent(machine: &Machine, w: usize) -> bool {
    let full = |task: &Task| is_full(machine, task.operation.account);
    is_late(machine, w) && task(machine, w).is_some_and(full)
}

/// Accounts of late updates whose bucket is not full yet.
pub fn accounts_to_overtake(machine: &Machine) -> Vec<u32> {
    let late = (0..machine.settings.workers).filter(|w| is_late(machine, *w));
    let accounts = late.filter_map(|w| task(machine, w).map(|task| task.operation.account));
    accounts
        .filter(|account| !is_full(machine, *account))
        .collect()
}

/// Whether this worker is parked for now.
pub fn is_held_back(machine: &Machine, w: usize) -> bool {
    let Some(task) = task(machine, w) else {
        return false;
    };
    let leaf = machine.directory.bucket(task.operation.account);
    let full = is_full(machine, task.operation.account);
    let below = leaf.depth < machine.settings.greatest_depth;
    match task.next {
        Position::SwapDirectory if is_about_to_swap(machine, task) => {
            waits_to_swap(machine, w, task)
        }
        Position::ResizeDirectory => others(machine, w)
            .any(|p| is_about_to_swap(machine, p) && splits_unseen(p, w, Some(task))),
        // Before the second bucket pass: let others fill the bucket first.
        Position::Flip | Position::ReadDirectory if task.checks == 2 => !full && below,
        // A post that is announced and not flipped: let another worker's split carry it out.
        Position::ReadDirectory if task.operation.kind == Kind::Post && task.checks == 0 => {
            full && below && w >= 1
        }
        // A lookup that holds a bucket about to be split; others must be left to split it.
        Position::LookupState => full && below && w >= 2,
        _ => false,
    }
}

/// The crowding style: whether this worker's new account waits for what others do in its bucket.
/// Worker 0 never waits.
pub fn awaits_neighbours(machine: &Machine, w: usize) -> bool {
    let Some(task) = task(machine, w).filter(|_| w >= 1) else {
        return false;
    };
    let leaf = machine.directory.bucket(task.operation.account);
    let new = leaf.current().creates(&task.operation);
    let full = is_full(machine, task.operation.account);
    let deepest = leaf.depth == machine.settings.greatest_depth;
    match task.next {
        // Announced and not flipped: let a split settle it as crowded, then let others make room.
        Position::ReadDirectory if task.checks == 0 => new && (full || !deepest),
        // Tried: let others make room before it reads its answer.
        Position::CheckDirectory => new && full && deepest,
        // Without an answer, though it was tried: let others take the room again.
        Position::Flip | Position::ReadDirectory if task.checks == 2 => new && !full && deepest,
        _ => false,
    }
}

/// What others have to do for the first account that waits: a delete in its bucket if that is full
/// at depth M, else an insert of an account that it does not hold.
pub fn awaited(machine: &Machine, pool: &[u32]) -> Option<(Kind, Vec<u32>)> {
    let mut all = 0..machine.settings.workers;
    let w = all.find(|w| awaits_neighbours(machine, *w))?;
    let account = task(machine, w)?.operation.account;
    let leaf = machine.directory.bucket(account);
    let state = leaf.current();
    if is_full(machine, account) && leaf.depth == machine.settings.greatest_depth {
        let held = state.items.iter().map(|item| item.0).collect();
        return Some((Kind::Delete, held));
    }
    let others = pool.iter().filter(|other| **other != account);
    let new = others.filter(|other| leaf.covers(**other) && state.find(**other).is_none());
    Some((Kind::Insert, new.copied().collect()))
}

/// A late update lets another directory swap go first; that one waits until the late update is
/// about to swap too. A split waits until another update has missed it.
fn waits_to_swap(machine: &Machine, w: usize, task: &Task) -> bool {
    if is_late(machine, w) && task.round == 0 {
        return others(machine, w).any(|p| is_about_to_swap(machine, p));
    }
    let all = 0..machine.settings.workers;
    let late: Vec<usize> = all
        .clone()
        .filter(|v| *v != w && is_late(machine, *v))
        .collect();
    if !late.is_empty() {
        let swaps = |v: &usize| self::task(machine, *v).is_some_and(|t| t.checks == 3);
        let about = |v: &usize| others_swap(machine, *v);
        return !late.iter().any(|v| swaps(v) && about(v));
    }
    if others(machine, w).any(|p| is_about_to_swap(machine, p) && splits_unseen(p, w, Some(task))) {
        return true;
    }
    let missed = |v: usize| v != w && splits_unseen(task, v, self::task(machine, v));
    has_split(task) && !all.into_iter().any(missed)
}

fn others_swap(machine: &Machine, v: usize) -> bool {
    task(machine, v).is_some_and(|task| is_about_to_swap(machine, task))
}

fn has_split(task: &Task) -> bool {
    let working = task.working.as_ref();
    working.is_some_and(|working| !working.made.is_empty())
}

/// Whether worker v is past its first check with an update in a bucket that p splits, and p has
/// not seen that update.
fn splits_unseen(p: &Task, v: usize, other: Option<&Task>) -> bool {
    let Some(other) = other.filter(|other| other.is_update() && other.checks == 1) else {
        return false;
    };
    let unseen = p.slots[v] != Some(other.operation);
    let working = p.working.as_ref();
    unseen && working.is_some_and(|w| w.is_made(w.bucket(other.operation.account)))
}
