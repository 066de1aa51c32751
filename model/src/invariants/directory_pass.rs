//! The directory pass (W2a to W4, D4) and the fourth check. Pass 1 has checks 1 and 2 to come,
//! pass 2 has checks 3 and 4 to come.

use super::{ensure, every_update, Check, Named, Scene};
use crate::task::{Position, Task};
use std::rc::Rc;

pub const ALL: &[Named] = &[
    ("W2a", w2a),
    ("W2", w2),
    ("W3'", w3_first),
    ("W3", w3),
    ("W4c", w4c),
    ("W4b", w4b),
    ("W4self", w4_self),
    ("W4a", w4a),
    ("W4", w4),
    ("D4", d4),
    ("working copy", working_copy),
    ("fourth check", fourth_check),
];

/// Each directory-fresh worker that has read slot j saw j's update.
fn all_saw(scene: &Scene, j: usize, task: &Task) -> bool {
    let own = Some(task.operation);
    let mut fresh = scene.directory_fresh();
    fresh.all(|(_, p)| p.slots.get(j).is_none_or(|slot| *slot == own))
}

fn all_cover(scene: &Scene, j: usize, task: &Task) -> bool {
    let mut fresh = scene.directory_fresh();
    fresh.all(|(_, p)| scene.covers(p, j, &task.operation))
}

fn in_check(task: &Task) -> bool {
    matches!(task.next, Position::CheckDirectory | Position::CheckState)
}

/// Pass 1, between the first round's directory read and swap: all saw, or directory-fresh.
fn w2a(scene: &Scene) -> Check {
    let at = |task: &Task| task.checks == 1 && task.round == 0 && task.working.is_some();
    every_update(scene, at, |j, task| {
        all_saw(scene, j, task) || scene.is_directory_fresh(task)
    })
}

/// Past that swap, until answered: all saw.
fn w2(scene: &Scene) -> Check {
    let at = |task: &Task| task.checks >= 2 || (task.checks == 1 && task.round == 1);
    every_update(scene, at, |j, task| all_saw(scene, j, task))
}

/// Pass 2's bucket pass past the directory read: the bucket is the leaf, or Done.
fn w3_first(scene: &Scene) -> Check {
    let bucket_pass = |task: &Task| task.in_bucket_rounds() || task.next == Position::Flip;
    let at = |task: &Task| task.checks == 2 && bucket_pass(task);
    every_update(scene, at, |j, task| {
        let leaf = scene.leaf(task.operation.account);
        Rc::ptr_eq(task.own_bucket(), leaf) || scene.is_done(j, &task.operation)
    })
}

/// Pass 2 past the bucket pass: Done, or the leaf is full below depth M.
fn w3(scene: &Scene) -> Check {
    let at = |task: &Task| task.checks == 3 || (task.checks == 2 && in_check(task));
    every_update(scene, at, |j, task| {
        let held_back = scene.is_full_below(scene.leaf(task.operation.account));
        held_back || scene.is_done(j, &task.operation)
    })
}

/// Pass 2's round 1 past the directory read: all cover, or directory-fresh.
fn w4c(scene: &Scene) -> Check {
    let at = |task: &Task| task.checks == 3 && task.round == 0 && task.working.is_some();
    every_update(scene, at, |j, task| {
        all_cover(scene, j, task) || scene.is_directory_fresh(task)
    })
}

/// Pass 2's round 2: all cover.
fn w4b(scene: &Scene) -> Check {
    let at = |task: &Task| task.checks == 3 && task.round == 1 && task.in_directory_rounds();
    every_update(scene, at, |j, task| all_cover(scene, j, task))
}

/// A directory-fresh worker in pass 2 covers itself.
fn w4_self(scene: &Scene) -> Check {
    let at = |task: &Task| task.checks == 3 && scene.is_directory_fresh(task);
    every_update(scene, at, |j, task| scene.covers(task, j, &task.operation))
}

/// Pass 2's round 2 past the directory read: directory-fresh, or Done.
fn w4a(scene: &Scene) -> Check {
    let at = |task: &Task| task.checks == 3 && task.round == 1 && task.working.is_some();
    every_update(scene, at, |j, task| {
        scene.is_done(j, &task.operation) || scene.is_directory_fresh(task)
    })
}

/// After it: Done.
fn w4(scene: &Scene) -> Check {
    let at = |task: &Task| (task.checks == 3 && in_check(task)) || task.checks > 3;
    every_update(scene, at, |j, task| scene.is_done(j, &task.operation))
}

/// What a directory-fresh worker has found full below M is still a leaf, and full: accounts,
/// settled tickets and answers are as it read them.
fn d4(scene: &Scene) -> Check {
    for (p, task) in scene.directory_fresh() {
        let Some(working) = &task.working else {
            continue;
        };
        for (bucket, read) in &working.found {
            let leaf = scene.current.iter().any(|leaf| Rc::ptr_eq(leaf, bucket));
            let now = bucket.current();
            let same = now.items == read.items && now.settled == read.settled;
            ensure(leaf && same && scene.is_full_below(bucket), || {
                format!("worker {p}, bucket {}:{}", bucket.depth, bucket.prefix)
            })?;
        }
    }
    Ok(())
}

/// The working copy is a directory too, and nothing is split while slots are being read.
fn working_copy(scene: &Scene) -> Check {
    for (p, task) in scene.tasks() {
        let Some(working) = &task.working else {
            continue;
        };
        let depth = working.depth;
        for (e, bucket) in working.entries.iter().enumerate() {
            let fits = bucket.depth <= depth && e as u32 >> (depth - bucket.depth) == bucket.prefix;
            ensure(fits, || format!("worker {p}, entry {e}"))?;
        }
        let reading = matches!(task.next, Position::ResizeSlot(_));
        ensure(!reading || working.made.is_empty(), || {
            format!("worker {p}")
        })?;
    }
    Ok(())
}

/// In the fourth check the bucket held has the ticket settled.
fn fourth_check(scene: &Scene) -> Check {
    for (j, task) in scene.updates() {
        ensure(task.checks <= 3, || format!("worker {j} is past it"))?;
        if task.checks == 3 && task.next == Position::CheckState {
            let bucket = task.own_bucket();
            let state = bucket.current();
            let settled = state.is_settled(j, task.operation.ticket);
            ensure(settled, || format!("worker {j}"))?;
        }
    }
    Ok(())
}
