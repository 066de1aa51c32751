//! The bucket pass (B0 to B3, W0, W1). Toggle is the bucket's toggle, applied its state's bits.

use super::scene::is_fresh;
use super::{ensure, every_update, Check, Named, Scene};
use crate::records::Bucket;
use crate::task::{Position, Task};
use std::rc::Rc;

pub const ALL: &[Named] = &[
    ("B0", b0),
    ("B1", b1),
    ("B3'", b3_first),
    ("B3", b3),
    ("B2", b2),
    ("W0", w0),
    ("W1", w1),
];

fn toggle_bit(bucket: &Bucket, j: usize) -> bool {
    bucket.toggle.borrow()[j]
}

fn applied_bit(bucket: &Bucket, j: usize) -> bool {
    bucket.state.borrow().applied[j]
}

/// A toggle bit differs from its applied bit only if that worker is in rounds there.
fn b0(scene: &Scene) -> Check {
    for bucket in scene.ever() {
        for j in 0..scene.machine.settings.workers {
            let same = toggle_bit(bucket, j) == applied_bit(bucket, j);
            ensure(same || scene.in_rounds_at(j, bucket), || {
                format!("worker {j} at {}:{}", bucket.depth, bucket.prefix)
            })?;
        }
    }
    Ok(())
}

/// A fresh worker has seen each bit as applied or as toggle; where it differs from the applied
/// bit, a slot that it has read is the slot.
fn b1(scene: &Scene) -> Check {
    for bucket in scene.ever() {
        for (p, task) in scene.fresh_past_toggle(bucket) {
            for (j, seen) in task.toggle.iter().enumerate() {
                let applied = applied_bit(bucket, j);
                let known = *seen == applied || *seen == toggle_bit(bucket, j);
                ensure(known, || format!("{p} saw another bit of {j}"))?;
                let read = task.slots.get(j);
                let stands = read.is_none_or(|slot| *slot == scene.machine.slots[j]);
                ensure(*seen == applied || stands, || format!("{p} read slot {j}"))?;
            }
        }
    }
    Ok(())
}

/// Each fresh worker at j's bucket, past the toggle read, has seen j's toggle bit.
fn all_saw(scene: &Scene, j: usize, bucket: &Rc<Bucket>) -> bool {
    let bit = toggle_bit(bucket, j);
    let state = bucket.current();
    scene.tasks().all(|(_, task)| {
        let past = matches!(task.next, Position::ReadSlot(_) | Position::SwapState);
        !past || !is_fresh(task, bucket, &state) || task.toggle[j] == bit
    })
}

fn is_fresh_itself(task: &Task) -> bool {
    is_fresh(task, task.pass_bucket(), &task.pass_bucket().current())
}

/// In round 1 past the state read: all saw, or the worker is fresh itself.
fn b3_first(scene: &Scene) -> Check {
    let at = |task: &Task| task.in_bucket_rounds() && task.round == 0 && task.state.is_some();
    every_update(scene, at, |j, task| {
        all_saw(scene, j, task.pass_bucket()) || is_fresh_itself(task)
    })
}

/// In round 2: all saw.
fn b3(scene: &Scene) -> Check {
    let at = |task: &Task| task.in_bucket_rounds() && task.round == 1;
    every_update(scene, at, |j, task| all_saw(scene, j, task.pass_bucket()))
}

/// After the bucket pass, until the next one flips.
fn after_pass(task: &Task) -> bool {
    task.bucket.is_some() && !task.in_bucket_rounds()
}

/// In round 2 past the state read: fresh, or applied is toggle. After the second swap: the same
/// without fresh.
fn b2(scene: &Scene) -> Check {
    let second = |task: &Task| task.in_bucket_rounds() && task.round == 1 && task.state.is_some();
    let at = |task: &Task| second(task) || after_pass(task);
    every_update(scene, at, |j, task| {
        let bucket = task.pass_bucket();
        let applied = applied_bit(bucket, j) == toggle_bit(bucket, j);
        applied || (second(task) && is_fresh_itself(task))
    })
}

fn settled_or_held_back(scene: &Scene, j: usize, task: &Task) -> bool {
    let bucket = task.pass_bucket();
    let settled = bucket.state.borrow().is_settled(j, task.operation.ticket);
    settled || scene.is_full_below(bucket)
}

/// In rounds with applied equal to toggle: settled there, or the bucket is full below
/// depth M.
fn w0(scene: &Scene) -> Check {
    every_update(scene, Task::in_bucket_rounds, |j, task| {
        let bucket = task.pass_bucket();
        let differs = applied_bit(bucket, j) != toggle_bit(bucket, j);
        differs || settled_or_held_back(scene, j, task)
    })
}

/// The same after the bucket pass.
fn w1(scene: &Scene) -> Check {
    every_update(scene, after_pass, |j, task| {
        settled_or_held_back(scene, j, task)
    })
}
