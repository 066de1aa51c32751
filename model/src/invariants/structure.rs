//! Structure (S1 to S5) and slots (Sl, D2).

use super::{ensure, Check, Named, Scene};
use crate::records::Bucket;
use std::rc::Rc;

pub const ALL: &[Named] = &[
    ("S1", s1),
    ("S2", s2),
    ("S3", s3),
    ("S4", s4),
    ("S5", s5),
    ("Sl", slots),
    ("D2", d2),
];

/// A bucket stands at exactly the entries whose first d bits are its prefix; d <= D <= M.
fn s1(scene: &Scene) -> Check {
    let directory = &scene.machine.directory;
    let depth = directory.depth;
    let most = scene.machine.settings.greatest_depth;
    let shape = depth <= most && directory.entries.len() == 1usize << depth;
    ensure(shape, || format!("depth {depth}"))?;
    for (e, bucket) in directory.entries.iter().enumerate() {
        let fits = bucket.depth <= depth && (e >> (depth - bucket.depth)) as u32 == bucket.prefix;
        ensure(fits, || format!("entry {e} names another prefix"))?;
        let below = depth - bucket.depth;
        let first = (bucket.prefix << below) as usize;
        let shared = Rc::ptr_eq(bucket, &directory.entries[first]);
        ensure(shared, || format!("entry {e} names a second bucket"))?;
    }
    Ok(())
}

/// Accounts in a state are distinct, at most b, and have the bucket's prefix.
fn s2(scene: &Scene) -> Check {
    let size = scene.machine.settings.bucket_size;
    for bucket in scene.ever() {
        let state = bucket.state.borrow();
        let items = &state.items;
        let placed = items.iter().all(|item| bucket.covers(item.0));
        let mut accounts: Vec<u32> = items.iter().map(|item| item.0).collect();
        accounts.sort_unstable();
        let distinct = accounts.windows(2).all(|pair| pair[0] < pair[1]);
        ensure(placed && distinct && items.len() <= size, || {
            format!("accounts {accounts:?}")
        })?;
    }
    Ok(())
}

/// No settled ticket is above its worker's slot, hence none above its last ticket.
fn s3(scene: &Scene) -> Check {
    for bucket in scene.ever() {
        let state = bucket.state.borrow();
        for (j, settled) in state.settled.iter().enumerate() {
            let slot = scene.machine.slots[j].map_or(0, |update| update.ticket);
            let last = scene.machine.workers[j].last_ticket;
            ensure(settled.ticket <= slot && slot <= last, || {
                format!("worker {j}: settled {}, slot {slot}", settled.ticket)
            })?;
        }
    }
    Ok(())
}

/// Whether the bucket lies in the part of the accounts that the other one had.
fn lies_in(bucket: &Bucket, other: &Bucket) -> bool {
    bucket.depth >= other.depth && bucket.prefix >> (bucket.depth - other.depth) == other.prefix
}

/// A retired bucket is full and below depth M, and no deeper than any current bucket of its
/// accounts.
fn s4(scene: &Scene) -> Check {
    let depth = scene.machine.directory.depth;
    for bucket in scene.retired {
        ensure(scene.is_full_below(bucket), || {
            format!("retired {}:{} not full", bucket.depth, bucket.prefix)
        })?;
        ensure(bucket.depth <= depth, || "deeper than all".to_string())?;
        let rest = depth - bucket.depth;
        let first = (bucket.prefix << rest) as usize;
        let entries = &scene.machine.directory.entries[first..first + (1 << rest)];
        let deeper = entries.iter().all(|leaf| leaf.depth >= bucket.depth);
        ensure(deeper, || format!("retired {} is deeper", bucket.prefix))?;
    }
    Ok(())
}

/// What is settled in a retired bucket is settled in the current ones, with the same answer.
fn s5(scene: &Scene) -> Check {
    for bucket in scene.retired {
        let old = bucket.state.borrow();
        for leaf in scene.current.iter().filter(|leaf| lies_in(leaf, bucket)) {
            let new = leaf.state.borrow();
            for (j, (before, after)) in old.settled.iter().zip(&new.settled).enumerate() {
                let same = before.ticket < after.ticket || before == after;
                ensure(same, || format!("worker {j}: {before:?}, {after:?}"))?;
            }
        }
    }
    Ok(())
}

/// A slot's update is Done, or it is the announced update under way.
fn slots(scene: &Scene) -> Check {
    for (j, slot) in scene.machine.slots.iter().enumerate() {
        let Some(update) = slot else { continue };
        let task = scene.machine.workers[j].task.as_ref();
        let under_way = task.is_some_and(|t| t.is_announced() && t.operation == *update);
        ensure(under_way || scene.is_done(j, update), || {
            format!("slot {j} holds {update:?}")
        })?;
    }
    Ok(())
}

/// The same for every slot that any worker has read, or it is the slot as it stands.
fn d2(scene: &Scene) -> Check {
    for (p, task) in scene.tasks() {
        for (j, read) in task.slots.iter().enumerate() {
            let Some(update) = read else { continue };
            let stands = scene.machine.slots[j] == *read;
            ensure(stands || scene.is_done(j, update), || {
                format!("worker {p} read slot {j} as {update:?}")
            })?;
        }
    }
    Ok(())
}
