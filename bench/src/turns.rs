// How operations are handed to the workers, and steps given to them.
use crate::fields::{GREATEST_WORKERS, TOTALS_GREATEST_RUN, TOTALS_MOVED, TOTALS_OK};
use crate::sides::{Map, Reply, Table};
use crate::work::{Operation, Work};
use std::hint::black_box;

// One step a worker in turn; a worker takes the next operation as soon as its last is answered. Told: each operation's
// place and reply.
#[inline(always)]
pub fn by_steps<T: Table>(
    table: &mut T,
    workers: u64,
    operations: &[Operation],
    mut told: impl FnMut(usize, Reply),
) {
    let mut under_way = [None; GREATEST_WORKERS];
    let (mut next, mut answered, mut w) = (0, 0, 0);
    while answered < operations.len() {
        if under_way[w].is_none() && next < operations.len() {
            assert_eq!(table.call(w as u64, operations[next]), TOTALS_OK);
            under_way[w] = Some(next);
            next += 1;
        }
        if let Some(place) = under_way[w] {
            let reply = table.step(w as u64);
            if reply.code != TOTALS_MOVED {
                told(place, reply);
                under_way[w] = None;
                answered += 1;
            }
        }
        w = if w + 1 == workers as usize { 0 } else { w + 1 };
    }
}

// Each operation run to its answer, the workers in turn; none takes as many steps as a run gives.
#[inline(always)]
pub fn by_run<T: Table>(
    table: &mut T,
    workers: u64,
    operations: &[Operation],
    mut told: impl FnMut(usize, Reply),
) {
    for (place, o) in operations.iter().enumerate() {
        let w = place as u64 % workers;
        assert_eq!(table.call(w, *o), TOTALS_OK);
        told(place, table.run(w, black_box(TOTALS_GREATEST_RUN)));
    }
}

// A table with the work's settings, filled.
pub fn filled<T: Table>(w: &Work) -> T {
    let mut table = T::open(w.workers, w.capacity, w.depth);
    by_run(&mut table, w.workers, &w.filling, |_, _| {});
    table
}

// Each operation on the map.
#[inline(always)]
pub fn on_map(map: &Map, operations: &[Operation], mut told: impl FnMut(usize, (u64, i64))) {
    for (place, o) in operations.iter().enumerate() {
        told(place, map.operate(*o));
    }
}
