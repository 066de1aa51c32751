//! Shrinks a failing order: shorter lists of lines, smaller step counts, smaller settings.

use crate::lines::Line;
use crate::places::{account_at, place};

/// The shortest failing order that is found from this one, which must fail.
pub fn shrink(order: &[Line], fails: &dyn Fn(&[Line]) -> bool) -> Vec<Line> {
    let mut best = order.to_vec();
    loop {
        let before = size(&best);
        best = delete_chunks(best, fails);
        best = delete_pairs(best, fails);
        best = shorten(best, fails);
        best = simplify(best, fails);
        if size(&best) >= before {
            return best;
        }
    }
}

/// What is made smaller: lines first, then steps, then numbers in use.
fn size(order: &[Line]) -> (usize, u64, u64) {
    let steps = order.iter().map(|line| match line {
        Line::Step { count, .. } => *count,
        _ => 0,
    });
    let weight = order.iter().map(|line| match line {
        Line::Open { n, b, m } => n + b + m,
        Line::Call { account, total, .. } => bits(*account) + heft(*total),
        _ => 0,
    });
    (order.len(), steps.sum(), weight.sum())
}

/// How many bits an account has, or its place, where that has fewer.
fn bits(account: u32) -> u64 {
    let fewer = account.count_ones().min(place(account).count_ones());
    u64::from(fewer)
}

/// The account without this bit, and the one whose place is without it.
fn without_bit(account: u32, bit: u32) -> [u32; 2] {
    let others = !(1u32 << bit);
    [account & others, account_at(place(account) & others)]
}

/// An end of the range is simpler than its neighbours.
fn heft(total: i64) -> u64 {
    match total {
        i64::MIN | i64::MAX => 32,
        other => other.unsigned_abs().min(64),
    }
}

fn without(order: &[Line], from: usize, count: usize) -> Vec<Line> {
    let to = (from + count).min(order.len());
    [&order[..from], &order[to..]].concat()
}

/// Deletes chunks of half the length, then of a quarter, down to single lines.
fn delete_chunks(mut order: Vec<Line>, fails: &dyn Fn(&[Line]) -> bool) -> Vec<Line> {
    let mut chunk = order.len().div_ceil(2).max(1);
    loop {
        let mut from = 0;
        while from < order.len() {
            let shorter = without(&order, from, chunk);
            if fails(&shorter) {
                order = shorter;
            } else {
                from += chunk;
            }
        }
        if chunk == 1 {
            return order;
        }
        chunk = chunk.div_ceil(2);
    }
}

/// Deletes two lines that are needed only together, as a call and its steps.
fn delete_pairs(mut order: Vec<Line>, fails: &dyn Fn(&[Line]) -> bool) -> Vec<Line> {
    if order.len() > 60 {
        return order;
    }
    let mut first = 0;
    while first < order.len() {
        let mut second = first + 1;
        while second < order.len() {
            let shorter = without(&without(&order, second, 1), first, 1);
            if fails(&shorter) {
                order = shorter;
                second = first + 1;
            } else {
                second += 1;
            }
        }
        first += 1;
    }
    order
}

/// Tries the change at every line; keeps it where the order still fails and is smaller.
fn at_every_line(
    mut order: Vec<Line>,
    fails: &dyn Fn(&[Line]) -> bool,
    changes: &dyn Fn(&Line) -> Vec<Line>,
) -> Vec<Line> {
    for index in 0..order.len() {
        for change in changes(&order[index]) {
            let mut changed = order.clone();
            changed[index] = change;
            if size(&changed) < size(&order) && fails(&changed) {
                order = changed;
            }
        }
    }
    order
}

/// Step counts become smaller; two lines of steps of one worker become one.
fn shorten(order: Vec<Line>, fails: &dyn Fn(&[Line]) -> bool) -> Vec<Line> {
    let order = join_steps(order, fails);
    at_every_line(order, fails, &|line| match *line {
        Line::Step { worker, count } => {
            let smaller = (1..count.min(200)).map(|count| Line::Step { worker, count });
            smaller.rev().collect()
        }
        _ => Vec::new(),
    })
}

fn join_steps(mut order: Vec<Line>, fails: &dyn Fn(&[Line]) -> bool) -> Vec<Line> {
    for first in 0..order.len() {
        for second in first + 1..order.len() {
            let joined = match (order.get(first), order.get(second)) {
                (
                    Some(&Line::Step { worker, count }),
                    Some(&Line::Step {
                        worker: other,
                        count: more,
                    }),
                ) if worker == other => Line::Step {
                    worker,
                    count: (count + more).min(9_999),
                },
                _ => continue,
            };
            for kept in [first, second] {
                let mut shorter = order.clone();
                shorter[kept] = joined;
                let shorter = without(&shorter, first + second - kept, 1);
                if fails(&shorter) {
                    order = shorter;
                    break;
                }
            }
        }
    }
    order
}

/// Settings, accounts or their places, and totals become simpler.
fn simplify(order: Vec<Line>, fails: &dyn Fn(&[Line]) -> bool) -> Vec<Line> {
    at_every_line(order, fails, &|line| match *line {
        Line::Open { n, b, m } => {
            let (less_n, less_b, less_m) = (n.max(1) - 1, b.max(1) - 1, m.max(1) - 1);
            vec![
                Line::Open { n: less_n, b, m },
                Line::Open { n, b: less_b, m },
                Line::Open { n, b, m: less_m },
            ]
        }
        Line::Call {
            kind,
            worker,
            account,
            total,
        } => {
            let call = |account, total| Line::Call {
                kind,
                worker,
                account,
                total,
            };
            let accounts = (0..32).flat_map(|bit| without_bit(account, bit));
            let mut simpler: Vec<Line> = accounts.map(|account| call(account, total)).collect();
            simpler.extend([i64::MAX, i64::MIN, 2, 1, 0].map(|total| call(account, total)));
            simpler
        }
        _ => Vec::new(),
    })
}
