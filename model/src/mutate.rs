//! Variations of stored orders: random search near orders that reach rare states.

use crate::amounts::ends_or;
use crate::lines::{read_lines, Line};
use crate::places::{account_at, place};
use crate::prng::Prng;
use crate::records::Kind;

/// Stored orders that reach the third and fourth check, park a worker at a late swap, settle a post
/// by a split, or make room in a full bucket at depth M while a new account is under way.
const STORED: [&str; 12] = [
    include_str!("../orders/crowded-after-anothers-split.txt"),
    include_str!("../orders/crowded-after-own-split.txt"),
    include_str!("../orders/one-directory-round.txt"),
    include_str!("../orders/one-pass.txt"),
    include_str!("../orders/own-update-only.txt"),
    include_str!("../orders/directory-swap-blind.txt"),
    include_str!("../orders/announce-applies.txt"),
    include_str!("../orders/overrun-not-settled.txt"),
    include_str!("../orders/posts-at-once.txt"),
    include_str!("../orders/crowded-tried-again.txt"),
    include_str!("../orders/room-in-one-split.txt"),
    include_str!("../orders/room-in-one-swap.txt"),
];

/// A stored order with one to six random changes; its opening stays first.
pub fn variation(prng: &mut Prng) -> Vec<Line> {
    let text = STORED[prng.below(STORED.len() as u64) as usize];
    let mut lines = read_lines(text).expect("a stored order can be read");
    for _ in 0..prng.between(1, 6) {
        change(prng, &mut lines);
    }
    lines
}

fn change(prng: &mut Prng, lines: &mut Vec<Line>) {
    let index = prng.between(1, lines.len() as u64 - 1) as usize;
    let line = lines[index];
    match prng.below(8) {
        0 if index > 1 => lines.swap(index, index - 1),
        1 => lines.insert(index, line),
        2 if lines.len() > 3 => {
            lines.remove(index);
        }
        3 => split_steps(prng, lines, index),
        _ => lines[index] = changed(prng, line),
    }
}

/// Two lines of steps for one, the second a little later.
fn split_steps(prng: &mut Prng, lines: &mut Vec<Line>, index: usize) {
    if let Line::Step { worker, count } = lines[index] {
        let first = prng.between(1, count);
        lines[index] = Line::Step {
            worker,
            count: first,
        };
        let count = (count - first).max(1);
        let later = (index + 1 + prng.below(3) as usize).min(lines.len());
        lines.insert(later, Line::Step { worker, count });
    }
}

/// Other settings, an account at a place nearby, a post for a call, or a few steps more or less.
fn changed(prng: &mut Prng, line: Line) -> Line {
    match line {
        Line::Open { n, b, m } => Line::Open { n, b, m: m + 1 },
        Line::Call {
            worker, account, ..
        } if prng.percent(40) => Line::Call {
            kind: Kind::Post,
            worker,
            account,
            total: ends_or(prng, 30, 7),
        },
        Line::Call {
            kind,
            worker,
            account,
            total,
        } => Line::Call {
            kind,
            worker,
            account: account_at(place(account) ^ bit(prng)),
            total,
        },
        Line::Step { worker, count } => {
            let count = (count + prng.below(7)).max(4) - 3;
            Line::Step { worker, count }
        }
        Line::List => Line::List,
    }
}

/// Mostly one of the first four bits of a place.
fn bit(prng: &mut Prng) -> u32 {
    match prng.percent(70) {
        true => 1 << (31 - prng.below(4)),
        false => 1 << prng.below(32),
    }
}
