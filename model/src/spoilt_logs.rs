//! Logs that were changed: most of them no order explains, or they are bad logs, or their settings
//! are out of range.

use crate::amounts::ends_or;
use crate::judging::MOST;
use crate::log::{Log, Logged, Word};
use crate::places::account_at;
use crate::prng::Prng;
use crate::records::Kind;

/// The log with one change, sometimes with more.
pub fn spoilt(prng: &mut Prng, mut log: Log) -> Log {
    let changes = if prng.percent(70) {
        1
    } else {
        prng.between(2, 3)
    };
    for _ in 0..changes {
        match log.operations.len() {
            0 => change_settings(prng, &mut log),
            count => change(prng, &mut log, count),
        }
    }
    log
}

fn change(prng: &mut Prng, log: &mut Log, count: usize) {
    let (place, other) = (prng.place(count), prng.place(count));
    let from = log.operations[other].clone();
    let one = &mut log.operations[place];
    match prng.below(100) {
        0..=13 => one.answer = some_answer(prng, one),
        14..=27 => change_answer_total(prng, log, place),
        28..=37 => move_position(prng, one),
        38..=44 => one.kind = some_kind(prng),
        45..=49 => one.worker = from.worker,
        50..=57 => one.account = some_account(prng, &from),
        58..=62 => one.total = near(prng, one.total),
        63..=76 => exchange_answers(&mut log.operations, place, other),
        77..=79 => repeat_position(prng, one, &from),
        80..=82 => lengthen(prng, log),
        83..=85 => overlap(log, place),
        86..=88 => std::mem::swap(&mut one.call, &mut one.end),
        89..=93 => drop(log.operations.remove(place)),
        _ => change_settings(prng, log),
    }
}

/// Often one that an operation of this kind can have.
fn some_answer(prng: &mut Prng, one: &Logged) -> Word {
    let own: &[Word] = match Kind::of(one.kind) {
        Some(Kind::Insert) => &[Word::Added, Word::Replaced, Word::Crowded],
        Some(Kind::Delete) => &[Word::Removed, Word::Absent],
        Some(Kind::Lookup) => &[Word::Found, Word::None],
        Some(Kind::Post) => &[Word::Posted, Word::Crowded, Word::Overrun],
        None => &Word::ALL,
    };
    let all = if prng.percent(80) { own } else { &Word::ALL };
    prng.one_of(all)
}

/// Of an answer that has a total, if there is one.
fn change_answer_total(prng: &mut Prng, log: &mut Log, place: usize) {
    let all = log.operations.iter_mut();
    let mut told: Vec<&mut Logged> = all.filter(|one| one.answer.has_total()).collect();
    match told.len() {
        0 => log.operations[place].answer_total = 7,
        count => {
            let one = &mut told[place % count];
            one.answer_total = near(prng, one.answer_total);
        }
    }
}

/// The number's neighbour, or another one.
fn near(prng: &mut Prng, number: i64) -> i64 {
    let step = prng.one_of(&[1, -1, 2, -2]);
    ends_or(prng, 20, number.wrapping_add(step))
}

fn move_position(prng: &mut Prng, one: &mut Logged) {
    let by = prng.between(1, 6);
    match prng.below(4) {
        0 => one.call = one.call.saturating_add(by),
        1 => one.call = one.call.saturating_sub(by),
        2 => one.end = one.end.saturating_add(by),
        _ => one.end = one.end.saturating_sub(by),
    }
}

fn some_kind(prng: &mut Prng) -> u64 {
    match prng.below(10) {
        0 => prng.one_of(&[0, 5, 6, 256 + 1, u64::MAX]),
        _ => prng.between(1, 4),
    }
}

/// The other's, the one whose place is next to it, or any.
fn some_account(prng: &mut Prng, from: &Logged) -> u32 {
    let place = crate::places::place(from.account);
    match prng.below(10) {
        0..=5 => from.account,
        6..=8 => account_at(place ^ 1),
        _ => prng.draw() as u32,
    }
}

fn exchange_answers(all: &mut [Logged], place: usize, other: usize) {
    let (one, two) = (all[place].clone(), all[other].clone());
    (all[place].answer, all[place].answer_total) = (two.answer, two.answer_total);
    (all[other].answer, all[other].answer_total) = (one.answer, one.answer_total);
}

fn repeat_position(prng: &mut Prng, one: &mut Logged, from: &Logged) {
    let position = prng.one_of(&[from.call, from.end]);
    match prng.percent(50) {
        true => one.call = position,
        false => one.end = position,
    }
}

/// More than 12 operations, the new ones of workers of their own behind all others where there is
/// room.
fn lengthen(prng: &mut Prng, log: &mut Log) {
    let length = if prng.percent(70) {
        13
    } else {
        prng.between(14, 30) as usize
    };
    let mut last = log.operations.iter().map(|one| one.end).max().unwrap_or(0);
    let mut one = log.operations[0].clone();
    while log.operations.len() < length.max(MOST + 1) {
        (one.worker, one.account) = (log.operations.len() as u64, prng.draw() as u32);
        (one.kind, one.answer) = (Kind::Delete.number(), Word::Absent);
        (one.call, one.end) = (last.saturating_add(1), last.saturating_add(2));
        last = one.end;
        log.operations.push(one.clone());
    }
}

/// Lets an operation end behind the call of its worker's next one.
fn overlap(log: &mut Log, place: usize) {
    let one = &log.operations[place];
    let own = log
        .operations
        .iter()
        .filter(|other| other.worker == one.worker);
    let next = own
        .filter(|other| one.ended_before(other))
        .min_by_key(|other| other.call);
    let end = next.map_or(one.end, |next| next.call.saturating_add(1));
    log.operations[place].end = end;
}

/// Another b or M, mostly out of their ranges.
fn change_settings(prng: &mut Prng, log: &mut Log) {
    match prng.below(8) {
        0 => log.b = prng.one_of(&[0, 1]),
        1 => log.b = prng.one_of(&[17, 18, 256 + 2, 65_535]),
        2 | 3 => log.m = prng.one_of(&[9, 10, 32, 256, 65_535]),
        4 => log.b = prng.between(2, 4),
        5 => log.b = prng.one_of(&[2, 16]),
        _ => log.m = prng.between(0, 8),
    }
}
