//! Foreign words: random ones, tables that were worked on and then damaged, and words made to mislead.

use crate::calls::{Figures, Trial};
use model::cents;
use model::prng::Prng;
use model::rows;
use model::starts::EDGES;
use same::capi::fields::*;
use same::capi::interface::{Settings, ANSWER_OVERRUN, GREATEST_KIND, GREATEST_TICKET};
use same::capi::interface::{KIND_DELETE, KIND_INSERT, KIND_LOOKUP, KIND_POST};
use same::capi::layout::addresses::{record_in, record_of, worker_at};
use same::capi::layout::shape::{directory_start, settings_of, strange_words};
use totals::raw::{totals_words_needed, TOTALS_GREATEST_RUN};
use totals::{account_at, place};

/// Small numbers, numbers about the length, accounts, and any word.
pub fn any_word(prng: &mut Prng, length: usize) -> u64 {
    match prng.below(6) {
        0 => prng.below(4),
        1 => prng.below(70),
        2 => prng.below(length as u64 + 1),
        3 => (length as u64 + 2).saturating_sub(prng.below(60)),
        4 => prng.below(1 << 32),
        _ => prng.draw(),
    }
}

/// Accounts that share buckets: few, and spread over the first bits of their places.
pub fn any_account(prng: &mut Prng) -> u32 {
    let low = prng.below(4) as u32;
    account_at(match prng.below(3) {
        0 => low,
        1 => low | (prng.below(8) as u32) << 29,
        _ => low | (prng.below(256) as u32) << 24,
    })
}

/// Words of totals: small ones and some about 0, so that many sums are totals, those at the ends, so that others are
/// not, those that the rebate and the export are tried on, and any.
pub fn any_total(prng: &mut Prng) -> u64 {
    match prng.below(8) {
        0..=2 => prng.one_of(&[i64::MIN, i64::MAX]) as u64,
        3 => prng.draw(),
        4 => cents::any_total(prng) as u64,
        5 => rows::any_total(prng) as u64,
        6 => prng.below(21).wrapping_sub(10),
        _ => prng.below(2001).wrapping_sub(1000),
    }
}

/// Tickets of all 64 bits: small ones, the greatest, some about the model's edges, and any.
fn any_ticket(prng: &mut Prng) -> u64 {
    match prng.below(4) {
        0 => prng.below(60),
        1 => GREATEST_TICKET - prng.below(3),
        2 => prng.one_of(&EDGES).saturating_add(prng.below(4)).saturating_sub(2),
        _ => prng.draw(),
    }
}

/// How many words a table of these settings needs.
pub fn words_needed(s: Settings) -> usize {
    unsafe { totals_words_needed(s.workers, s.capacity, s.depth) as usize }
}

/// The own steps before each of two places of a pass, in both passes.
fn in_passes(s: Settings, places: [u64; 2]) -> [u64; 4] {
    let [a, b] = places;
    let pass = 6 * s.workers + 16;
    [a, b, a + pass, b + pass]
}

/// An update's own steps before each of its bucket swaps.
pub fn bucket_swaps(s: Settings) -> [u64; 4] {
    in_passes(s, [s.workers + 5, 2 * s.workers + 8])
}

/// An update's own steps before each of its directory swaps.
pub fn directory_swaps(s: Settings) -> [u64; 4] {
    in_passes(s, [4 * s.workers + 12, 6 * s.workers + 14])
}

/// An update's steps at each of its checks.
pub fn steps_at_checks(s: Settings) -> [u64; 4] {
    let n = s.workers;
    [2 * n + 11, 6 * n + 17, 8 * n + 27, 12 * n + 33]
}

/// Words of any kind, each chosen alone.
pub fn noise(length: usize, prng: &mut Prng) -> Vec<u64> {
    (0..length).map(|_| any_word(prng, length)).collect()
}

/// Settings of an opening; small depths more often, since large ones take more words.
pub fn settings(prng: &mut Prng) -> Settings {
    let depth = prng.one_of(&[0, 1, 1, 2, 2, 3, 3, 4, 5, 8]);
    Settings { workers: prng.between(1, 8), capacity: prng.between(2, 16).min(prng.between(2, 16)), depth }
}

/// Where some worker's record stands.
fn any_worker(s: Settings, prng: &mut Prng) -> usize {
    worker_at(s, prng.place(s.workers as usize))
}

/// Where some entry of the directory stands.
fn any_entry(s: Settings, prng: &mut Prng) -> usize {
    directory_start(s) + prng.place(1 << s.depth)
}

/// Any first word with the mark: depths to 15, of which those above 8 are strange. Small settings more often, since few
/// words hold a whole table then.
fn marked(prng: &mut Prng) -> u64 {
    let most = if prng.one_in(2) { [8, 16, 7] } else { [3, 4, 3] };
    let [workers, capacity, depth] = most.map(|most| prng.below(most));
    let depth = if prng.one_in(64) { prng.below(DEEPEST + 1) } else { depth };
    MARK * MARK_UNIT + workers + CAPACITY_UNIT * capacity + DEPTH_UNIT * depth
}

/// A word of every worker whose record stands in the words, drawn anew for each.
fn of_workers(w: &mut [u64], offset: usize, mut word: impl FnMut(Settings) -> u64) {
    let Some(first) = w.get(HEADER_SETTINGS).copied() else { return };
    let s = settings_of(first);
    for j in 0..s.workers as usize {
        let drawn = word(s);
        if let Some(at) = w.get_mut(worker_at(s, j) + offset) {
            *at = drawn;
        }
    }
}

/// Every worker has some number of own steps, so that all kinds of step come up.
fn spread_steps(w: &mut [u64], prng: &mut Prng) {
    let steps = |s: Settings| prng.below(12 * s.workers + 40) + STEPS_RANGE * u64::from(prng.one_in(4));
    of_workers(w, WORKER_STEPS, steps);
}

/// Every worker has some last ticket, so that some have none left.
fn spread_tickets(w: &mut [u64], prng: &mut Prng) {
    of_workers(w, WORKER_TICKET, |_| any_ticket(prng));
}

/// Random words of random lengths; most have the mark and a possible number of words needed.
pub fn random(prng: &mut Prng) -> Vec<u64> {
    let length = if prng.one_in(8) { prng.place(LEAST_WORDS) } else { LEAST_WORDS + prng.place(700) };
    let mut w = noise(length, prng);
    if length > HEADER_NEEDED && !prng.one_in(4) {
        w[HEADER_SETTINGS] = marked(prng);
        w[HEADER_NEEDED] = prng.below(length as u64 + 1);
        unrest(&mut w, prng);
    }
    w
}

/// Own steps and last tickets, and workers just before a swap or a lookup's answer, where the words pass for a table's.
fn unrest(w: &mut [u64], prng: &mut Prng) {
    if prng.one_in(2) {
        spread_steps(w, prng);
    }
    if prng.one_in(2) {
        spread_tickets(w, prng);
    }
    if strange_words(w) {
        return;
    }
    let s = settings_of(w[HEADER_SETTINGS]);
    for _ in 0..prng.below(4) {
        poised(w, s, prng);
    }
    if prng.one_in(4) {
        looking(w, s, prng);
    }
}

/// A table of random settings after random calls.
pub fn worked_on(prng: &mut Prng) -> Vec<u64> {
    let s = settings(prng);
    let mut choices = Prng::new(prng.draw());
    let mut figures = Figures::default();
    let w = vec![0; words_needed(s)];
    let mut trial = Trial::new(&w, prng, &mut figures);
    trial.open(s.workers, s.capacity, s.depth);
    for _ in 0..choices.below(60) {
        let worker = choices.below(s.workers);
        trial.any_operation(worker);
        trial.run(worker, choices.one_of(&[1, 5, 20, 99, TOTALS_GREATEST_RUN]));
    }
    trial.words().to_vec()
}

/// A place of a record, a number near the length, or a huge one.
fn pointer(w: &[u64], s: Settings, prng: &mut Prng) -> u64 {
    let length = w.len();
    match prng.below(6) {
        0 => w[any_entry(s, prng)],
        1 => any_worker(s, prng) as u64,
        2 => prng.below(directory_start(s) as u64 + 1),
        3 => (length - WIDEST_RECORD) as u64 + prng.below(4),
        4 => (length as u64 + 2).wrapping_sub(prng.below(60)),
        _ => u64::MAX - prng.below(60),
    }
}

/// One of the places where a record's place is kept: a directory entry, or what a worker holds.
fn pointer_place(s: Settings, prng: &mut Prng) -> usize {
    if prng.one_in(2) {
        any_entry(s, prng)
    } else {
        any_worker(s, prng) + WORKER_HELD
    }
}

/// A word of the header, the whole of its settings, the mark kept, or one of the three marks before it: of tables
/// without posts, of those in which a delete could be crowded, and of those in which an account's own bits placed it.
fn header(w: &mut [u64], prng: &mut Prng) {
    match prng.below(7) {
        0 => w[HEADER_SETTINGS] = marked(prng),
        6 => w[HEADER_SETTINGS] = (MARK - prng.between(1, 3)) * MARK_UNIT + w[HEADER_SETTINGS] % MARK_UNIT,
        1 => w[HEADER_SETTINGS] ^= 1 << prng.below(u64::from(MARK_UNIT.ilog2())),
        2 => w[HEADER_NEEDED] = any_word(prng, w.len()),
        3 => w[HEADER_DEPTH] = any_word(prng, 9),
        4 => w[HEADER_NUMBER] = any_word(prng, 9),
        _ => w[HEADER_SPARE] = any_word(prng, w.len()),
    }
}

/// A word of a worker, a slot or a bucket record.
fn record_word(w: &mut [u64], s: Settings, prng: &mut Prng) {
    let at = match prng.below(3) {
        0 => any_worker(s, prng) + prng.place(WORKER_MARKS + 1),
        1 => HEADER_SIZE + prng.place(SLOT_SIZE * s.workers as usize),
        _ => record_in(w, w[any_entry(s, prng)]) + prng.place(RECORD_ACCOUNTS),
    };
    w[at] = if prng.one_in(2) { any_word(prng, w.len()) } else { prng.below(20) };
}

/// Where the settled tickets begin in the record at q; behind them their answers, and the words of these's totals.
pub fn settled_from(s: Settings, q: usize) -> usize {
    q + RECORD_ACCOUNTS + 2 * s.capacity as usize
}

/// Where the words of the settled answers' totals begin in the record at q.
pub fn posted_from(s: Settings, q: usize) -> usize {
    settled_from(s, q) + 2 * s.workers as usize
}

/// The record at q has settled random tickets, with any numbers for answers and any words for totals.
fn settled(w: &mut [u64], s: Settings, q: usize, prng: &mut Prng) {
    let n = s.workers as usize;
    let (tickets, rest) = w[settled_from(s, q)..][..3 * n].split_at_mut(n);
    let (answers, posted) = rest.split_at_mut(n);
    tickets.fill_with(|| any_ticket(prng));
    answers.fill_with(|| if prng.one_in(16) { any_word(prng, 20) } else { prng.below(ANSWER_OVERRUN + 2) });
    posted.fill_with(|| prng.draw());
}

/// A worker just before a bucket swap or a directory swap that succeeds, with random slots read, bits and marks, and
/// random tickets settled in the record that it holds.
fn poised(w: &mut [u64], s: Settings, prng: &mut Prng) {
    let (n, p) = (s.workers, any_worker(s, prng));
    let held = record_in(w, w[p + WORKER_HELD]);
    w[p + WORKER_KIND] = prng.one_of(&[KIND_INSERT, KIND_DELETE, KIND_POST]);
    w[p + WORKER_STEPS] = prng.one_of(&[bucket_swaps(s), directory_swaps(s)].concat());
    (w[p + WORKER_STATE], w[p + WORKER_TOGGLE]) = (w[held + RECORD_NUMBER], prng.below(256));
    (w[p + WORKER_DIRECTORY], w[p + WORKER_MARKS]) = (w[HEADER_NUMBER], prng.below(256));
    for slot in w[p + WORKER_SLOTS..][..SLOT_SIZE * n as usize].chunks_mut(SLOT_SIZE) {
        let account = u64::from(any_account(prng));
        slot[SLOT_KIND] = prng.below(GREATEST_KIND + 2);
        slot[SLOT_ACCOUNT] = account;
        slot[SLOT_TOTAL] = any_total(prng);
        slot[SLOT_TICKET] = any_ticket(prng);
    }
    settled(w, s, held, prng);
    if prng.one_in(2) {
        ripe(w, s, p, prng);
    }
}

/// The worker at p is just before a directory swap, and has marked a full bucket of which an update is due: it splits.
fn ripe(w: &mut [u64], s: Settings, p: usize, prng: &mut Prng) {
    let j = prng.place(s.workers as usize);
    let slot = p + WORKER_SLOTS + SLOT_SIZE * j;
    let (account, depth) = (w[slot + SLOT_ACCOUNT], prng.below(s.depth.max(1)));
    let q = record_of(w, s, account);
    if q < HEADER_SIZE {
        return; // the words would be strange
    }
    w[q + RECORD_COUNT] = s.capacity;
    w[q + RECORD_DEPTH] = depth;
    w[q + RECORD_PREFIX] = u64::from(place(account as u32)) << depth >> u32::BITS;
    w[slot + SLOT_KIND] = KIND_INSERT;
    w[slot + SLOT_TICKET] = u64::MAX;
    w[p + WORKER_MARKS] |= 1 << j;
    w[p + WORKER_STEPS] = prng.one_of(&directory_swaps(s));
}

/// A worker just before its lookup's answer, for one of the first accounts of the record that it holds: found where
/// none before it is greater.
fn looking(w: &mut [u64], s: Settings, prng: &mut Prng) {
    let p = any_worker(s, prng);
    let held = record_in(w, w[p + WORKER_HELD]);
    w[p + WORKER_KIND] = KIND_LOOKUP;
    w[p + WORKER_STEPS] = 1;
    w[p + WORKER_ACCOUNT] = w[held + RECORD_ACCOUNTS + prng.place(3)];
}

/// The words with one to twelve damages, and some cut short or made longer.
pub fn damaged(w: &[u64], prng: &mut Prng) -> Vec<u64> {
    let s = settings_of(w[HEADER_SETTINGS]);
    let mut w = w.to_vec();
    for _ in 0..=prng.below(12) {
        let (length, any) = (w.len(), prng.place(w.len()));
        match prng.below(32) {
            0..=3 => w[any] = any_word(prng, length),
            4..=7 => w[any] ^= 1 << prng.below(64),
            8..=15 => w[pointer_place(s, prng)] = pointer(&w, s, prng),
            16..=21 => record_word(&mut w, s, prng),
            22 => header(&mut w, prng),
            23..=25 => spread_steps(&mut w, prng),
            26 => spread_tickets(&mut w, prng),
            _ => poised(&mut w, s, prng),
        }
    }
    match prng.below(8) {
        0 => w.truncate(prng.place(w.len())),
        1 => {
            w.truncate(LEAST_WORDS + prng.place(w.len() - LEAST_WORDS + 1));
            w[HEADER_NEEDED] = prng.below(w.len() as u64 + 1);
        }
        2 => w.extend(noise(prng.place(100), prng)),
        _ => {}
    }
    w
}

/// The mark is right, and every other word is 0, the greatest, its own place, and so on; or such words in turn.
pub fn misleading(prng: &mut Prng) -> Vec<u64> {
    let length = LEAST_WORDS + prng.place(800);
    let end = length as u64;
    let (last, past) = (end - WIDEST_RECORD as u64, end - SPARE_WORDS as u64);
    let tickets = [GREATEST_TICKET, GREATEST_TICKET - 1, 1 << 63, 1 << 32, u64::from(u32::MAX)];
    let constants = [&[0, 1, 3, 5, 16, last, past, end, end + 1, STEPS_RANGE][..], &tickets].concat();
    let (x, y) = (prng.one_of(&constants), prng.one_of(&constants));
    let mut w: Vec<u64> = match prng.below(4) {
        0 => (0..end).collect(),
        1 => (0..end).map(|i| if i % 2 == 0 { x } else { y }).collect(),
        _ => vec![x; length],
    };
    w[HEADER_SETTINGS] = marked(prng);
    if !prng.one_in(4) {
        w[HEADER_NEEDED] = prng.one_of(&[0, LEAST_WORDS as u64, end]);
    }
    unrest(&mut w, prng);
    if prng.one_in(4) {
        of_workers(&mut w, WORKER_KIND, |_| prng.below(GREATEST_KIND + 2));
    }
    w
}
