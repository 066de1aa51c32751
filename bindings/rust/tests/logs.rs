//! Logs judged by the safe interface: what is refused, in its order, and that nothing is written then; which answers
//! and positions count; that the order shown is the first; and random runs of the real table, which are all explained.
//! Random logs are judged beside the second model by `tests/c/logs.c`.
#[allow(dead_code)]
mod ending;

use ending::{opened, Done};
use model::prng::Prng;
use std::collections::BTreeMap;
use totals::{account_at, check_log, check_log_into, place, Answer, Logged, Operation, Ran, Refusal, Settings, Table};
use Operation::{Delete, Insert, Lookup, Post};

/// Worker, operation, account, answer, and the positions of call and answer.
type Line = (u64, Operation, u32, Answer, [u64; 2]);

fn logs(lines: &[Line]) -> Vec<Logged> {
    let logged = |&(worker, operation, account, answer, [call, end]): &Line| Logged {
        worker,
        operation,
        account,
        answer,
        call,
        end,
    };
    lines.iter().map(logged).collect()
}

fn words(log: &[Logged]) -> Vec<u64> {
    log.iter().flat_map(|logged| logged.words()).collect()
}

/// What a log is judged with b 2 and M 0.
fn judged(lines: &[Line]) -> Result<Option<Vec<usize>>, Refusal> {
    check_log(&logs(lines), 2, 0)
}

/// The plain table, fed one operation.
fn answer(table: &mut BTreeMap<u32, i64>, capacity: u64, depth: u64, operation: Operation, account: u32) -> Answer {
    let first = |account: u32| u64::from(place(account)) >> (32 - depth);
    let agree = table.keys().filter(|other| first(**other) == first(account)).count() as u64;
    match (operation, table.get(&account).copied()) {
        (Insert(_) | Post(_), None) if agree >= capacity => Answer::Crowded,
        (Insert(total), before) => {
            table.insert(account, total);
            before.map_or(Answer::Added, |_| Answer::Replaced)
        }
        (Post(amount), before) => before.unwrap_or(0).checked_add(amount).map_or(Answer::Overrun, |sum| {
            table.insert(account, sum);
            Answer::Posted(sum)
        }),
        (Delete, before) => {
            table.remove(&account);
            before.map_or(Answer::Absent, |_| Answer::Removed)
        }
        (Lookup, before) => before.map_or(Answer::None, Answer::Found),
    }
}

/// The order has each place once and none before one answered before its call, and gives each answer.
fn explains(order: &[usize], log: &[Logged], capacity: u64, depth: u64) -> bool {
    let mut places = order.to_vec();
    places.sort_unstable();
    let in_time = (0..order.len()).all(|i| order[i..].iter().all(|later| log[*later].end >= log[order[i]].call));
    let mut table = BTreeMap::new();
    places == (0..log.len()).collect::<Vec<_>>()
        && in_time
        && order.iter().all(|place| {
            let Logged { operation, account, answer: logged, .. } = log[*place];
            answer(&mut table, capacity, depth, operation, account) == logged
        })
}

/// Three operations that follow each other, of two workers.
const GOOD: [Line; 3] = [
    (7, Insert(50), 5, Answer::Added, [1, 2]),
    (8, Post(-70), 5, Answer::Posted(-20), [3, 5]),
    (7, Lookup, 5, Answer::Found(-20), [4, 6]),
];

/// The words are refused so, with lists of several lengths, which stay.
fn refused(words: &[u64], capacity: u64, depth: u64, refusal: Refusal) {
    for places in [0, 1, 2, 3, 12, 13] {
        let mut order = vec![9; places];
        assert_eq!(check_log_into(words, capacity, depth, &mut order), Err(refusal), "{places} places");
        assert_eq!(order, vec![9; places]);
    }
}

/// Words that are no log, each by one fault.
fn bad_logs() -> Vec<Vec<u64>> {
    let good = words(&logs(&GOOD));
    let with = |changes: &[(usize, usize, u64)]| {
        let mut words = good.clone();
        changes.iter().for_each(|(place, field, word)| words[place * Logged::WORDS + field] = *word);
        words
    };
    let lengths = [1, 7, 9, 15, 17, 23].map(|length| good[..length].to_vec());
    let thirteen = (0..13).flat_map(|i| logs(&[(i, Lookup, 5, Answer::None, [2 * i, 2 * i + 1])])[0].words());
    let kinds = [0, 5, 4 + (1 << 32), u64::MAX].map(|kind| with(&[(1, 1, kind)]));
    let accounts = [1 << 32, 5 + (1 << 32), u64::MAX].map(|account| with(&[(2, 2, account)]));
    // the positions are 1, 2, then 3, 5, and 4, 6
    let repeated = [with(&[(2, 6, 3)]), with(&[(2, 7, 5)]), with(&[(0, 7, 3)]), with(&[(1, 7, 4)]), with(&[(2, 6, 5)])];
    let backward = [with(&[(0, 6, 2), (0, 7, 1)]), with(&[(1, 7, 3)]), with(&[(1, 6, u64::MAX), (1, 7, 0)])];
    // the second is called before the third, and is answered after its call; or has it inside
    let overlapping = [with(&[(1, 0, 7)]), with(&[(1, 0, 7), (1, 7, 9)]), with(&[(2, 0, 8)]), with(&[(0, 7, 7)])];
    let all = [lengths.to_vec(), vec![thirteen.collect()], kinds.to_vec(), accounts.to_vec()];
    let positions = [repeated.to_vec(), backward.to_vec(), overlapping.to_vec()];
    all.into_iter().chain(positions).flatten().collect()
}

/// Settings, then the log, then the list, though all three are wrong.
#[test]
fn checks_come_in_their_order_and_leave_the_list() {
    for bad in bad_logs() {
        for (capacity, depth) in [(0, 0), (1, 8), (17, 0), (2, 9), (16, u64::MAX), (u64::MAX, 0)] {
            refused(&bad, capacity, depth, Refusal::Settings);
        }
        for (capacity, depth) in [(2, 0), (16, 8)] {
            refused(&bad, capacity, depth, Refusal::BadLog);
        }
    }
    refused(&words(&logs(&GOOD)), 1, 0, Refusal::Settings);
    refused(&[], 17, 0, Refusal::Settings);
}

#[test]
fn refusals_of_typed_logs() {
    assert_eq!(judged(&GOOD), Ok(Some(vec![0, 1, 2])));
    let log = logs(&GOOD);
    assert_eq!(check_log(&log, 1, 0), Err(Refusal::Settings));
    assert_eq!(check_log(&log, 2, 9), Err(Refusal::Settings));
    assert_eq!(check_log(&log[1..], 2, 0), Ok(None));
    assert_eq!(check_log(&[log[0], log[0]], 2, 0), Err(Refusal::BadLog));
    assert_eq!(check_log(&vec![log[0]; 1000], 2, 0), Err(Refusal::BadLog));
    assert_eq!(check_log(&vec![log[0]; 1000], 2, 9), Err(Refusal::Settings));
}

#[test]
fn a_list_of_each_length() {
    let good = words(&logs(&GOOD));
    for places in 0..GOOD.len() {
        let mut order = vec![9; places];
        assert_eq!(check_log_into(&good, 2, 0, &mut order), Err(Refusal::Narrow));
        assert_eq!(order, vec![9; places]);
    }
    for more in [0, 1, 2, 100] {
        let mut order = vec![9; GOOD.len() + more];
        assert_eq!(check_log_into(&good, 2, 0, &mut order), Ok(true));
        assert_eq!(order, [&[0, 1, 2][..], &vec![9; more]].concat());
    }
}

/// A list that is too short is told before a search that would fail; and one that fails leaves the list.
#[test]
fn a_log_that_no_order_explains_leaves_the_list() {
    let mut wrong = GOOD;
    wrong[2].3 = Answer::Found(51);
    let words = words(&logs(&wrong));
    assert_eq!(check_log_into(&words, 2, 0, &mut [9; 2]), Err(Refusal::Narrow));
    for more in [0, 1, 100] {
        let mut order = vec![9; GOOD.len() + more];
        assert_eq!(check_log_into(&words, 2, 0, &mut order), Ok(false));
        assert_eq!(order, vec![9; GOOD.len() + more]);
    }
}

#[test]
fn an_empty_log_is_explained() -> Done {
    for (capacity, depth) in [(2, 0), (2, 8), (16, 0), (16, 8)] {
        assert_eq!(check_log(&[], capacity, depth)?, Some(vec![]));
        let mut order = [9; 2];
        assert!(check_log_into(&[], capacity, depth, &mut order)?);
        assert!(check_log_into(&[], capacity, depth, &mut [])?);
        assert_eq!(order, [9; 2]);
    }
    Ok(())
}

/// Logs of one worker whose last operation has the answer that is said, with the total where it has one.
const LAST: [(&[Line], u64, Option<i64>); 10] = [
    (&[(1, Insert(3), 5, Answer::Added, [1, 2])], 17, None),
    (&[(1, Insert(3), 5, Answer::Added, [1, 2]), (1, Insert(4), 5, Answer::Replaced, [3, 4])], 18, None),
    (&[(1, Insert(3), 5, Answer::Added, [1, 2]), (1, Delete, 5, Answer::Removed, [3, 4])], 19, None),
    (&[(1, Delete, 5, Answer::Absent, [1, 2])], 20, None),
    (&[(1, Insert(-3), 5, Answer::Added, [1, 2]), (1, Lookup, 5, Answer::Found(-3), [3, 4])], 21, Some(-3)),
    (&[(1, Lookup, 5, Answer::None, [1, 2])], 22, None),
    (&[(1, Post(0), 5, Answer::Posted(0), [1, 2])], 23, Some(0)),
    (&[(1, Post(-3), 5, Answer::Posted(-3), [1, 2]), (1, Post(-4), 5, Answer::Posted(-7), [3, 4])], 23, Some(-7)),
    (
        &[
            (1, Insert(3), 5, Answer::Added, [1, 2]),
            (1, Insert(3), 6, Answer::Added, [3, 4]),
            (1, Insert(3), 7, Answer::Crowded, [5, 6]),
        ],
        25,
        None,
    ),
    (&[(1, Insert(i64::MIN), 5, Answer::Added, [1, 2]), (1, Post(-1), 5, Answer::Overrun, [3, 4])], 27, None),
];

/// The words with others for the last operation's answer and its total.
fn explained(words: &[u64], number: u64, total: i64) -> bool {
    let (mut words, last) = (words.to_vec(), words.len() - Logged::WORDS);
    words[last + 4..last + 6].copy_from_slice(&[number, total as u64]);
    check_log_into(&words, 2, 0, &mut [0; 3]).expect("a log")
}

#[test]
fn an_answers_total_counts_for_found_and_posted_only() {
    for (lines, number, told) in LAST {
        let words = words(&logs(lines));
        for total in [0, 1, -1, 3, -3, -7, i64::MAX, i64::MIN] {
            assert_eq!(explained(&words, number, total), told.is_none_or(|told| told == total), "{number} {total}");
        }
    }
}

#[test]
fn another_answers_number_is_given_by_no_order() {
    for (lines, number, told) in LAST {
        let words = words(&logs(lines));
        let others = [1 << 32, (1 << 32) + number, u64::MAX];
        for other in (0..64).chain(others) {
            assert_eq!(explained(&words, other, told.unwrap_or(0)), other == number, "{other} for {number}");
        }
    }
}

/// The total of a delete or a lookup, which words can hold, does not count.
#[test]
fn a_total_counts_for_insert_and_post_only() {
    for (lines, number, _) in LAST {
        let mut words = words(&logs(lines));
        let last = words.len() - Logged::WORDS;
        words[last + 3] ^= 0xffff;
        let counts = number == 23;
        assert_eq!(check_log_into(&words, 2, 0, &mut [0; 3]), Ok(!counts), "{number}");
    }
}

#[test]
fn crowded_goes_by_the_places_first_bits() -> Done {
    let add = |i: u64, account| (1, Insert(1), account, Answer::Added, [2 * i, 2 * i + 1]);
    let crowded = |operation| (1, operation, account_at(7), Answer::Crowded, [8, 9]);
    // the places of three accounts begin with 0, that of one with 1
    let [low, other, high] = [5, 6, 1 << 31].map(account_at);
    for operation in [Insert(1), Post(0), Post(i64::MAX)] {
        let log = logs(&[add(0, low), add(1, high), crowded(operation)]);
        assert_eq!(check_log(&log, 2, 0)?, Some(vec![0, 1, 2]));
        assert_eq!(check_log(&log, 2, 1)?, None);
        assert_eq!(check_log(&log, 3, 0)?, None);
        let log = logs(&[add(0, low), add(1, high), add(2, other), crowded(operation)]);
        assert_eq!(check_log(&log, 2, 0)?, None);
        assert_eq!(check_log(&log, 2, 1)?, Some(vec![0, 1, 2, 3]));
        // 29 bits agree, and there are 8 at most
        assert_eq!(check_log(&log, 2, 8)?, Some(vec![0, 1, 2, 3]));
        assert_eq!(check_log(&log, 3, 0)?, Some(vec![0, 1, 2, 3]));
        assert_eq!(check_log(&log, 3, 1)?, None);
    }
    Ok(())
}

/// An operation stands before no other that was answered before its call; where they overlap, either may be first.
#[test]
fn real_time() {
    let pair =
        |lookup, insert| judged(&[(1, Lookup, 5, Answer::Found(3), lookup), (2, Insert(3), 5, Answer::Added, insert)]);
    assert_eq!(pair([3, 4], [1, 2]), Ok(Some(vec![1, 0])));
    assert_eq!(pair([2, 4], [1, 3]), Ok(Some(vec![1, 0])));
    assert_eq!(pair([2, 3], [1, 4]), Ok(Some(vec![1, 0])));
    assert_eq!(pair([1, 4], [2, 3]), Ok(Some(vec![1, 0])));
    assert_eq!(pair([1, 3], [2, 4]), Ok(Some(vec![1, 0])));
    assert_eq!(pair([1, 2], [3, 4]), Ok(None));
}

#[test]
fn positions_and_workers_of_all_64_bits() {
    let top = u64::MAX;
    let found = Answer::Found(3);
    let log = |positions: [[u64; 2]; 3]| {
        let [first, second, third] = positions;
        judged(&[
            (top, Lookup, 5, found, first),
            (0, Insert(3), 5, Answer::Added, second),
            (top - 1, Lookup, 5, found, third),
        ])
    };
    assert_eq!(log([[top - 1, top], [0, 1], [1 << 63, top - 2]]), Ok(Some(vec![1, 2, 0])));
    assert_eq!(
        log([[0, top], [(1 << 63) - 1, 1 << 63], [(1 << 63) + 1, top - 1]]).map(|order| order.is_some()),
        Ok(true)
    );
    // signed, or cut to 32 bits, the first would not be answered before the second's call
    assert_eq!(log([[0, (1 << 63) - 1], [1 << 63, top - 2], [top - 1, top]]), Ok(None));
    assert_eq!(log([[0, (1 << 32) - 1], [1 << 32, (1 << 32) + 2], [top - 1, top]]), Ok(None));
    assert_eq!(log([[0, top], [top - 1, top], [1, 2]]), Err(Refusal::BadLog));
}

/// Twelve operations that all overlap; the lookup finds what only one order of the posts gives.
#[test]
fn twelve_operations() -> Done {
    let post = |i: u64, sum| (i, Post(1 << i), 5, Answer::Posted(sum), [i, 100 + i]);
    let mut sum = 0;
    // the powers of 2 are posted from the highest down
    let mut lines: Vec<Line> = (0..11)
        .rev()
        .map(|i| {
            sum += 1 << i;
            post(i, sum)
        })
        .collect();
    lines.push((11, Lookup, 5, Answer::Found((1 << 11) - 1), [11, 111]));
    assert_eq!(judged(&lines)?, Some((0..12).collect()));
    lines.reverse();
    assert_eq!(judged(&lines)?, Some((0..12).rev().collect()));
    lines[0].3 = Answer::Found(1 << 11);
    assert_eq!(judged(&lines)?, None);
    lines.push((12, Lookup, 5, Answer::None, [1000, 1001]));
    assert_eq!(judged(&lines), Err(Refusal::BadLog));
    Ok(())
}

/// A run of the real table: who has which call open, and the log.
struct Run<'a> {
    table: Table<'a>,
    open: Vec<Option<(Operation, u32, u64)>>,
    position: u64,
    log: Vec<Logged>,
}

impl Run<'_> {
    fn next(&mut self) -> u64 {
        self.position += 1;
        self.position
    }

    fn call(&mut self, worker: usize, operation: Operation, account: u32) -> Done {
        let number = worker as u64;
        match operation {
            Insert(total) => self.table.insert(number, account, total)?,
            Delete => self.table.delete(number, account)?,
            Lookup => self.table.lookup(number, account)?,
            Post(amount) => self.table.post(number, account, amount)?,
        }
        self.open[worker] = Some((operation, account, self.next()));
        Ok(())
    }

    /// Steps of a worker that has a call open.
    fn run(&mut self, worker: usize, steps: u64) -> Done {
        if let Ran::Answered { answer, .. } = self.table.run(worker as u64, steps)? {
            let (operation, account, call) = self.open[worker].take().expect("a call");
            let end = self.next();
            self.log.push(Logged { worker: worker as u64, operation, account, answer, call, end });
        }
        Ok(())
    }
}

fn operation(prng: &mut Prng) -> Operation {
    let total = prng.one_of(&[0, 1, -1, 7, i64::MAX, i64::MIN]);
    prng.one_of(&[Insert(total), Insert(total), Delete, Lookup, Post(total), Post(total)])
}

/// The log of a random run of so many operations, all answered, in no order of its positions.
fn log_of_run(prng: &mut Prng, settings: Settings, count: usize) -> Result<Vec<Logged>, Refusal> {
    let mut owned = opened(settings.workers(), settings.capacity(), settings.depth())?;
    let open = vec![None; settings.workers() as usize];
    let mut run = Run { table: owned.table(), open, position: 0, log: Vec::new() };
    let mut called = 0;
    while run.log.len() < count {
        let worker = prng.place(run.open.len());
        if run.open[worker].is_some() {
            run.run(worker, prng.between(1, 40))?;
        } else if called < count {
            // six accounts, the first bits of whose places agree by twos
            let account = account_at((prng.below(3) << 30 | prng.below(2)) as u32);
            run.call(worker, operation(prng), account)?;
            called += 1;
        }
    }
    let mut log = run.log;
    (1..log.len()).for_each(|i| log.swap(i, prng.place(i + 1)));
    Ok(log)
}

#[test]
fn every_run_of_the_table_is_explained() -> Done {
    let (mut prng, mut orders) = (Prng::new(9), 0);
    for _ in 0..20_000 {
        let settings = Settings::new(prng.between(1, 8), prng.between(2, 3), prng.below(3))?;
        let count = prng.below(1 + Logged::GREATEST_COUNT as u64) as usize;
        let log = log_of_run(&mut prng, settings, count)?;
        let (capacity, depth) = (settings.capacity(), settings.depth());
        let order = check_log(&log, capacity, depth)?.unwrap_or_else(|| panic!("no order: {log:?}"));
        assert!(explains(&order, &log, capacity, depth), "{order:?} {log:?}");
        // an order other than the answers'
        orders += usize::from(order.windows(2).any(|pair| log[pair[0]].end > log[pair[1]].end));
    }
    assert!(orders > 1000, "{orders} orders other than that of the answers");
    Ok(())
}

/// All orders of so many places, the first one first.
fn all_orders(count: usize) -> Vec<Vec<usize>> {
    let mut orders = vec![Vec::new()];
    for _ in 0..count {
        let longer = |order: &Vec<usize>| {
            let others: Vec<usize> = (0..count).filter(|place| !order.contains(place)).collect();
            others.into_iter().map(|place| [&order[..], &[place]].concat()).collect::<Vec<_>>()
        };
        orders = orders.iter().flat_map(longer).collect();
    }
    orders
}

#[test]
fn the_order_is_the_first_of_all_that_explain_the_log() -> Done {
    let (mut prng, mut several, mut none) = (Prng::new(10), 0, 0);
    let orders: Vec<Vec<Vec<usize>>> = (0..=6).map(all_orders).collect();
    for _ in 0..3_000 {
        let settings = Settings::new(prng.between(1, 8), prng.between(2, 3), prng.below(3))?;
        let count = prng.below(7) as usize;
        let mut log = log_of_run(&mut prng, settings, count)?;
        // one in four has an answer that may be wrong
        if let (0, Some(logged)) = (prng.below(4), log.first_mut()) {
            logged.answer = prng.one_of(&[Answer::Added, Answer::Removed, Answer::None, Answer::Posted(0)]);
        }
        let (capacity, depth) = (settings.capacity(), settings.depth());
        let mut right = orders[count].iter().filter(|order| explains(order, &log, capacity, depth));
        let first = right.next().cloned();
        several += usize::from(right.next().is_some());
        none += usize::from(first.is_none());
        assert_eq!(check_log(&log, capacity, depth)?, first, "{log:?}");
    }
    assert!(several > 300 && none > 100, "{several} logs with several orders, {none} with none");
    Ok(())
}

/// Positions say which orders there are, not which of them is the first: that is by place.
#[test]
fn of_two_lookups_the_lower_place_comes_first() -> Done {
    for [first, second] in [[[1, 4], [2, 3]], [[2, 3], [1, 4]], [[1, 3], [2, 4]], [[2, 4], [1, 3]]] {
        let lines = [(7, Lookup, 5, Answer::None, first), (8, Lookup, 6, Answer::None, second)];
        assert_eq!(judged(&lines)?, Some(vec![0, 1]), "{first:?} {second:?}");
    }
    let lines = [(7, Lookup, 5, Answer::None, [3, 4]), (8, Lookup, 6, Answer::None, [1, 2])];
    assert_eq!(judged(&lines)?, Some(vec![1, 0]));
    Ok(())
}
