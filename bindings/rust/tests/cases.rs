//! Document 01's session and cases by the safe interface, posts, every refusal, tickets at both ends of their 64 bits,
//! every position in the largest bucket, the words needed for all settings, and the steps at every check. Where a
//! bucket is split, the accounts are those whose places are document 01's numbers.
mod ending;
#[path = "model/tickets.rs"]
mod tickets;

use ending::{ends, holding, holding_5_and_6, opened, posts, Done};
use tickets::last_ticket;
use totals::{account_at, raw, Answer, Owned, Ran, Refusal, Settings, Stepped, Table};

#[test]
fn settings_outside_their_range_are_refused() -> Done {
    for (workers, capacity, depth) in [(0, 2, 1), (9, 2, 1), (1, 1, 1), (1, 17, 1), (1, 2, 9)] {
        assert_eq!(Settings::new(workers, capacity, depth), Err(Refusal::Settings));
    }
    let settings = Settings::new(8, 16, 8)?;
    let mut words = vec![7; settings.words_needed()];
    assert!(Table::open(&mut words, settings).is_ok());
    words.pop();
    assert_eq!(Table::open(&mut words, settings).err(), Some(Refusal::Short));
    Ok(())
}

#[test]
fn the_words_needed_and_a_fresh_table_for_all_settings() -> Done {
    for n in Settings::LEAST_WORKERS..=Settings::GREATEST_WORKERS {
        for b in Settings::LEAST_CAPACITY..=Settings::GREATEST_CAPACITY {
            for m in Settings::LEAST_DEPTH..=Settings::GREATEST_DEPTH {
                let settings = Settings::new(n, b, m)?;
                let span = 1 << m;
                let needed = 16 + span + 4 * n + n * (4 * n + 24) + (span + n + 2) * (2 * b + 3 * n + 6) + 61;
                assert_eq!(settings.words_needed() as u64, needed);
                assert!(needed <= 16 * (2 * n + 1) * span * (b + n + 4));
                assert_eq!(Owned::new(settings)?.table().listing()?, []);
            }
        }
    }
    Ok(())
}

#[test]
fn the_steps_at_every_check_for_all_numbers_of_workers() -> Done {
    for n in Settings::LEAST_WORKERS..=Settings::GREATEST_WORKERS {
        let settings = Settings::new(n, 2, 1)?;
        let figures = [2 * n + 11, 6 * n + 17, 8 * n + 27, 12 * n + 33].map(Some);
        assert_eq!([1, 2, 3, 4].map(|check| settings.steps_at_check(check)), figures);
        assert_eq!([0, 5, u64::MAX].map(|check| settings.steps_at_check(check)), [None; 3]);
        assert_eq!(settings.greatest_steps(), if n == 1 { 23 } else { 12 * n + 33 });
    }
    assert_eq!((Settings::LOOKUP_STEPS, Settings::GREATEST_CHECK), (2, 4));
    Ok(())
}

#[test]
fn the_session() -> Done {
    let mut owned = opened(1, 2, 1)?;
    let mut table = owned.table();
    table.insert(0, 5, 700)?;
    assert_eq!(table.run(0, 12)?, Ran::Moved(12));
    assert_eq!(table.run(0, 9)?, Ran::Answered { answer: Answer::Added, steps: 13, check: 1 });
    table.lookup(0, 5)?;
    assert_eq!(table.run(0, 2)?, Ran::Answered { answer: Answer::Found(700), steps: 2, check: 0 });
    assert_eq!(table.listing()?, [(5, 700)]);
    Ok(())
}

#[test]
fn a_split_then_crowded() -> Done {
    let mut owned = holding_5_and_6(1)?;
    let mut table = owned.table();
    table.insert(0, account_at(2147483648), 80)?;
    ends(&mut table, 0, Answer::Added, 23, 2)?;
    table.insert(0, account_at(7), 70)?;
    ends(&mut table, 0, Answer::Crowded, 13, 1)?;
    table.delete(0, account_at(5))?;
    ends(&mut table, 0, Answer::Removed, 13, 1)?;
    assert_eq!(table.listing()?, [(account_at(6), 60), (account_at(2147483648), 80)]);
    Ok(())
}

#[test]
fn crowded_straight_away_and_the_split_stays() -> Done {
    let mut owned = holding_5_and_6(1)?;
    let mut table = owned.table();
    table.insert(0, account_at(7), 70)?;
    ends(&mut table, 0, Answer::Crowded, 23, 2)?;
    // nothing is left to split
    table.insert(0, account_at(2147483648), 80)?;
    ends(&mut table, 0, Answer::Added, 13, 1)
}

#[test]
fn busy_idle_and_stranger() -> Done {
    let mut owned = opened(2, 2, 1)?;
    let mut table = owned.table();
    assert_eq!(table.step(0), Err(Refusal::Idle));
    assert_eq!(table.run(0, 1), Err(Refusal::Idle));
    table.insert(0, 5, 7)?;
    assert_eq!(table.insert(0, 5, 7), Err(Refusal::Busy));
    assert_eq!(table.lookup(0, 5), Err(Refusal::Busy));
    assert_eq!(table.delete(2, 5), Err(Refusal::Stranger));
    assert_eq!(table.step(2), Err(Refusal::Stranger));
    assert_eq!(table.run(u64::MAX, 1), Err(Refusal::Stranger));
    assert_eq!(table.step(0), Ok(Stepped::Moved));
    Ok(())
}

#[test]
fn a_lookup_after_a_delete() -> Done {
    let mut owned = holding(2, &[(5, 50)])?;
    let mut table = owned.table();
    table.lookup(1, 5)?;
    assert_eq!(table.step(1)?, Stepped::Moved);
    table.delete(0, 5)?;
    ends(&mut table, 0, Answer::Removed, 15, 1)?;
    assert_eq!(table.step(1)?, Stepped::Answered { answer: Answer::None, steps: 2, check: 0 });
    table.delete(0, 5)?;
    ends(&mut table, 0, Answer::Absent, 15, 1)
}

#[test]
fn a_helped_insert() -> Done {
    let mut owned = opened(2, 2, 1)?;
    let mut table = owned.table();
    table.insert(1, 9, 90)?;
    assert_eq!(table.run(1, 3)?, Ran::Moved(3));
    table.insert(0, 5, 50)?;
    ends(&mut table, 0, Answer::Added, 15, 1)?;
    assert_eq!(table.listing()?, [(5, 50), (9, 90)]);
    ends(&mut table, 1, Answer::Added, 15, 1)
}

#[test]
fn the_second_pass_is_needed() -> Done {
    let mut owned = holding_5_and_6(2)?;
    let mut table = owned.table();
    table.insert(0, account_at(2147483648), 80)?;
    assert_eq!(table.run(0, 20)?, Ran::Moved(20));
    table.insert(1, account_at(2147483649), 90)?;
    assert_eq!(table.run(1, 13)?, Ran::Moved(13));
    ends(&mut table, 0, Answer::Added, 29, 2)?;
    ends(&mut table, 1, Answer::Added, 43, 3)
}

#[test]
fn a_post_makes_the_account_and_adds_to_its_total() -> Done {
    let mut owned = opened(1, 2, 1)?;
    let mut table = owned.table();
    posts(&mut table, 5, 700, Answer::Posted(700))?;
    posts(&mut table, 5, -1000, Answer::Posted(-300))?;
    // also by an amount of 0
    posts(&mut table, 6, 0, Answer::Posted(0))?;
    assert_eq!(table.listing()?, [(5, -300), (6, 0)]);
    looks(&mut table, 6, Some(0))
}

#[test]
fn a_post_after_an_insert_and_after_a_delete() -> Done {
    let mut owned = opened(1, 2, 1)?;
    let mut table = owned.table();
    table.insert(0, 5, 700)?;
    ends(&mut table, 0, Answer::Added, 13, 1)?;
    posts(&mut table, 5, 50, Answer::Posted(750))?;
    table.insert(0, 5, 1)?;
    ends(&mut table, 0, Answer::Replaced, 13, 1)?;
    table.delete(0, 5)?;
    ends(&mut table, 0, Answer::Removed, 13, 1)?;
    // from 0 again
    posts(&mut table, 5, 50, Answer::Posted(50))?;
    assert_eq!(table.listing()?, [(5, 50)]);
    Ok(())
}

#[test]
fn a_sum_past_either_end_is_an_overrun_and_changes_nothing() -> Done {
    let mut owned = opened(1, 3, 1)?;
    let mut table = owned.table();
    for (account, end, sign) in [(5, i64::MAX, 1), (6, i64::MIN, -1)] {
        posts(&mut table, account, end, Answer::Posted(end))?;
        for amount in [sign, end] {
            posts(&mut table, account, amount, Answer::Overrun)?;
            looks(&mut table, account, Some(end))?;
        }
        // back from the end, and to the last total that there is
        posts(&mut table, account, -2 * sign, Answer::Posted(end - 2 * sign))?;
        posts(&mut table, account, 3 * sign, Answer::Overrun)?;
        posts(&mut table, account, 2 * sign, Answer::Posted(end))?;
    }
    posts(&mut table, 5, i64::MIN, Answer::Posted(-1))?;
    posts(&mut table, 5, i64::MIN, Answer::Overrun)?;
    assert_eq!(table.listing()?, [(5, -1), (6, i64::MIN)]);
    Ok(())
}

#[test]
fn posts_into_a_full_bucket() -> Done {
    let mut owned = opened(1, 2, 0)?;
    let mut table = owned.table();
    posts(&mut table, 5, i64::MAX, Answer::Posted(i64::MAX))?;
    posts(&mut table, 6, 0, Answer::Posted(0))?;
    // to accounts that it holds
    posts(&mut table, 5, 1, Answer::Overrun)?;
    posts(&mut table, 5, -7, Answer::Posted(i64::MAX - 7))?;
    posts(&mut table, 6, i64::MIN, Answer::Posted(i64::MIN))?;
    // to others, whatever the amount
    for amount in [0, 1, i64::MIN, i64::MAX] {
        posts(&mut table, 4, amount, Answer::Crowded)?;
        posts(&mut table, 7, amount, Answer::Crowded)?;
    }
    assert_eq!(table.listing()?, [(5, i64::MAX - 7), (6, i64::MIN)]);
    Ok(())
}

#[test]
fn a_post_that_splits_first() -> Done {
    for (place, amount, answer) in [(5, 1, Answer::Posted(51)), (6, i64::MAX, Answer::Overrun), (7, 1, Answer::Crowded)]
    {
        let mut owned = holding_5_and_6(1)?;
        let mut table = owned.table();
        table.post(0, account_at(place), amount)?;
        ends(&mut table, 0, answer, 23, 2)?;
    }
    let (low, high) = (account_at(5), account_at(2147483648));
    let mut owned = holding(1, &[(low, 50), (high, 80)])?;
    let mut table = owned.table();
    table.post(0, low, 1)?;
    ends(&mut table, 0, Answer::Posted(51), 23, 2)?;
    assert_eq!(table.listing()?, [(low, 51), (high, 80)]);
    Ok(())
}

#[test]
fn posts_of_two_workers_to_one_account() -> Done {
    let mut owned = opened(2, 2, 1)?;
    let mut table = owned.table();
    table.post(1, 5, 900)?;
    assert_eq!(table.run(1, 3)?, Ran::Moved(3));
    table.post(0, 5, 70)?;
    ends(&mut table, 0, Answer::Posted(70), 15, 1)?;
    // worker 0 has carried out worker 1's post behind its own, and goes on
    assert_eq!(table.listing()?, [(5, 970)]);
    table.post(0, 5, 30)?;
    ends(&mut table, 0, Answer::Posted(1000), 15, 1)?;
    // worker 1 is told its own total, once
    ends(&mut table, 1, Answer::Posted(970), 15, 1)?;
    assert_eq!(table.listing()?, [(5, 1000)]);
    Ok(())
}

#[test]
fn a_helped_overrun() -> Done {
    let mut owned = opened(2, 2, 1)?;
    let mut table = owned.table();
    table.post(1, 5, i64::MAX)?;
    assert_eq!(table.run(1, 3)?, Ran::Moved(3));
    table.post(0, 5, 1)?;
    ends(&mut table, 0, Answer::Posted(1), 15, 1)?;
    // there is room for worker 1's amount now, but its post is settled
    table.post(0, 5, -1)?;
    ends(&mut table, 0, Answer::Posted(0), 15, 1)?;
    ends(&mut table, 1, Answer::Overrun, 15, 1)?;
    assert_eq!(table.listing()?, [(5, 0)]);
    Ok(())
}

/// The words of a table with account 5, after a call of this kind with this total and, from then on, all its steps.
fn words_with(kind: u64, total: i64) -> Result<Vec<u64>, Refusal> {
    let settings = Settings::new(1, 2, 1)?;
    let mut words = vec![0; settings.words_needed()];
    posts(&mut Table::open(&mut words, settings)?, 5, 700, Answer::Posted(700))?;
    // SAFETY: the pointer and the length are those of a slice that is borrowed for the call.
    let number = unsafe { raw::totals_call(words.as_mut_ptr(), words.len(), 0, kind, 5, total) };
    assert_eq!(number, raw::TOTALS_OK);
    let left = words.clone();
    assert!(matches!(Table::over(&mut words).run(0, 99)?, Ran::Answered { .. }));
    Ok([left, words].concat())
}

#[test]
fn a_total_counts_for_inserts_and_posts_only() -> Done {
    for kind in [raw::TOTALS_DELETE, raw::TOTALS_LOOKUP] {
        assert_eq!(words_with(kind, i64::MIN)?, words_with(kind, 0)?);
    }
    for kind in [raw::TOTALS_INSERT, raw::TOTALS_POST] {
        assert_ne!(words_with(kind, 1)?, words_with(kind, 0)?);
    }
    Ok(())
}

/// The words of a fresh table, in which each worker has taken this ticket last.
fn words_after(capacity: u64, tickets: &[u64]) -> Result<Vec<u64>, Refusal> {
    let settings = Settings::new(tickets.len() as u64, capacity, 1)?;
    let mut words = vec![0; settings.words_needed()];
    Table::open(&mut words, settings)?;
    for (worker, ticket) in tickets.iter().enumerate() {
        *last_ticket(&mut words, worker) = *ticket;
    }
    Ok(words)
}

#[test]
fn the_last_ticket_is_taken_and_the_next_update_is_spent() -> Done {
    let mut words = words_after(2, &[u64::MAX - 1, 0])?;
    let mut table = Table::over(&mut words);
    table.insert(0, 5, i64::MIN)?;
    ends(&mut table, 0, Answer::Added, 15, 1)?;
    let before = words.clone();
    let mut table = Table::over(&mut words);
    assert_eq!(table.insert(0, 5, 7), Err(Refusal::Spent));
    assert_eq!(table.delete(0, 5), Err(Refusal::Spent));
    assert_eq!(table.post(0, 5, 0), Err(Refusal::Spent));
    assert_eq!(table.step(0), Err(Refusal::Idle));
    assert_eq!(words, before);
    let mut table = Table::over(&mut words);
    table.lookup(0, 5)?;
    ends(&mut table, 0, Answer::Found(i64::MIN), 2, 0)?;
    table.insert(1, 6, 60)?;
    ends(&mut table, 1, Answer::Added, 15, 1)?;
    assert_eq!(table.listing()?, [(5, i64::MIN), (6, 60)]);
    assert_eq!([0, 1].map(|worker| *last_ticket(&mut words, worker)), [u64::MAX, 1]);
    Ok(())
}

#[test]
fn a_post_takes_a_ticket_and_the_last_one_too() -> Done {
    let mut words = words_after(2, &[u64::MAX - 2])?;
    let mut table = Table::over(&mut words);
    posts(&mut table, 5, i64::MAX, Answer::Posted(i64::MAX))?;
    // an overrun has taken one as well
    posts(&mut table, 5, 1, Answer::Overrun)?;
    assert_eq!(table.post(0, 5, 0), Err(Refusal::Spent));
    looks(&mut table, 5, Some(i64::MAX))?;
    assert_eq!(*last_ticket(&mut words, 0), u64::MAX);
    Ok(())
}

#[test]
fn tickets_from_1_and_from_2_to_63_on_in_one_bucket() -> Done {
    let mut words = words_after(3, &[0, (1 << 63) - 1])?;
    let mut table = Table::over(&mut words);
    let [five, nine, high, higher] = [5, 9, 2147483648, 2147483649].map(account_at);
    for (total, answer) in [(1, Answer::Added), (2, Answer::Replaced), (3, Answer::Replaced)] {
        table.insert(1, nine, total)?;
        assert_eq!(table.run(1, 3)?, Ran::Moved(3));
        table.insert(0, five, total)?;
        ends(&mut table, 0, answer, 15, 1)?;
        // worker 0 has helped worker 1
        assert_eq!(table.listing()?, [(five, total), (nine, total)]);
        ends(&mut table, 1, answer, 15, 1)?;
    }
    table.insert(0, high, 4)?;
    ends(&mut table, 0, Answer::Added, 15, 1)?;
    // the bucket is full: worker 0 splits it for both
    table.insert(1, higher, 5)?;
    assert_eq!(table.run(1, 3)?, Ran::Moved(3));
    table.delete(0, nine)?;
    ends(&mut table, 0, Answer::Removed, 29, 2)?;
    assert_eq!(table.listing()?, [(five, 3), (high, 4), (higher, 5)]);
    ends(&mut table, 1, Answer::Added, 15, 1)?;
    assert_eq!([0, 1].map(|worker| *last_ticket(&mut words, worker)), [5, (1 << 63) + 3]);
    Ok(())
}

/// The account's total is found, or none.
fn looks(table: &mut Table, account: u32, total: Option<i64>) -> Done {
    table.lookup(0, account)?;
    ends(table, 0, total.map_or(Answer::None, Answer::Found), 2, 0)
}

/// An account that is not there is added, replaced, posted to and removed, and then made by a post, each time with
/// another total. In the end its total is three times its number.
fn updated(table: &mut Table, account: u32) -> Done {
    let number = i64::from(account);
    for (total, answer) in [(number, Answer::Added), (2 * number, Answer::Replaced)] {
        table.insert(0, account, total)?;
        ends(table, 0, answer, 13, 1)?;
        looks(table, account, Some(total))?;
    }
    posts(table, account, 5 * number, Answer::Posted(7 * number))?;
    looks(table, account, Some(7 * number))?;
    table.delete(0, account)?;
    ends(table, 0, Answer::Removed, 13, 1)?;
    looks(table, account, None)?;
    posts(table, account, 3 * number, Answer::Posted(3 * number))?;
    looks(table, account, Some(3 * number))
}

#[test]
fn every_position_in_a_bucket_of_sixteen() -> Done {
    for first in 0..16 {
        let mut owned = opened(1, 16, 0)?;
        let mut table = owned.table();
        // 10, 20, .., 160, each once, in no order; each of them comes last for one `first`
        let accounts: Vec<u32> = (first..first + 16).map(|i| 10 * (i * 7 % 16 + 1)).collect();
        for (i, &account) in accounts.iter().enumerate() {
            updated(&mut table, account)?;
            for (k, &other) in accounts.iter().enumerate() {
                looks(&mut table, other, (k <= i).then_some(3 * i64::from(other)))?;
                looks(&mut table, other + 5, None)?;
            }
        }
        // among sixteen others, before and behind each of them
        for account in (5..=165).step_by(10) {
            table.insert(0, account, 4)?;
            ends(&mut table, 0, Answer::Crowded, 13, 1)?;
            posts(&mut table, account, 4, Answer::Crowded)?;
            table.delete(0, account)?;
            ends(&mut table, 0, Answer::Absent, 13, 1)?;
        }
        assert_eq!(table.listing()?, (1..=16).map(|i| (10 * i, 30 * i64::from(i))).collect::<Vec<_>>());
    }
    Ok(())
}

/// Every call over these words is refused as strange, and leaves them as they are.
fn strange(words: &mut [u64]) {
    let before = words.to_vec();
    let mut table = Table::over(words);
    assert_eq!(table.insert(0, 5, 7), Err(Refusal::Strange));
    assert_eq!(table.delete(0, 5), Err(Refusal::Strange));
    assert_eq!(table.post(0, 5, 7), Err(Refusal::Strange));
    assert_eq!(table.lookup(0, 5), Err(Refusal::Strange));
    assert_eq!(table.step(0), Err(Refusal::Strange));
    assert_eq!(table.run(0, 9), Err(Refusal::Strange));
    assert_eq!(table.listing(), Err(Refusal::Strange));
    assert_eq!(words, before);
}

#[test]
fn words_that_hold_no_table_are_strange() {
    strange(&mut [0; 162]);
}

/// The least first word of a table: the mark, above the 2,048 numbers of settings.
const LEAST_FIRST: u64 = 6_004_514_766 * 2048;

#[test]
fn another_mark_and_a_greatest_depth_above_8_are_strange() -> Done {
    let mut words = words_after(2, &[0])?;
    // n 1, b 2, M 1
    assert_eq!(words[0], LEAST_FIRST + 8 + 128);
    // 6,004,514,763 was the mark before posts, 6,004,514,764 the one while a delete could be crowded, 6,004,514,765 the
    // one while an account's own first bits chose its bucket
    for mark in [0, 1, 6_004_514_763, 6_004_514_764, 6_004_514_765, 6_004_514_767, u64::MAX >> 11] {
        words[0] = mark * 2048 + 8 + 128;
        strange(&mut words);
    }
    for depth in 0..16 {
        words[0] = LEAST_FIRST + 8 + 128 * depth;
        match depth {
            0..=8 => looks(&mut Table::over(&mut words), 5, None)?,
            _ => strange(&mut words),
        }
    }
    // the ends of the range, the last for n 8, b 16, M 8
    words.resize(600, 0);
    for (first, served) in [(0, true), (1151, true), (1152, false)] {
        words[0] = LEAST_FIRST + first;
        assert_eq!(Table::over(&mut words).listing().is_ok(), served);
    }
    words[0] = LEAST_FIRST - 1;
    strange(&mut words);
    Ok(())
}

#[test]
fn a_list_that_is_too_short_is_narrow_and_stays() -> Done {
    let mut owned = holding(1, &[(5, 50), (6, 60)])?;
    let table = owned.table();
    let (mut accounts, mut totals) = ([1; 2], [1; 2]);
    assert_eq!(table.listing_into(&mut accounts[..1], &mut totals), Err(Refusal::Narrow));
    assert_eq!(table.listing_into(&mut accounts, &mut totals[..1]), Err(Refusal::Narrow));
    assert_eq!((accounts, totals), ([1; 2], [1; 2]));
    assert_eq!(table.listing_into(&mut accounts, &mut totals), Ok(2));
    assert_eq!((accounts, totals), ([5, 6], [50, 60]));
    Ok(())
}

#[test]
fn words_and_numbers_of_refusals_and_answers() {
    let all = [
        (Refusal::Settings, 1, "settings"),
        (Refusal::Short, 2, "short"),
        (Refusal::Stranger, 3, "stranger"),
        (Refusal::Busy, 4, "busy"),
        (Refusal::Idle, 5, "idle"),
        (Refusal::Kind, 6, "kind"),
        (Refusal::Spent, 7, "spent"),
        (Refusal::Strange, 8, "strange"),
        (Refusal::Narrow, 10, "narrow"),
        (Refusal::BadLog, 14, "bad log"),
    ];
    for (refusal, number, word) in all {
        assert_eq!((refusal.number(), refusal.word()), (number, word));
        assert!(refusal.to_string().starts_with(&format!("{word}: ")));
    }
    let answers = [
        Answer::Added,
        Answer::Replaced,
        Answer::Removed,
        Answer::Absent,
        Answer::Found(-7),
        Answer::None,
        Answer::Posted(-7),
        Answer::Crowded,
        Answer::Overrun,
    ];
    assert_eq!(
        answers.map(|a| a.to_string()),
        ["added", "replaced", "removed", "absent", "found -7", "none", "posted -7", "crowded", "overrun"]
    );
}
