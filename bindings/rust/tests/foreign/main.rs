//! Foreign words lent to every call: random words, damaged tables, and words made to mislead, from fixed seeds. What
//! a call gives and every word that it leaves are held against the same source compiled as Rust; what was lent has
//! guards around it.
mod calls;
mod lent;
mod listing;
mod words;

use calls::{rows, Figures, Trial};
use lent::Lent;
use listing::rebate_rows;
use model::export::file;
use model::prng::Prng;
use same::capi::fields::{RECORD_ACCOUNTS, RECORD_COUNT, WIDEST_RECORD, WORKER_KIND};
use same::capi::interface::{Settings, KIND_INSERT, KIND_NONE};
use same::capi::layout::addresses::worker_at;
use same::capi::layout::shape::directory_start;
use totals::raw::*;
use totals::{place, Table};
use words::{any_word, steps_at_checks, words_needed};

/// What calls give over words of any kind, and what the listing, the rebates and the export do.
const CALLED: [u64; 6] = [TOTALS_OK, TOTALS_STRANGER, TOTALS_BUSY, TOTALS_KIND, TOTALS_SPENT, TOTALS_STRANGE];
const LISTED: [u64; 3] = [TOTALS_OK, TOTALS_STRANGE, TOTALS_NARROW];
/// What steps give where nothing ends.
const UNENDED: [u64; 4] = [TOTALS_MOVED, TOTALS_STRANGER, TOTALS_IDLE, TOTALS_STRANGE];
/// What ends an update, but absent; and a lookup.
const UPDATED: [u64; 6] =
    [TOTALS_ADDED, TOTALS_REPLACED, TOTALS_REMOVED, TOTALS_POSTED, TOTALS_CROWDED, TOTALS_OVERRUN];
const LOOKED_UP: [u64; 2] = [TOTALS_FOUND, TOTALS_NONE];

/// So many random calls on words, and at the end the calls that take settings.
fn calls_on(w: &[u64], calls: u64, lists: u64, prng: &mut Prng, figures: &mut Figures) {
    let mut choices = Prng::new(prng.draw());
    let mut trial = Trial::new(w, prng, figures);
    for _ in 0..calls {
        trial.any_call(lists);
    }
    let mut setting = || if choices.one_in(8) { any_word(&mut choices, 20) } else { choices.below(18) };
    let (workers, capacity, depth) = (setting(), setting(), setting() % 10);
    trial.needed(workers, capacity, depth);
    trial.open(workers, capacity, depth);
}

/// A call gave each of these numbers more than a hundred times.
fn gave(figures: &Figures, name: &str, numbers: &[u64]) {
    for number in numbers {
        let times = figures.of(name, *number);
        assert!(times > 100, "{name} gave {number} {times} times");
    }
}

/// So many calls at least over words of one class, and what they gave.
fn class(title: &str, seed: u64, calls: u64, more: impl Fn(&mut Prng, &mut Figures)) -> Figures {
    let mut prng = Prng::new(seed);
    let mut figures = Figures::default();
    while figures.calls() < calls {
        more(&mut prng, &mut figures);
    }
    figures.print(title);
    figures
}

#[test]
fn random_words() {
    let figures = class("random words", 1, 800_000, |prng, figures| {
        let w = words::random(prng);
        calls_on(&w, 30, 4, prng, figures);
    });
    gave(&figures, "open", &[TOTALS_OK, TOTALS_SETTINGS, TOTALS_SHORT]);
    gave(&figures, "call", &CALLED);
    gave(&figures, "step", &[&UNENDED[..], &UPDATED, &LOOKED_UP].concat());
    gave(&figures, "list", &LISTED);
    gave(&figures, "rebates", &LISTED);
    gave(&figures, "export", &LISTED);
    assert!(figures.carried > 1000 && figures.split > 100 && figures.compared > 1000);
    assert!(figures.crowded > 100 && figures.corrected > 100);
    assert!(figures.checks.iter().all(|updates| *updates > 100));
    assert!(figures.repeated > 100 && figures.wide > 100);
}

#[test]
fn damaged_tables() {
    let figures = class("damaged tables", 2, 800_000, |prng, figures| {
        let w = words::worked_on(prng);
        for _ in 0..4 {
            let damaged = words::damaged(&w, prng);
            calls_on(&damaged, 60, 2, prng, figures);
        }
    });
    gave(&figures, "call", &CALLED);
    let stepped = [&UNENDED[..], &UPDATED, &[TOTALS_ABSENT], &LOOKED_UP].concat();
    gave(&figures, "step", &stepped);
    gave(&figures, "run", &stepped);
    gave(&figures, "list", &LISTED);
    gave(&figures, "rebates", &LISTED);
    gave(&figures, "export", &LISTED);
    assert!(figures.carried > 1000 && figures.split > 1000 && figures.compared > 10_000);
    assert!(figures.crowded > 100 && figures.corrected > 100);
    assert!(figures.checks.iter().all(|updates| *updates > 100));
    assert!(figures.repeated > 100 && figures.wide > 100);
    assert!(figures.bands.iter().all(|totals| *totals > 100));
    assert!(figures.classes.iter().all(|totals| *totals > 100));
}

#[test]
fn misleading_words() {
    let figures = class("misleading words", 3, 400_000, |prng, figures| {
        let w = words::misleading(prng);
        calls_on(&w, 30, 4, prng, figures);
    });
    gave(&figures, "call", &CALLED);
    gave(&figures, "step", &[&UNENDED[..], &LOOKED_UP, &[TOTALS_CROWDED]].concat());
    gave(&figures, "list", &LISTED);
    gave(&figures, "rebates", &LISTED);
    gave(&figures, "export", &LISTED);
    assert!(figures.carried > 1000 && figures.split > 100 && figures.compared > 1000);
    assert!(figures.crowded > 100 && figures.corrected > 100);
    assert!(figures.checks.iter().all(|updates| *updates > 100));
    assert!(figures.repeated > 100 && figures.wide > 100);
}

#[test]
fn tables_that_nothing_damaged_are_never_strange() {
    let figures = class("undamaged tables", 4, 300_000, |prng, figures| {
        let s = words::settings(prng);
        let w = words::noise(words_needed(s) + prng.place(3), prng);
        let mut choices = Prng::new(prng.draw());
        let mut trial = Trial::new(&w, prng, figures);
        assert_eq!(trial.open(s.workers, s.capacity, s.depth), TOTALS_OK);
        for _ in 0..1000 {
            undamaged_call(&mut trial, s, &mut choices);
        }
    });
    gave(&figures, "step", &[&[TOTALS_MOVED, TOTALS_IDLE, TOTALS_ABSENT][..], &UPDATED, &LOOKED_UP].concat());
    assert!(figures.carried > 1000 && figures.split > 100);
    assert!(figures.crowded > 100 && figures.corrected > 100);
    assert!(figures.bands.iter().all(|totals| *totals > 100));
    assert!(figures.classes.iter().all(|totals| *totals > 100));
}

/// The steps and the checks that an answer may come with: of one worker's update the first two.
fn ends(s: Settings, number: u64) -> Vec<(u64, u64)> {
    if LOOKED_UP.contains(&number) {
        return vec![(TOTALS_LOOKUP_STEPS, 0)];
    }
    let checks = if s.workers == 1 { 2 } else { 4 };
    steps_at_checks(s).into_iter().zip(1..=checks).collect()
}

/// A call on a table that nothing damaged: it is not strange, answers come at their steps, and the listing ascends.
fn undamaged_call(trial: &mut Trial, s: Settings, prng: &mut Prng) {
    let worker = prng.below(s.workers);
    let idle = trial.words()[worker_at(s, worker as usize) + WORKER_KIND] == KIND_NONE;
    let number = match prng.below(42) {
        0 => trial.list(),
        1 => trial.rebates(),
        2 => trial.export(),
        3 => trial.any_operation(worker),
        4..=32 if idle => trial.any_operation(worker),
        _ => {
            let (number, told) = trial.step(worker);
            let told = told.map(|[steps, _, check]| (steps, check));
            assert!(told.is_none_or(|told| ends(s, number).contains(&told)), "{number} with {told:?}");
            number
        }
    };
    assert_ne!(number, TOTALS_STRANGE);
    let rows = rows(trial.words()).expect("a table");
    assert!(rows.windows(2).all(|pair| pair[0].0 < pair[1].0), "not ascending");
    assert!(rows.len() <= (s.capacity << s.depth) as usize);
}

/// The words are listed in these rows, and with their rebates in the same order, and exported as their file; also into
/// lists and an output that are longer, of which the rest stays.
fn shows(w: &mut [u64], rows: &[(u32, i64)]) {
    let (rebates, file) = (rebate_rows(rows), file(rows));
    assert_eq!(Table::over(w).listing().as_deref(), Ok(rows));
    assert_eq!(Table::over(w).rebates().as_ref(), Ok(&rebates));
    assert_eq!(Table::over(w).export().as_ref(), Ok(&file));
    let (words, count) = (Lent::new(w, 9), rows.len());
    for places in [[count, count], [count + 2, count + 1]] {
        assert_eq!(lent::list(&words, places, Lent::new(&[1, 2], 9), Ok(rows.to_vec())), TOTALS_OK);
        assert_eq!(lent::rebates(&words, places, Lent::new(&[1, 2], 9), Ok(rebates.clone())), TOTALS_OK);
    }
    for length in [file.len(), file.len() + 2] {
        assert_eq!(lent::export(&words, length, Lent::new(&[1, 2], 9), Ok(file.clone())), TOTALS_OK);
    }
}

#[test]
fn a_listing_of_accounts_that_come_again_or_have_more_than_32_bits() {
    let s = Settings { workers: 1, capacity: 6, depth: 1 };
    let mut w = vec![0; words_needed(s)];
    let opening = totals::Settings::new(s.workers, s.capacity, s.depth).expect("settings in their range");
    Table::open(&mut w, opening).expect("as many words as are needed");
    // six items in the only bucket, which both entries of the directory name
    let (directory, empty) = (directory_start(s), w.len() - WIDEST_RECORD);
    let items = w[directory] as usize + RECORD_ACCOUNTS;
    w[items - RECORD_ACCOUNTS + RECORD_COUNT] = 6;
    w[items..][..6].copy_from_slice(&[1001, 1000 + (5 << 32), 1002, 1000, 1001 + (1 << 63), 1000]);
    w[items + 6..][..6].copy_from_slice(&[i64::MAX, 7, 0, -7, i64::MIN, 7].map(|total| total as u64));
    let [first, second] = [[(1000, -7), (1000, 7), (1000, 7)], [(1001, i64::MIN), (1001, i64::MAX), (1002, 0)]];
    shows(&mut w, &[first, second].concat());
    // the second entry names a record without accounts: 1001, whose place begins with 1, is not listed
    assert_eq!([1000, 1001, 1002].map(|account| place(account) >> 31), [0, 1, 0]);
    (w[directory + 1], w[empty + RECORD_COUNT]) = (empty as u64, 0);
    shows(&mut w, &[&first[..], &second[2..]].concat());
}

#[test]
fn zeros_are_strange() {
    let mut prng = Prng::new(5);
    let mut figures = Figures::default();
    for length in (0..2000).chain([8192, 17_305, 100_000]) {
        let w = vec![0; length];
        let mut trial = Trial::new(&w, &mut prng, &mut figures);
        let stepped = [trial.call(0, KIND_INSERT, 5, 700), trial.step(0).0, trial.run(0, 9)];
        let listed = [trial.list(), trial.rebates(), trial.export()];
        assert_eq!((stepped, listed), ([TOTALS_STRANGE; 3], [TOTALS_STRANGE; 3]));
    }
    figures.print("zeros");
}
