//! Every call over lent words, with guards around whatever is lent: its number, its report, what it lists and every
//! word that it leaves are those of the same source compiled as Rust. And counts of what came back.

use crate::lent::{self, told, Lent};
use crate::listing::{listed_words, rebate_rows, sorted_rows};
use crate::words::{any_account, any_total, any_word, bucket_swaps, directory_swaps};
use crate::words::{posted_from, settled_from, steps_at_checks};
use model::cents::band;
use model::export::{export as exported, file};
use model::prng::Prng;
use model::rebate::BANDS;
use model::rows::{class, CLASSES};
use same::capi::capi_c as source;
use same::capi::fields::*;
use same::capi::interface::{Settings, ANSWER_CROWDED, GREATEST_KIND, KIND_INSERT, KIND_LOOKUP};
use same::capi::layout::addresses::{held_by, worker_at};
use same::capi::layout::shape::{settings_of, strange_words};
use totals::raw::{self, TOTALS_ADDED, TOTALS_GREATEST_CHECK, TOTALS_GREATEST_RUN as RUN, TOTALS_IDLE, TOTALS_MOVED};
use totals::raw::{TOTALS_NARROW, TOTALS_OK, TOTALS_OVERRUN, TOTALS_POSTED, TOTALS_SETTINGS, TOTALS_STRANGE};

const NAMES: [&str; 8] = ["words_needed", "open", "call", "step", "run", "list", "rebates", "export"];

/// What an answer tells: steps, total and check.
pub type Told = [u64; 3];

/// How often each call gave each number; a number of words needed counts as 0. How many updates each check answered. Of
/// steps, how many were a bucket swap that carried updates out or a directory swap that split; of updates in a bucket
/// that was full at the greatest depth, how many a bucket swap settled as crowded, and how many with another answer; of
/// runs, how many were held against single steps; of listings, in how many an account came again with another total,
/// and in how many one had more than 32 bits; of rebates that were given, how many were on a total that is not above 0,
/// and in each band; of totals that were exported, how many were of each class.
#[derive(Default)]
pub struct Figures {
    counts: [[u64; TOTALS_OVERRUN as usize + 1]; NAMES.len()],
    pub checks: [u64; TOTALS_GREATEST_CHECK as usize],
    pub carried: u64,
    pub split: u64,
    pub crowded: u64,
    pub corrected: u64,
    pub compared: u64,
    pub repeated: u64,
    pub wide: u64,
    pub bands: [u64; BANDS.len() + 1],
    pub classes: [u64; CLASSES],
}

impl Figures {
    fn add(&mut self, name: &str, number: u64) {
        let call = NAMES.iter().position(|n| *n == name).expect("a call");
        self.counts[call][number as usize] += 1;
    }

    pub fn calls(&self) -> u64 {
        self.counts.iter().flatten().sum()
    }

    /// How often a call gave a number.
    pub fn of(&self, name: &str, number: u64) -> u64 {
        let call = NAMES.iter().position(|n| *n == name).expect("a call");
        self.counts[call][number as usize]
    }

    /// Counts an update's step that was a bucket swap or a directory swap and changed more than numbers and bits.
    fn add_swap(&mut self, before: &[u64], after: &[u64], worker: u64) {
        let s = settings_of(before[HEADER_SETTINGS]);
        let (p, q) = (worker_at(s, worker as usize), held_by(before, s, worker as usize));
        if before[p + WORKER_KIND] == KIND_LOOKUP {
            return;
        }
        let steps = before[p + WORKER_STEPS] % STEPS_RANGE;
        let (count, always) = if bucket_swaps(s).contains(&steps) {
            self.add_settled(before, after, s, q);
            (&mut self.carried, [q + RECORD_NUMBER, q + RECORD_APPLIED])
        } else if directory_swaps(s).contains(&steps) {
            (&mut self.split, [HEADER_NUMBER; 2])
        } else {
            return;
        };
        let is_item = |at: &usize| *at != p + WORKER_STEPS && !always.contains(at);
        let changed = (0..before.len()).filter(is_item).any(|at| before[at] != after[at]);
        *count += u64::from(changed);
    }

    /// Counts the updates that a bucket swap settled in the record at q, where this was full at the greatest depth.
    fn add_settled(&mut self, before: &[u64], after: &[u64], s: Settings, q: usize) {
        if before[q + RECORD_COUNT] < s.capacity || before[q + RECORD_DEPTH] < s.depth {
            return;
        }
        let (tickets, n) = (settled_from(s, q), s.workers as usize);
        for at in (tickets..tickets + n).filter(|at| before[*at] != after[*at]) {
            match after[at + n] {
                ANSWER_CROWDED => self.crowded += 1,
                _ => self.corrected += 1,
            }
        }
    }

    /// Counts the check of an answered update; a lookup's is 0.
    fn add_check(&mut self, told: Told) {
        if let Some(before) = (told[2] as usize).checked_sub(1) {
            self.checks[before] += 1;
        }
    }

    /// Counts what the words of a listing had, whose rows are these.
    fn add_listing(&mut self, listed: &[(u64, i64)], rows: &[(u32, i64)]) {
        let again = |pair: &[(u32, i64)]| pair[0].0 == pair[1].0 && pair[0].1 != pair[1].1;
        self.repeated += u64::from(rows.windows(2).any(again));
        self.wide += u64::from(listed.iter().any(|row| row.0 > u64::from(u32::MAX)));
    }

    /// Counts the totals that rebates were given on.
    fn add_rebates(&mut self, rows: &[(u32, i64)]) {
        for (_, total) in rows {
            self.bands[band(*total)] += 1;
        }
    }

    /// Counts the totals that were exported.
    fn add_export(&mut self, rows: &[(u32, i64)]) {
        for (_, total) in rows {
            self.classes[class(*total)] += 1;
        }
    }

    pub fn print(&self, title: &str) {
        println!("{title}: {} calls; updates answered by each check {:?}", self.calls(), self.checks);
        println!(
            "  steps that carried out {}, that split {}; among neighbours crowded {}, corrected {}; runs compared {}",
            self.carried, self.split, self.crowded, self.corrected, self.compared
        );
        println!("  listings with an account twice {}, with one of more than 32 bits {}", self.repeated, self.wide);
        println!("  rebates on totals up to 0, and in each band {:?}", self.bands);
        println!("  totals exported, by class {:?}", self.classes);
        for (name, counts) in NAMES.iter().zip(&self.counts) {
            let given: Vec<String> =
                (0..).zip(counts).filter(|(_, n)| **n > 0).map(|(k, n)| format!("{k}: {n}")).collect();
            println!("  {name:12} {}", given.join(", "));
        }
    }
}

/// Words under test.
pub struct Trial<'a> {
    words: Lent<u64>,
    prng: &'a mut Prng,
    figures: &'a mut Figures,
}

impl<'a> Trial<'a> {
    pub fn new(words: &[u64], prng: &'a mut Prng, figures: &'a mut Figures) -> Trial<'a> {
        let words = Lent::new(words, prng.draw());
        Trial { words, prng, figures }
    }

    pub fn words(&self) -> &[u64] {
        self.words.items()
    }

    pub fn needed(&mut self, workers: u64, capacity: u64, depth: u64) {
        let number = unsafe { raw::totals_words_needed(workers, capacity, depth) };
        assert_eq!(number, source::same_totals_words_needed(workers, capacity, depth));
        self.figures.add("words_needed", if number == TOTALS_SETTINGS { number } else { TOTALS_OK });
    }

    pub fn open(&mut self, workers: u64, capacity: u64, depth: u64) -> u64 {
        let mut want = self.words().to_vec();
        let want_number = source::same_totals_open(&mut want, workers, capacity, depth);
        let w = self.words.items_mut();
        let number = unsafe { raw::totals_open(w.as_mut_ptr(), w.len(), workers, capacity, depth) };
        assert_eq!(number, want_number);
        self.same(&want);
        self.figures.add("open", number);
        number
    }

    pub fn call(&mut self, worker: u64, kind: u64, account: u32, total: i64) -> u64 {
        let mut want = self.words().to_vec();
        let want_number = source::same_totals_call(&mut want, worker, kind, account, total);
        let w = self.words.items_mut();
        let number = unsafe { raw::totals_call(w.as_mut_ptr(), w.len(), worker, kind, account, total) };
        assert_eq!(number, want_number);
        self.same(&want);
        self.figures.add("call", number);
        number
    }

    /// One step; also what was told where it answered and the report had room.
    pub fn step(&mut self, worker: u64) -> (u64, Option<Told>) {
        let (before, mut report) = (self.words().to_vec(), self.report());
        let (mut want, mut want_report) = (before.clone(), report.items().to_vec());
        let want_number = source::same_totals_step(&mut want, worker, &mut want_report);
        let (w, r) = (self.words.items_mut(), report.items_mut());
        let number = unsafe { raw::totals_step(w.as_mut_ptr(), w.len(), worker, r.as_mut_ptr(), r.len()) };
        assert_eq!(number, want_number, "step of worker {worker}");
        self.same(&want);
        report.holds(&want_report);
        if number == TOTALS_MOVED {
            self.figures.add_swap(&before, &want, worker);
        }
        self.figures.add("step", number);
        let told = want_report.first_chunk().copied().filter(|_| number >= TOTALS_ADDED);
        if let Some(told) = told {
            told_check(&before, worker, told);
            told_total(&before, worker, number, told);
            self.figures.add_check(told);
        }
        (number, told)
    }

    /// Up to so many steps, held also against as many single steps on a copy of the words.
    pub fn run(&mut self, worker: u64, most: u64) -> u64 {
        let (first, mut report) = (self.words().to_vec(), self.report());
        let before = report.items().to_vec();
        let (mut want, mut want_report) = (first.clone(), before.clone());
        let want_number = source::same_totals_run(&mut want, worker, most, &mut want_report);
        let (w, r) = (self.words.items_mut(), report.items_mut());
        let number = unsafe { raw::totals_run(w.as_mut_ptr(), w.len(), worker, most, r.as_mut_ptr(), r.len()) };
        assert_eq!(number, want_number, "run of worker {worker}, {most}");
        self.same(&want);
        report.holds(&want_report);
        if let Some((number_stepped, told_stepped, left)) = steps(first, worker, most) {
            assert_eq!(number, number_stepped, "single steps of worker {worker}, {most}");
            told(&report, before, told_stepped.as_ref().map_or(&[], |words| words));
            self.same(&left);
            self.figures.compared += 1;
        }
        self.figures.add("run", number);
        number
    }

    /// The listing, into lists that are a place too short, fit, or are up to two places longer; its rows are also told
    /// by the words.
    pub fn list(&mut self) -> u64 {
        let rows = rows(self.words()).unwrap_or_default();
        if !strange_words(self.words()) {
            let listed = listed_words(self.words());
            assert_eq!(rows, sorted_rows(&listed));
            self.figures.add_listing(&listed, &rows);
        }
        let places = self.places(rows.len());
        let want = listing(self.words(), places);
        let report = self.report();
        let number = lent::list(&self.words, places, report, want);
        self.figures.add("list", number);
        number
    }

    /// The rebates, into such lists: the rows that the words tell, with the second model's rebates. The source gives
    /// the same.
    pub fn rebates(&mut self) -> u64 {
        let strange = strange_words(self.words());
        let rows = if strange { Vec::new() } else { sorted_rows(&listed_words(self.words())) };
        let places = self.places(rows.len());
        let want = match places.iter().any(|places| *places < rows.len()) {
            _ if strange => Err(TOTALS_STRANGE),
            true => Err(TOTALS_NARROW),
            false => Ok(rebate_rows(&rows)),
        };
        assert_eq!(rebates(self.words(), places), want);
        let report = self.report();
        let number = lent::rebates(&self.words, places, report, want);
        self.figures.add("rebates", number);
        if number == TOTALS_OK {
            self.figures.add_rebates(&rows);
        }
        number
    }

    /// The export, into an output that is too short, fits, or is up to two bytes longer: the second model's file of the
    /// rows that the words tell. The source gives the same.
    pub fn export(&mut self) -> u64 {
        let told = |words: &[u64]| sorted_rows(&listed_words(words));
        let rows = (!strange_words(self.words())).then(|| told(self.words()));
        let size = file(rows.as_deref().unwrap_or_default()).len();
        let length = match self.prng.below(8) {
            0 => size - 1,
            1 => self.prng.place(size),
            _ => size + self.prng.place(3),
        };
        let mut out = vec![0; length];
        let want = exported(rows.as_deref(), &mut out).map(|size| out[..size].to_vec()).map_err(u64::from);
        assert_eq!(export(self.words(), length), want);
        let report = self.report();
        let number = lent::export(&self.words, length, report, want);
        self.figures.add("export", number);
        if number == TOTALS_OK {
            self.figures.add_export(&rows.unwrap_or_default());
        }
        number
    }

    /// Of each of two lists, how many places it has: a place too few for so many rows, as many, or up to two more.
    fn places(&mut self, count: usize) -> [usize; 2] {
        let mut places = || (count + self.prng.place(3)).saturating_sub(usize::from(self.prng.one_in(4)));
        [places(), places()]
    }

    /// A report of 0 to 4 places.
    fn report(&mut self) -> Lent<u64> {
        let items: Vec<u64> = (0..self.prng.below(5)).map(|_| self.prng.draw()).collect();
        Lent::new(&items, self.prng.draw())
    }

    fn same(&self, want: &[u64]) {
        assert!(self.words.intact(), "a word outside the lent ones was written");
        if self.words() != want {
            let at = self.words().iter().zip(want).position(|(a, b)| a != b);
            panic!("another word than expected at {at:?} of {}", want.len());
        }
    }

    /// One random call, to a worker that may be there, of any kind.
    pub fn any_call(&mut self, lists: u64) -> u64 {
        let first = self.words().get(HEADER_SETTINGS).copied().unwrap_or(0);
        let workers = settings_of(first).workers;
        let worker = match self.prng.below(16) {
            0 => any_word(self.prng, 8),
            1 => workers,
            _ => self.prng.below(workers),
        };
        match self.prng.below(16) {
            0 if self.prng.one_in(lists) => self.list(),
            1 if self.prng.one_in(lists) => self.rebates(),
            2 if self.prng.one_in(lists) => self.export(),
            0..=3 => self.any_operation(worker),
            4 => {
                let most = self.prng.one_of(&[0, 1, 2, 9, 60, RUN - 1, RUN, RUN + 1, u64::MAX]);
                self.run(worker, most)
            }
            _ => self.step(worker).0,
        }
    }

    pub fn any_operation(&mut self, worker: u64) -> u64 {
        let any = self.prng.one_in(16);
        let kind = if any { any_word(self.prng, 5) } else { self.prng.between(KIND_INSERT, GREATEST_KIND) };
        let (account, total) = (any_account(self.prng), any_total(self.prng));
        self.call(worker, kind, account, total as i64)
    }
}

/// What the source lists into lists of so many places, or the refusal's number.
fn listing(w: &[u64], [account_places, total_places]: [usize; 2]) -> Result<Vec<(u32, i64)>, u64> {
    let (mut accounts, mut totals, mut report) = (vec![0; account_places], vec![0; total_places], [0]);
    match source::same_totals_list(w, &mut accounts, &mut totals, &mut report) {
        TOTALS_OK => Ok(accounts.into_iter().zip(totals).take(report[0] as usize).collect()),
        number => Err(number),
    }
}

/// What rebates the source gives into lists of so many places, or the refusal's number.
fn rebates(w: &[u64], [account_places, rebate_places]: [usize; 2]) -> Result<Vec<(u32, u64)>, u64> {
    let (mut accounts, mut rebates, mut report) = (vec![0; account_places], vec![0; rebate_places], [0]);
    match source::same_totals_rebates(w, &mut accounts, &mut rebates, &mut report) {
        TOTALS_OK => Ok(accounts.into_iter().zip(rebates).take(report[0] as usize).collect()),
        number => Err(number),
    }
}

/// The file that the source exports into an output of so many bytes, or the refusal's number.
fn export(w: &[u64], length: usize) -> Result<Vec<u8>, u64> {
    let (mut out, mut report) = (vec![0; length], [0]);
    match source::same_totals_export(w, &mut out, &mut report) {
        TOTALS_OK => Ok(out[..report[0] as usize].to_vec()),
        number => Err(number),
    }
}

/// The rows of a listing, or the refusal of strange words.
pub fn rows(w: &[u64]) -> Result<Vec<(u32, i64)>, u64> {
    let strange = strange_words(w);
    let s = settings_of(if strange { 0 } else { w[HEADER_SETTINGS] });
    listing(w, [(s.capacity << s.depth) as usize; 2])
}

/// The check that an answer tells is a matter of its steps alone, whatever the words held before the last of them: 0
/// for a lookup; for an update as many of the four figures as are no greater. Only the last check comes at more steps.
fn told_check(before: &[u64], worker: u64, [steps, _, check]: Told) {
    let s = settings_of(before[HEADER_SETTINGS]);
    if before[worker_at(s, worker as usize) + WORKER_KIND] == KIND_LOOKUP {
        assert_eq!(check, 0, "a lookup of {steps} steps");
        return;
    }
    let figures = steps_at_checks(s);
    let passed: Vec<u64> = figures.into_iter().filter(|figure| *figure <= steps).collect();
    assert_eq!(check, passed.len() as u64, "an update of {steps} steps");
    assert!(passed.len() == figures.len() || passed.last() == Some(&steps), "an update of {steps} steps");
}

/// An update's total is the word that was settled for it, where the answer is posted, and else 0, whatever that word
/// is. Where that word is the worker's count of own steps, it has gone up before.
fn told_total(before: &[u64], worker: u64, number: u64, [_, total, _]: Told) {
    let (s, w) = (settings_of(before[HEADER_SETTINGS]), worker as usize);
    let (p, posted) = (worker_at(s, w), posted_from(s, held_by(before, s, w)) + w);
    if before[p + WORKER_KIND] == KIND_LOOKUP || posted == p + WORKER_STEPS {
        return;
    }
    assert_eq!(total, if number == TOTALS_POSTED { before[posted] } else { 0 }, "with {number}");
}

/// A run's number, what it tells, and the words it leaves.
type Run = (u64, Option<Told>, Vec<u64>);

/// What a run gives, by single steps. Nothing where a step changed the first two words: the next step checks them anew,
/// a run checks them once.
fn steps(mut w: Vec<u64>, worker: u64, most: u64) -> Option<Run> {
    let head = |w: &[u64]| w.get(HEADER_SETTINGS..=HEADER_NEEDED).map(<[u64]>::to_vec);
    let first = head(&w);
    let refusal = source::same_totals_step(&mut w.clone(), worker, &mut []);
    if refusal != TOTALS_MOVED && refusal < TOTALS_ADDED {
        return Some((refusal, None, w));
    }
    let most = most.min(RUN);
    for k in 0..most {
        let mut report = Told::default();
        let number = source::same_totals_step(&mut w, worker, &mut report);
        if head(&w) != first {
            return None;
        }
        match number {
            TOTALS_MOVED => {}
            // the operation vanished
            TOTALS_IDLE => return Some((TOTALS_MOVED, Some([k, 0, 0]), w)),
            _ => return Some((number, Some(report), w)),
        }
    }
    Some((TOTALS_MOVED, Some([most, 0, 0]), w))
}
