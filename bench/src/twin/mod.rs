// Document 01's method, with document 02's posts, rule of crowding, places of accounts and rebate, written by hand in
// Rust: a directory, buckets with state, toggle, applied bits and settled tickets, slots, two passes, step by step. A
// twin of the table for comparison, with no use of its sources.
mod bucket;
mod phase;
mod rebate;

use crate::fields::*;
use bucket::{first_bits, Bucket, Update};
pub use bucket::{Answer, Kind};
use phase::{phase, Phase};
use rebate::rebate;

#[derive(Clone, Copy, PartialEq, Eq, Debug)]
pub enum Stepped {
    Moved,
    // with the steps taken, and the check that answered an update
    Answered(Answer, u32, u8),
    // a refusal's number
    Refused(u8),
}

// What a worker is about, and what it has read: its bucket and that state's version, the toggle, the directory's
// version, the slots; how many checks it has made. A bit of `marked` for each worker whose bucket is to be split.
#[derive(Clone)]
struct Worker {
    operation: Option<Update>,
    last_ticket: u64,
    steps: u32,
    checks: u8,
    bucket: usize,
    version: u32,
    toggle: u8,
    directory_version: u32,
    marked: u8,
    slots: [Option<Update>; GREATEST_WORKERS],
}

// The directory is kept at the greatest depth: a bucket stands at all entries that begin with its prefix.
pub struct Twin {
    n: usize,
    capacity: usize,
    greatest: u32,
    directory: Vec<usize>,
    directory_version: u32,
    buckets: Vec<Bucket>,
    slots: [Option<Update>; GREATEST_WORKERS],
    workers: Vec<Worker>,
}

impl Twin {
    pub fn new(n: usize, capacity: usize, greatest: u32) -> Twin {
        let worker = Worker {
            operation: None,
            last_ticket: 0,
            steps: 0,
            checks: 0,
            bucket: 0,
            version: 0,
            toggle: 0,
            directory_version: 0,
            marked: 0,
            slots: [None; GREATEST_WORKERS],
        };
        Twin {
            n,
            capacity,
            greatest,
            directory: vec![0; 1 << greatest],
            directory_version: 0,
            buckets: vec![Bucket::new(0, 0)],
            slots: [None; GREATEST_WORKERS],
            workers: vec![worker; n],
        }
    }

    #[inline(never)]
    pub fn call(&mut self, w: usize, kind: Kind, account: u32, total: i64) -> u8 {
        let Some(worker) = self.workers.get_mut(w) else {
            return TOTALS_STRANGER as u8;
        };
        if worker.operation.is_some() {
            return TOTALS_BUSY as u8;
        }
        if kind != Kind::Lookup {
            if worker.last_ticket == GREATEST_TICKET {
                return TOTALS_SPENT as u8;
            }
            worker.last_ticket += 1;
        }
        worker.operation = Some(Update {
            kind,
            account,
            total,
            ticket: worker.last_ticket,
        });
        worker.steps = 0;
        worker.checks = 0;
        TOTALS_OK as u8
    }

    #[inline(never)]
    pub fn step(&mut self, w: usize) -> Stepped {
        self.advance(w)
    }

    // Up to so many steps, ending early at an answer.
    #[inline(never)]
    pub fn run(&mut self, w: usize, most: u32) -> Stepped {
        let Some(worker) = self.workers.get(w) else {
            return Stepped::Refused(TOTALS_STRANGER as u8);
        };
        if worker.operation.is_none() {
            return Stepped::Refused(TOTALS_IDLE as u8);
        }
        for _ in 0..most {
            let stepped = self.advance(w);
            if stepped != Stepped::Moved {
                return stepped;
            }
        }
        Stepped::Moved
    }

    // The accounts in ascending order with their totals; a bucket's entries are neighbours.
    #[inline(never)]
    pub fn rows(&self) -> Vec<(u32, i64)> {
        let mut entries = self.directory.clone();
        entries.dedup();
        let buckets = entries.iter().map(|i| &self.buckets[*i]);
        let mut rows: Vec<(u32, i64)> = buckets
            .flat_map(|b| (0..b.count).map(|k| (b.accounts[k], b.totals[k])))
            .collect();
        rows.sort_unstable();
        rows
    }

    #[inline(never)]
    pub fn rebate(total: i64) -> u64 {
        rebate(total)
    }

    // Such rows with the rebates on their totals. It does not call `rows` itself: callgrind stops counting where one
    // counted function calls another.
    #[inline(never)]
    pub fn rebates_on(rows: Vec<(u32, i64)>) -> Vec<(u32, u64)> {
        rows.into_iter()
            .map(|(account, total)| (account, rebate(total)))
            .collect()
    }

    #[inline(always)]
    fn advance(&mut self, w: usize) -> Stepped {
        let Some(worker) = self.workers.get_mut(w) else {
            return Stepped::Refused(TOTALS_STRANGER as u8);
        };
        let Some(operation) = worker.operation else {
            return Stepped::Refused(TOTALS_IDLE as u8);
        };
        let k = worker.steps;
        worker.steps += 1;
        let answer = match operation.kind {
            Kind::Lookup if k == 0 => {
                self.read_directory(w, operation.account);
                None
            }
            Kind::Lookup => Some(self.buckets[worker.bucket].look(operation.account)),
            _ => self.update_step(w, &operation, phase(k as usize, self.n)),
        };
        let Some(answer) = answer else {
            return Stepped::Moved;
        };
        let worker = &mut self.workers[w];
        worker.operation = None;
        Stepped::Answered(answer, k + 1, worker.checks)
    }

    #[inline(always)]
    fn update_step(&mut self, w: usize, update: &Update, phase: Phase) -> Option<Answer> {
        let worker = &mut self.workers[w];
        let bucket = &mut self.buckets[worker.bucket];
        match phase {
            Phase::Announce => self.slots[w] = Some(*update),
            Phase::ReadDirectory => self.read_directory(w, update.account),
            Phase::Flip => bucket.toggle ^= 1 << w,
            Phase::ReadState => worker.version = bucket.version,
            Phase::ReadToggle => worker.toggle = bucket.toggle,
            Phase::ReadSlot(j) => worker.slots[j] = self.slots[j],
            Phase::Swap => self.swap(w),
            Phase::Check => {
                worker.checks += 1;
                return self.check(w, update);
            }
            Phase::CopyDirectory => {
                worker.directory_version = self.directory_version;
                worker.marked = 0;
            }
            Phase::StateStep(j) => self.state_step(w, j),
            Phase::SwapDirectory => self.swap_directory(w),
        }
        None
    }

    fn bucket_of(&self, account: u32) -> usize {
        self.directory[first_bits(account, self.greatest) as usize]
    }

    fn read_directory(&mut self, w: usize, account: u32) {
        self.workers[w].bucket = self.bucket_of(account);
    }

    fn swap(&mut self, w: usize) {
        let worker = &self.workers[w];
        let bucket = &mut self.buckets[worker.bucket];
        if worker.version != bucket.version {
            return;
        }
        let changed = worker.toggle ^ bucket.applied;
        for (j, slot) in worker.slots[..self.n].iter().enumerate() {
            if changed >> j & 1 == 0 || bucket.full_below(self.greatest, self.capacity) {
                continue;
            }
            match slot {
                Some(update) if update.ticket > bucket.settled[j] => {
                    bucket.carry(j, update, self.capacity)
                }
                _ => {}
            }
        }
        bucket.applied = worker.toggle;
        bucket.version += 1;
    }

    fn check(&self, w: usize, update: &Update) -> Option<Answer> {
        let bucket = &self.buckets[self.workers[w].bucket];
        (bucket.settled[w] >= update.ticket).then_some(bucket.answers[w])
    }

    // Marks worker j's bucket if it is full below the greatest depth, the update is unsettled there, and no mark of
    // this round is on it.
    fn state_step(&mut self, w: usize, j: usize) {
        let worker = &self.workers[w];
        let Some(update) = worker.slots[j] else {
            return;
        };
        let i = self.bucket_of(update.account);
        let bucket = &self.buckets[i];
        if !bucket.full_below(self.greatest, self.capacity) || bucket.settled[j] >= update.ticket {
            return;
        }
        let marked = |x: &usize| worker.marked >> x & 1 == 1;
        let before = (0..j)
            .filter(marked)
            .any(|x| worker.slots[x].is_some_and(|u| self.bucket_of(u.account) == i));
        if !before {
            self.workers[w].marked |= 1 << j;
        }
    }

    fn swap_directory(&mut self, w: usize) {
        let worker = &self.workers[w];
        if worker.directory_version != self.directory_version {
            return;
        }
        let (marked, slots) = (worker.marked, worker.slots);
        for j in (0..self.n).filter(|j| marked >> j & 1 == 1) {
            if let Some(update) = slots[j] {
                self.resolve(self.bucket_of(update.account), &slots);
            }
        }
        self.directory_version += 1;
    }

    // Every unsettled update that belongs to the bucket is carried out in worker order, after the splits that it needs.
    fn resolve(&mut self, i: usize, slots: &[Option<Update>; GREATEST_WORKERS]) {
        let bucket = &self.buckets[i];
        let (depth, prefix, settled) = (bucket.depth, bucket.prefix, bucket.settled);
        for (j, slot) in slots[..self.n].iter().enumerate() {
            let Some(update) = slot else { continue };
            if first_bits(update.account, depth) != prefix || settled[j] >= update.ticket {
                continue;
            }
            self.split_while_full(update.account);
            let to = self.bucket_of(update.account);
            self.buckets[to].carry(j, update, self.capacity);
        }
    }

    fn split_while_full(&mut self, account: u32) {
        loop {
            let bucket = &self.buckets[self.bucket_of(account)];
            if !bucket.full_below(self.greatest, self.capacity) {
                return;
            }
            let halves = [bucket.half(0), bucket.half(1)];
            for half in halves {
                let width = 1 << (self.greatest - half.depth);
                let from = half.prefix as usize * width;
                self.directory[from..from + width].fill(self.buckets.len());
                self.buckets.push(half);
            }
        }
    }
}
