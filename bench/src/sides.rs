// The compared tables behind one trait, and a locked map.
use crate::fields::*;
use crate::same::capi::capi_c as capi;
use crate::text::write_rows;
use crate::twin::{Answer, Kind, Stepped, Twin};
use crate::work::Operation;
use std::collections::HashMap;
use std::hint::black_box;
use std::iter::zip;
use std::sync::Mutex;

// TOTALS_MOVED, a refusal's number, or an answer's number with the steps of the operation, the total found or posted
// and the check that answered.
#[derive(Clone, Copy, PartialEq, Eq, Debug)]
pub struct Reply {
    pub code: u64,
    pub steps: u64,
    pub total: i64,
    pub check: u64,
}

// The places of a report: steps, total and check.
type Report = [u64; 3];

impl Reply {
    fn new(code: u64, report: Report) -> Reply {
        Reply {
            code,
            steps: report[0],
            total: report[1] as i64,
            check: report[2],
        }
    }

    // of up to so many steps; what is reported where none of them answered, the steps given, is left out
    fn of_run(code: u64, report: Report) -> Reply {
        let told = code != TOTALS_MOVED;
        Reply::new(code, if told { report } else { Report::default() })
    }
}

pub trait Table {
    fn open(workers: u64, capacity: u64, depth: u64) -> Self;
    fn call(&mut self, worker: u64, o: Operation) -> u64;
    fn step(&mut self, worker: u64) -> Reply;
    fn run(&mut self, worker: u64, most: u64) -> Reply;
    fn rows(&self) -> Vec<(u32, i64)>;
    fn rebates(&self) -> Vec<(u32, u64)>;
    fn rebate(total: i64) -> u64;
    // the listing as a file at the start of the bytes: how many it takes
    fn export(&self, out: &mut [u8]) -> usize;
}

unsafe extern "C" {
    fn totals_words_needed(workers: u64, capacity: u64, depth: u64) -> u64;
    fn totals_open(words: *mut u64, len: usize, workers: u64, capacity: u64, depth: u64) -> u64;
    fn totals_call(
        words: *mut u64,
        len: usize,
        worker: u64,
        kind: u64,
        account: u32,
        total: i64,
    ) -> u64;
    fn totals_step(
        words: *mut u64,
        len: usize,
        worker: u64,
        report: *mut u64,
        places: usize,
    ) -> u64;
    fn totals_run(
        words: *mut u64,
        len: usize,
        worker: u64,
        most: u64,
        report: *mut u64,
        places: usize,
    ) -> u64;
    fn totals_list(
        words: *const u64,
        len: usize,
        accounts: *mut u32,
        account_places: usize,
        totals: *mut i64,
        total_places: usize,
        report: *mut u64,
        places: usize,
    ) -> u64;
    fn totals_rebates(
        words: *const u64,
        len: usize,
        accounts: *mut u32,
        account_places: usize,
        rebates: *mut u64,
        rebate_places: usize,
        report: *mut u64,
        places: usize,
    ) -> u64;
    fn totals_rebate(total: i64) -> u64;
    fn totals_export(
        words: *const u64,
        len: usize,
        out: *mut u8,
        out_len: usize,
        report: *mut u64,
        places: usize,
    ) -> u64;
}

const PLACES: usize = TOTALS_GREATEST_COUNT;

// What is read from the rows that are written to two lists, accounts and their totals or rebates, with the count in a
// report.
fn written<T: Copy + Default, R>(
    write: impl FnOnce(&mut [u32], &mut [T], &mut [u64]) -> u64,
    read: impl FnOnce(&[u32], &[T]) -> R,
) -> R {
    let (mut a, mut t, mut report) = ([0; PLACES], [T::default(); PLACES], [0; 2]);
    assert_eq!(write(&mut a, &mut t, &mut report), TOTALS_OK);
    let count = report[0] as usize;
    read(&a[..count], &t[..count])
}

fn pairs<T: Copy>(accounts: &[u32], beside: &[T]) -> Vec<(u32, T)> {
    zip(accounts, beside).map(|(a, t)| (*a, *t)).collect()
}

// The bytes of a file that is written to an output, with their number in a report.
fn filed(write: impl FnOnce(&mut [u64]) -> u64) -> usize {
    let mut report = [0; 2];
    assert_eq!(write(&mut report), TOTALS_OK);
    report[0] as usize
}

// The proved library.
pub struct Proved(pub Vec<u64>);

// totals_list or totals_rebates
type Lists<T> =
    unsafe extern "C" fn(*const u64, usize, *mut u32, usize, *mut T, usize, *mut u64, usize) -> u64;

impl Proved {
    fn written<T: Copy + Default, R>(
        &self,
        lists: Lists<T>,
        read: impl FnOnce(&[u32], &[T]) -> R,
    ) -> R {
        let words = &self.0;
        written(
            |a, t, report| unsafe {
                lists(
                    words.as_ptr(),
                    words.len(),
                    a.as_mut_ptr(),
                    a.len(),
                    t.as_mut_ptr(),
                    t.len(),
                    report.as_mut_ptr(),
                    report.len(),
                )
            },
            read,
        )
    }

    // Its listing alone.
    pub fn list(&self) {
        self.written(totals_list, |_, _| {})
    }

    // Its listing, and the file of that by a loop of `write!`: what its own export is measured beside.
    pub fn list_and_write(&self, out: &mut [u8]) -> usize {
        let file = |a: &[u32], t: &[i64]| write_rows(zip(a, t).map(|(a, t)| (*a, *t)), out);
        self.written(totals_list, file)
    }
}

impl Table for Proved {
    fn open(workers: u64, capacity: u64, depth: u64) -> Proved {
        let needed = unsafe { totals_words_needed(workers, capacity, depth) };
        let mut words = vec![0; black_box(needed as usize)];
        let opened =
            unsafe { totals_open(words.as_mut_ptr(), words.len(), workers, capacity, depth) };
        assert_eq!(opened, TOTALS_OK);
        Proved(words)
    }

    fn call(&mut self, worker: u64, o: Operation) -> u64 {
        unsafe {
            totals_call(
                self.0.as_mut_ptr(),
                self.0.len(),
                worker,
                o.kind,
                o.account,
                o.total,
            )
        }
    }

    fn step(&mut self, worker: u64) -> Reply {
        let mut report = Report::default();
        let code = unsafe {
            totals_step(
                self.0.as_mut_ptr(),
                self.0.len(),
                worker,
                report.as_mut_ptr(),
                report.len(),
            )
        };
        Reply::new(code, report)
    }

    fn run(&mut self, worker: u64, most: u64) -> Reply {
        let mut report = Report::default();
        let code = unsafe {
            totals_run(
                self.0.as_mut_ptr(),
                self.0.len(),
                worker,
                most,
                report.as_mut_ptr(),
                report.len(),
            )
        };
        Reply::of_run(code, report)
    }

    fn rows(&self) -> Vec<(u32, i64)> {
        self.written(totals_list, pairs)
    }

    fn rebates(&self) -> Vec<(u32, u64)> {
        self.written(totals_rebates, pairs)
    }

    fn rebate(total: i64) -> u64 {
        unsafe { totals_rebate(total) }
    }

    fn export(&self, out: &mut [u8]) -> usize {
        filed(|report| unsafe {
            totals_export(
                self.0.as_ptr(),
                self.0.len(),
                out.as_mut_ptr(),
                out.len(),
                report.as_mut_ptr(),
                report.len(),
            )
        })
    }
}

// The same source compiled as Rust.
pub struct Same(pub Vec<u64>);

impl Table for Same {
    fn open(workers: u64, capacity: u64, depth: u64) -> Same {
        let mut words =
            vec![0; black_box(capi::same_totals_words_needed(workers, capacity, depth) as usize)];
        assert_eq!(
            capi::same_totals_open(&mut words, workers, capacity, depth),
            TOTALS_OK
        );
        Same(words)
    }

    fn call(&mut self, worker: u64, o: Operation) -> u64 {
        capi::same_totals_call(&mut self.0, worker, o.kind, o.account, o.total)
    }

    fn step(&mut self, worker: u64) -> Reply {
        let mut report = Report::default();
        let code = capi::same_totals_step(&mut self.0, worker, black_box(&mut report));
        Reply::new(code, report)
    }

    fn run(&mut self, worker: u64, most: u64) -> Reply {
        let mut report = Report::default();
        let code = capi::same_totals_run(&mut self.0, worker, most, black_box(&mut report));
        Reply::of_run(code, report)
    }

    fn rows(&self) -> Vec<(u32, i64)> {
        written(
            |a, t, report| capi::same_totals_list(&self.0, a, t, report),
            pairs,
        )
    }

    fn rebates(&self) -> Vec<(u32, u64)> {
        written(
            |a, t, report| capi::same_totals_rebates(&self.0, a, t, report),
            pairs,
        )
    }

    fn rebate(total: i64) -> u64 {
        capi::same_totals_rebate(total)
    }

    fn export(&self, out: &mut [u8]) -> usize {
        filed(|report| capi::same_totals_export(&self.0, out, report))
    }
}

fn reply_of(stepped: Stepped) -> Reply {
    let (answer, steps, check) = match stepped {
        Stepped::Moved => return Reply::new(TOTALS_MOVED, Report::default()),
        Stepped::Refused(number) => return Reply::new(u64::from(number), Report::default()),
        Stepped::Answered(answer, steps, check) => (answer, u64::from(steps), u64::from(check)),
    };
    let (code, total) = match answer {
        Answer::Added => (TOTALS_ADDED, 0),
        Answer::Replaced => (TOTALS_REPLACED, 0),
        Answer::Removed => (TOTALS_REMOVED, 0),
        Answer::Absent => (TOTALS_ABSENT, 0),
        Answer::Found(total) => (TOTALS_FOUND, total),
        Answer::None => (TOTALS_NONE, 0),
        Answer::Posted(total) => (TOTALS_POSTED, total),
        Answer::Crowded => (TOTALS_CROWDED, 0),
        Answer::Overrun => (TOTALS_OVERRUN, 0),
    };
    Reply::new(code, [steps, total as u64, check])
}

impl Table for Twin {
    fn open(workers: u64, capacity: u64, depth: u64) -> Twin {
        Twin::new(workers as usize, capacity as usize, depth as u32)
    }

    fn call(&mut self, worker: u64, o: Operation) -> u64 {
        let kind = match o.kind {
            KIND_INSERT => Kind::Insert,
            KIND_DELETE => Kind::Delete,
            KIND_POST => Kind::Post,
            _ => Kind::Lookup,
        };
        u64::from(Twin::call(self, worker as usize, kind, o.account, o.total))
    }

    fn step(&mut self, worker: u64) -> Reply {
        reply_of(Twin::step(self, worker as usize))
    }

    fn run(&mut self, worker: u64, most: u64) -> Reply {
        reply_of(Twin::run(self, worker as usize, most as u32))
    }

    fn rows(&self) -> Vec<(u32, i64)> {
        Twin::rows(self)
    }

    fn rebates(&self) -> Vec<(u32, u64)> {
        Twin::rebates_on(Twin::rows(self))
    }

    fn rebate(total: i64) -> u64 {
        Twin::rebate(total)
    }

    fn export(&self, out: &mut [u8]) -> usize {
        write_rows(Twin::rows(self).into_iter(), out)
    }
}

// The standard library's map behind a lock, as it comes: its hash keys are drawn anew in each run, all else is fixed.
#[derive(Default)]
pub struct Map(Mutex<HashMap<u32, i64>>);

impl Map {
    // A map that has room for so many accounts from the start.
    pub fn with_room(accounts: usize) -> Map {
        Map(Mutex::new(HashMap::with_capacity(accounts)))
    }

    // The answer's code and the total found or posted.
    #[inline(never)]
    pub fn operate(&self, o: Operation) -> (u64, i64) {
        let mut map = self.0.lock().unwrap();
        match o.kind {
            KIND_INSERT => (
                if map.insert(o.account, o.total).is_some() {
                    TOTALS_REPLACED
                } else {
                    TOTALS_ADDED
                },
                0,
            ),
            KIND_DELETE => (
                if map.remove(&o.account).is_some() {
                    TOTALS_REMOVED
                } else {
                    TOTALS_ABSENT
                },
                0,
            ),
            KIND_POST => {
                // a sum with 0 is no overrun: an account that is made here stays
                let total = map.entry(o.account).or_insert(0);
                let Some(sum) = total.checked_add(o.total) else {
                    return (TOTALS_OVERRUN, 0);
                };
                *total = sum;
                (TOTALS_POSTED, sum)
            }
            _ => map
                .get(&o.account)
                .map_or((TOTALS_NONE, 0), |total| (TOTALS_FOUND, *total)),
        }
    }

    // The accounts in ascending order with their totals.
    pub fn rows(&self) -> Vec<(u32, i64)> {
        let map = self.0.lock().unwrap();
        let mut rows: Vec<(u32, i64)> = map.iter().map(|(a, t)| (*a, *t)).collect();
        rows.sort_unstable();
        rows
    }
}
