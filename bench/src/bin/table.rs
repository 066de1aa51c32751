// The same work on every side. `table count` runs each case once and names it, for callgrind, which writes one dump a
// case; `table time` prints nanoseconds an operation, and an account of an export. table.sh makes tables of both.
use bench::fields::TOTALS_GREATEST_EXPORT;
use bench::places;
use bench::sides::{Map, Proved, Same, Table};
use bench::text::write_rows;
use bench::turns::{by_run, by_steps, filled, on_map};
use bench::twin::Twin;
use bench::work::{even, exports, listing, rebates, work, Operation, Work};
use std::hint::black_box;
use std::time::Instant;

// proved library, same source as Rust, hand-written twin, each by single steps and by run; then the locked map
const SIDES: [&str; 7] = [
    "steps", "run", "same", "same-run", "twin", "twin-run", "map",
];
const WORKS: [&str; 6] = ["inserts", "deletes", "posts", "lookups", "mixed", "growing"];
const WORKERS: [u64; 3] = [1, 2, 8];
// of a listing: proved library, same source as Rust, hand-written twin; then a sort of the same rows alone
const LISTED: [&str; 4] = ["table", "same", "twin", "sort"];
// of rebates: the first three of these
const REBATED: [&str; 3] = ["table", "same", "twin"];
// of an export: the same three; the library's listing with a loop of `write!` after it; and both parts of that alone
const EXPORTED: [&str; 6] = ["table", "same", "twin", "write", "list", "loop"];

type Rows = Vec<(u32, i64)>;
type Rebates = Vec<(u32, u64)>;

// A sum that changes with any answer, whatever the order of answers.
fn mark(place: usize, code: u64, total: i64) -> u64 {
    (place as u64 + 1).wrapping_mul(code.wrapping_mul(1_000_003).wrapping_add(total as u64))
}

// callgrind counts anew from each entry of a function named measured_.., and there only what the compared functions do
#[inline(never)]
fn measured_steps<T: Table>(table: &mut T, n: u64, operations: &[Operation]) -> u64 {
    let mut sum = 0u64;
    by_steps(table, n, operations, |place, r| {
        sum = sum.wrapping_add(mark(place, r.code, r.total))
    });
    sum
}

#[inline(never)]
fn measured_run<T: Table>(table: &mut T, n: u64, operations: &[Operation]) -> u64 {
    let mut sum = 0u64;
    by_run(table, n, operations, |place, r| {
        sum = sum.wrapping_add(mark(place, r.code, r.total))
    });
    sum
}

#[inline(never)]
fn measured_map(map: &Map, operations: &[Operation]) -> u64 {
    let mut sum = 0u64;
    on_map(map, operations, |place, (code, total)| {
        sum = sum.wrapping_add(mark(place, code, total))
    });
    sum
}

#[inline(never)]
fn measured_listing<T: Table>(table: &T) -> Rows {
    table.rows()
}

#[inline(never)]
fn measured_rebates<T: Table>(table: &T) -> Rebates {
    table.rebates()
}

#[inline(never)]
fn measured_alone<T: Table>(operations: &[Operation]) -> Rebates {
    let rebate = |o: &Operation| (o.account, T::rebate(o.total));
    operations.iter().map(rebate).collect()
}

// So often the same file at the start of the bytes: how many it takes.
#[inline(never)]
fn measured_file(times: usize, out: &mut [u8], make: impl Fn(&mut [u8]) -> usize) -> u64 {
    let mut size = 0;
    for _ in 0..times {
        size = make(black_box(&mut *out));
    }
    size as u64
}

#[inline(never)]
fn measured_sort(mut rows: Rows) -> Rows {
    sort_rows(&mut rows);
    rows
}

#[inline(never)]
fn sort_rows(rows: &mut Rows) {
    rows.sort_unstable();
}

// callgrind writes a dump at each entry: the case is named in the order of the dumps
#[inline(never)]
fn counted(w: &Work, side: &str, operations: usize) {
    println!("{} {} {side} {operations}", w.name, w.workers);
}

// The time of the measured operations, and the sum of their answers.
fn timed(f: impl FnOnce() -> u64) -> (f64, u64) {
    let start = Instant::now();
    let sum = f();
    (start.elapsed().as_nanos() as f64, sum)
}

fn on_table<T: Table>(steps: bool, w: &Work) -> (f64, u64) {
    let mut table: T = filled(w);
    if steps {
        timed(|| measured_steps(&mut table, w.workers, &w.measured))
    } else {
        timed(|| measured_run(&mut table, w.workers, &w.measured))
    }
}

fn on_side(side: &str, w: &Work) -> (f64, u64) {
    match side {
        "steps" => on_table::<Proved>(true, w),
        "run" => on_table::<Proved>(false, w),
        "same" => on_table::<Same>(true, w),
        "same-run" => on_table::<Same>(false, w),
        "twin" => on_table::<Twin>(true, w),
        "twin-run" => on_table::<Twin>(false, w),
        _ => {
            let map = Map::default();
            on_map(&map, &w.filling, |_, _| {});
            timed(|| measured_map(&map, &w.measured))
        }
    }
}

// The rows as the table meets them: by the first bits of their places, those of a bucket ascending.
fn in_the_directorys_order(w: &Work) -> Rows {
    let mut rows: Rows = w.filling.iter().map(|o| (o.account, o.total)).collect();
    rows.sort_unstable_by_key(|row| (places::place(row.0) >> (32 - w.depth), row.0));
    rows
}

fn listed(side: &str, w: &Work) -> Rows {
    match side {
        "table" => measured_listing(&filled::<Proved>(w)),
        "same" => measured_listing(&filled::<Same>(w)),
        "twin" => measured_listing(&filled::<Twin>(w)),
        _ => measured_sort(in_the_directorys_order(w)),
    }
}

// Of a whole table, or one a call on each of its totals.
fn rebates_of<T: Table>(alone: bool, w: &Work) -> Rebates {
    if alone {
        measured_alone::<T>(&w.filling)
    } else {
        measured_rebates(&filled::<T>(w))
    }
}

fn rebated(side: &str, alone: bool, w: &Work) -> Rebates {
    match side {
        "table" => rebates_of::<Proved>(alone, w),
        "same" => rebates_of::<Same>(alone, w),
        _ => rebates_of::<Twin>(alone, w),
    }
}

// The time of so many files that are made of one thing, and the file.
fn files<F>(times: usize, from: F, make: fn(&F, &mut [u8]) -> usize) -> (f64, Vec<u8>) {
    let mut out = vec![0; TOTALS_GREATEST_EXPORT];
    let (time, size) = timed(|| measured_file(times, &mut out, |out| make(&from, out)));
    out.truncate(size as usize);
    (time, out)
}

// Of a listing alone the file is empty.
fn exported(side: &str, times: usize, w: &Work) -> (f64, Vec<u8>) {
    match side {
        "table" => files(times, filled(w), Proved::export),
        "same" => files(times, filled(w), Same::export),
        "twin" => files(times, filled(w), <Twin as Table>::export),
        "write" => files(times, filled(w), Proved::list_and_write),
        "list" => files(times, filled(w), |table: &Proved, _| {
            table.list();
            0
        }),
        _ => files(times, filled::<Proved>(w).rows(), |rows, out| {
            write_rows(rows.iter().copied(), out)
        }),
    }
}

fn export_works() -> [Work; 3] {
    [
        exports("export-16", 16),
        exports("export-1000", 1000),
        exports("export-4096", 4096),
    ]
}

// The answers of single steps agree with each other, those of `run` with the map's.
fn assert_equal(w: &Work, sums: &[u64; 7]) {
    let [steps, run, same, same_run, twin, twin_run, map] = *sums;
    assert_eq!([steps; 2], [same, twin], "{} n {}", w.name, w.workers);
    assert_eq!(
        [run; 3],
        [same_run, twin_run, map],
        "{} n {}",
        w.name,
        w.workers
    );
}

fn count_operations() {
    for name in WORKS {
        for n in WORKERS {
            let w = work(name, n, 4000);
            let sums = SIDES.map(|side| {
                let (_, sum) = on_side(side, &w);
                counted(&w, side, w.measured.len());
                sum
            });
            assert_equal(&w, &sums);
        }
    }
    for depth in [0, 4, 8] {
        let w = even(depth, 4000);
        for side in ["steps", "run"] {
            on_side(side, &w);
            counted(&w, side, w.measured.len());
        }
    }
}

fn count_listings() {
    for accounts in [16, 1000, 4096] {
        let w = listing(accounts);
        let rows = LISTED.map(|side| {
            let rows = listed(side, &w);
            counted(&w, side, w.filling.len());
            rows
        });
        assert!(rows.iter().all(|other| *other == rows[3]), "{}", w.name);
        assert_eq!(rows[3].len(), w.filling.len());
    }
}

fn count_rebates(alone: bool, w: &Work) {
    let rows = REBATED.map(|side| {
        let rows = rebated(side, alone, w);
        counted(w, side, w.filling.len());
        rows
    });
    assert!(rows.iter().all(|other| *other == rows[2]), "{}", w.name);
    assert_eq!(rows[2].len(), w.filling.len());
}

// The file of all sides that make one, which has a line for each account and one before them.
fn one_file(w: &Work, files: [Vec<u8>; EXPORTED.len()]) -> Vec<u8> {
    let [table, same, twin, write, list, alone] = files;
    let others = [same, twin, write, alone];
    assert!(others.iter().all(|other| *other == table), "{}", w.name);
    assert!(list.is_empty());
    let lines = table.iter().filter(|byte| **byte == b'\n').count();
    assert_eq!(lines, w.filling.len() + 1);
    table
}

fn count_exports(w: &Work) {
    let files = EXPORTED.map(|side| {
        let (_, file) = exported(side, 1, w);
        counted(w, side, w.filling.len());
        file
    });
    one_file(w, files);
}

// One line a case, in the order of callgrind's dumps: work, workers, side, operations, or accounts, or totals.
fn count() {
    count_operations();
    count_listings();
    count_rebates(false, &rebates("rebates-16", 16));
    count_rebates(false, &rebates("rebates-1000", 1000));
    count_rebates(false, &rebates("rebates-4096", 4096));
    count_rebates(true, &rebates("rebates-alone", 4096));
    export_works().iter().for_each(count_exports);
}

// A line a side: the least of nine rounds in which every side has its turn.
fn time_sides(w: &Work, sides: &[&str], once: impl Fn(&str) -> f64) {
    let mut least = vec![f64::MAX; sides.len()];
    for _ in 0..9 {
        for (i, side) in sides.iter().enumerate() {
            least[i] = least[i].min(once(side));
        }
    }
    for (side, t) in sides.iter().zip(least) {
        println!("{} {} {side} {t:.1}", w.name, w.workers);
    }
}

// An account's bytes, then its nanoseconds, over about as many rows of each work. The same rows come again and again:
// where they are few, the processor learns their lengths, on every side.
fn time_exports(w: &Work) {
    let accounts = w.filling.len();
    let times = 65_536 / accounts;
    let size = one_file(w, EXPORTED.map(|side| exported(side, 1, w).1)).len();
    println!(
        "{} {} bytes {:.2}",
        w.name,
        w.workers,
        size as f64 / accounts as f64
    );
    time_sides(w, &EXPORTED, |side| {
        exported(side, times, w).0 / (times * accounts) as f64
    });
}

// One line a case: work, workers, side, nanoseconds an operation or an account.
fn time() {
    for name in WORKS {
        for n in WORKERS {
            let w = work(name, n, 40_000);
            time_sides(&w, &SIDES, |side| {
                on_side(side, &w).0 / w.measured.len() as f64
            });
        }
    }
    export_works().iter().for_each(time_exports);
}

fn main() {
    match std::env::args().nth(1).as_deref() {
        Some("count") => count(),
        Some("time") => time(),
        _ => {
            eprintln!("usage: table (count|time)");
            std::process::exit(2);
        }
    }
}
