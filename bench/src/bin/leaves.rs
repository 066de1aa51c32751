// Runs one operation on a bucket record many times, by the proved library or by the same source compiled as Rust, for
// an instruction count.
// Usage: leaves (proved|same) (move|search|put|remove|half) ACCOUNTS WORKERS TIMES
use bench::fields::{GREATEST_CAPACITY, RECORD_ACCOUNTS, RECORD_COUNT, WIDEST_RECORD};
use bench::leaf::{proved, rust, Work, HALF, MOVE, PUT, REMOVE, SEARCH};
use bench::places::account_at;
use std::hint::black_box;

// Where the second record stands: past the first, whatever its size.
const SECOND: usize = 64;
const _: () = assert!(WIDEST_RECORD <= SECOND);

const USAGE: &str =
    "usage: leaves (proved|same) (move|search|put|remove|half) ACCOUNTS WORKERS TIMES";

// The accounts at places 10, 20, .., ascending.
fn accounts_of(count: u32) -> Vec<u64> {
    let mut accounts: Vec<u64> = (1..=count).map(|i| account_at(10 * i).into()).collect();
    accounts.sort_unstable();
    accounts
}

// A record at 0 with these accounts, and room for the second.
fn words(accounts: &[u64], b: usize) -> Vec<u64> {
    let mut w = vec![0u64; 2 * SECOND];
    w[RECORD_COUNT] = accounts.len() as u64;
    for (i, account) in accounts.iter().enumerate() {
        w[RECORD_ACCOUNTS + i] = *account;
        w[RECORD_ACCOUNTS + b + i] = 1000 + i as u64;
    }
    w
}

// Of the middle account; a put is of a new one behind it, a half of depth 1 and prefix 0, which has all accounts.
fn work(which: u64, accounts: &[u64], n: usize) -> Work {
    let middle = accounts[accounts.len() / 2];
    let (account, total) = match which {
        PUT => (middle + 5, 77),
        HALF => (1, 0),
        _ => (middle, 77),
    };
    Work {
        which,
        q: 0,
        to: SECOND,
        b: GREATEST_CAPACITY,
        n,
        account,
        total,
    }
}

fn main() {
    let args: Vec<String> = std::env::args().skip(1).collect();
    let [side, operation, accounts, workers, times] = &args[..] else {
        eprintln!("{USAGE}");
        std::process::exit(2);
    };
    let number = |s: &String| s.parse::<usize>().expect("a number");
    let which = match operation.as_str() {
        "move" => MOVE,
        "search" => SEARCH,
        "put" => PUT,
        "remove" => REMOVE,
        "half" => HALF,
        _ => panic!("an operation"),
    };
    let accounts = accounts_of(number(accounts) as u32);
    let work = work(which, &accounts, number(workers));
    let mut w = words(&accounts, GREATEST_CAPACITY);
    let mut sum = 0u64;
    for _ in 0..number(times) {
        let r = if side == "proved" {
            proved(black_box(&mut w), black_box(work))
        } else {
            rust(black_box(&mut w), black_box(work))
        };
        sum = sum.wrapping_add(r);
    }
    println!("{sum}");
}
