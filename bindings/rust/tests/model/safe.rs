//! A table by the safe interface.

use crate::{Interface, Outcome, Rows};
use model::records::{KIND_DELETE, KIND_INSERT, KIND_LOOKUP, KIND_POST};
use model::totals::answer_words;
use totals::{Ran, Refusal, Settings, Stepped, Table};

#[derive(Default)]
pub struct Safe {
    words: Vec<u64>,
}

/// The result with a refusal's number.
fn numbered<T>(result: Result<T, Refusal>) -> Result<T, u8> {
    result.map_err(|refusal| refusal.number() as u8)
}

/// The rows that are written to two lists of so many places, or the refusal's number. What is past them stays.
fn written<T: Copy + PartialEq>(
    [account_places, item_places]: [usize; 2],
    before: T,
    write: impl Fn(&mut [u32], &mut [T]) -> Result<usize, Refusal>,
) -> Result<Rows<T>, u8> {
    let (mut accounts, mut items) = (vec![7; account_places], vec![before; item_places]);
    let count = numbered(write(&mut accounts, &mut items));
    let past = count.unwrap_or(0);
    assert!(accounts[past..].iter().all(|account| *account == 7) && items[past..].iter().all(|item| *item == before));
    Ok(accounts.into_iter().zip(items).take(count?).collect())
}

impl Interface for Safe {
    fn open(&mut self, [workers, capacity, depth]: [u64; 3], length: usize, want: Result<(), u8>) {
        if want.is_ok() {
            // what the words held stays in them, cut or lengthened
            self.words.resize(length, u64::MAX);
        }
        let opened =
            Settings::new(workers, capacity, depth).and_then(|s| Table::open(&mut self.words[..length], s).map(drop));
        assert_eq!(numbered(opened), want);
    }

    fn call(&mut self, worker: u64, kind: u64, account: u32, total: i64, want: Result<(), u8>) {
        let mut table = Table::over(&mut self.words);
        let called = match kind {
            KIND_INSERT => table.insert(worker, account, total),
            KIND_DELETE => table.delete(worker, account),
            KIND_LOOKUP => table.lookup(worker, account),
            KIND_POST => table.post(worker, account, total),
            _ => unreachable!("the safe interface has no other kinds"),
        };
        assert_eq!(numbered(called), want);
    }

    fn step(&mut self, worker: u64, want: Outcome) {
        match (numbered(Table::over(&mut self.words).step(worker)), want) {
            (Ok(Stepped::Moved), Outcome::Moved(_)) => {}
            (Ok(Stepped::Answered { answer, steps, check }), Outcome::Answered(wanted, want_steps, want_check)) => {
                assert_eq!((answer.to_string(), steps, check), (answer_words(wanted), want_steps, want_check));
            }
            (Err(number), Outcome::Refused(wanted)) => assert_eq!(number, wanted),
            (other, want) => panic!("{other:?}, but the model {want:?}"),
        }
    }

    fn run(&mut self, worker: u64, most: u64, want: Outcome) {
        match (numbered(Table::over(&mut self.words).run(worker, most)), want) {
            (Ok(Ran::Moved(steps)), Outcome::Moved(want_steps)) => assert_eq!(steps, want_steps),
            (Ok(Ran::Answered { answer, steps, check }), Outcome::Answered(wanted, want_steps, want_check)) => {
                assert_eq!((answer.to_string(), steps, check), (answer_words(wanted), want_steps, want_check));
            }
            (Err(number), Outcome::Refused(wanted)) => assert_eq!(number, wanted),
            (other, want) => panic!("{other:?}, but the model {want:?}"),
        }
    }

    fn list(&mut self, accounts: usize, totals: usize, want: Result<Rows, u8>) {
        let table = Table::over(&mut self.words);
        let listed = written([accounts, totals], -7, |accounts, totals| table.listing_into(accounts, totals));
        assert_eq!(listed, want);
        if want.is_ok() {
            assert_eq!(numbered(table.listing()), want);
        }
    }

    fn rebates(&mut self, accounts: usize, rebates: usize, want: Result<Rows<u64>, u8>) {
        let table = Table::over(&mut self.words);
        let given = written([accounts, rebates], u64::MAX, |accounts, rebates| table.rebates_into(accounts, rebates));
        assert_eq!(given, want);
        if want.is_ok() {
            assert_eq!(numbered(table.rebates()), want);
        }
    }

    fn export(&mut self, length: usize, want: Result<Vec<u8>, u8>) {
        let table = Table::over(&mut self.words);
        let mut out = vec![b'?'; length];
        let size = numbered(table.export_into(&mut out));
        let past = size.unwrap_or(0);
        assert!(out[past..].iter().all(|byte| *byte == b'?'));
        assert_eq!(size.map(|size| out[..size].to_vec()), want);
        if want.is_ok() {
            assert_eq!(numbered(table.export()), want);
        }
    }

    fn words(&mut self) -> &mut [u64] {
        &mut self.words
    }
}
