//! A table by the C functions, with guards around whatever is lent.

use crate::lent::{self, told, Lent};
use crate::{number_of, Interface, Outcome, Rows};
use model::prng::Prng;
use model::settings::Settings;
use totals::raw;

pub struct Flat {
    words: Lent<u64>,
    prng: Prng,
}

impl Flat {
    pub fn new(seed: u64) -> Flat {
        Flat { words: Lent::new(&[], 0), prng: Prng::new(seed) }
    }

    /// A report of 0 to 4 places.
    fn report(&mut self) -> Lent<u64> {
        let items: Vec<u64> = (0..self.prng.below(5)).map(|_| self.prng.draw()).collect();
        Lent::new(&items, self.prng.draw())
    }

    /// The words, to be compared later, where a call is to be refused.
    fn kept(&self, refused: bool) -> Option<Vec<u64>> {
        refused.then(|| self.words.items().to_vec())
    }

    /// No guard was written, and no word by a refused call.
    fn unchanged(&self, kept: Option<Vec<u64>>) {
        assert!(self.words.intact(), "a word outside the lent ones was written");
        assert!(kept.is_none_or(|kept| kept == self.words.items()), "a refused call changed a word");
    }
}

impl Interface for Flat {
    fn open(&mut self, [workers, capacity, depth]: [u64; 3], length: usize, want: Result<(), u8>) {
        if want.is_ok() {
            // what the words held stays in them, cut or lengthened
            let mut words = self.words.items().to_vec();
            words.resize(length, self.prng.draw());
            self.words = Lent::new(&words, self.prng.draw());
        }
        let needed = unsafe { raw::totals_words_needed(workers, capacity, depth) };
        assert_eq!(needed, Settings::new(workers, capacity, depth).map_or_else(u64::from, |settings| settings.words()));
        let kept = self.kept(want.is_err());
        let w = &mut self.words.items_mut()[..length];
        let number = unsafe { raw::totals_open(w.as_mut_ptr(), w.len(), workers, capacity, depth) };
        assert_eq!(number, number_of(&want));
        self.unchanged(kept);
    }

    fn call(&mut self, worker: u64, kind: u64, account: u32, total: i64, want: Result<(), u8>) {
        let kept = self.kept(want.is_err());
        let w = self.words.items_mut();
        let number = unsafe { raw::totals_call(w.as_mut_ptr(), w.len(), worker, kind, account, total) };
        assert_eq!(number, number_of(&want));
        self.unchanged(kept);
    }

    fn step(&mut self, worker: u64, want: Outcome) {
        let kept = self.kept(want.is_refused());
        let mut report = self.report();
        let before = report.items().to_vec();
        let (w, r) = (self.words.items_mut(), report.items_mut());
        let number = unsafe { raw::totals_step(w.as_mut_ptr(), w.len(), worker, r.as_mut_ptr(), r.len()) };
        assert_eq!(number, want.number());
        let says = if let Outcome::Moved(_) = want { None } else { want.told() };
        told(&report, before, says.as_ref().map_or(&[], |words| words));
        self.unchanged(kept);
    }

    fn run(&mut self, worker: u64, most: u64, want: Outcome) {
        let kept = self.kept(want.is_refused());
        let mut report = self.report();
        let before = report.items().to_vec();
        let (w, r) = (self.words.items_mut(), report.items_mut());
        let number = unsafe { raw::totals_run(w.as_mut_ptr(), w.len(), worker, most, r.as_mut_ptr(), r.len()) };
        assert_eq!(number, want.number());
        told(&report, before, want.told().as_ref().map_or(&[], |words| words));
        self.unchanged(kept);
    }

    fn list(&mut self, accounts: usize, totals: usize, want: Result<Rows, u8>) {
        let report = self.report();
        lent::list(&self.words, [accounts, totals], report, want.map_err(u64::from));
    }

    fn rebates(&mut self, accounts: usize, rebates: usize, want: Result<Rows<u64>, u8>) {
        let report = self.report();
        lent::rebates(&self.words, [accounts, rebates], report, want.map_err(u64::from));
    }

    fn export(&mut self, length: usize, want: Result<Vec<u8>, u8>) {
        let report = self.report();
        lent::export(&self.words, length, report, want.map_err(u64::from));
    }

    fn words(&mut self) -> &mut [u64] {
        self.words.items_mut()
    }
}
