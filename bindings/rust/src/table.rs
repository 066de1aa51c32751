//! A table over borrowed words, and one that owns its words.

use crate::answer::{ran, stepped, Report};
use crate::{raw, Ran, Refusal, Settings, Stepped};

/// `TOTALS_OK` is done, any other number a refusal.
fn done(number: u64) -> Result<(), Refusal> {
    match number {
        raw::TOTALS_OK => Ok(()),
        _ => Err(Refusal::of(number)),
    }
}

/// A table over borrowed words. All of it is in the words: whoever has them can go on later with [`Table::over`].
///
/// Over words that hold no table every method is safe: it refuses with [`Refusal::Strange`] where the words fail the
/// checks of `include/totals.h`, and else works with what they hold. A refused call changes nothing.
///
/// ```
/// use totals::{Answer, Ran, Settings, Table};
/// let settings = Settings::new(1, 2, 1)?;
/// let mut words = vec![0; settings.words_needed()];
/// let mut table = Table::open(&mut words, settings)?;
/// table.insert(0, 5, 700)?;
/// assert_eq!(table.run(0, 12)?, Ran::Moved(12));
/// assert_eq!(table.run(0, 9)?, Ran::Answered { answer: Answer::Added, steps: 13, check: 1 });
/// table.lookup(0, 5)?;
/// assert_eq!(table.run(0, 2)?, Ran::Answered { answer: Answer::Found(700), steps: 2, check: 0 });
/// assert_eq!(table.listing()?, [(5, 700)]);
/// # Ok::<(), totals::Refusal>(())
/// ```
#[derive(Debug)]
pub struct Table<'a> {
    words: &'a mut [u64],
}

impl<'a> Table<'a> {
    /// The most accounts that a table opened with any settings holds, and that any words list.
    pub const GREATEST_COUNT: usize = 4096;

    /// The most bytes of an exported file: 15 for its first line, and 34 for each of as many rows as any words list.
    pub const GREATEST_EXPORT: usize = 139_279;

    /// A fresh, empty table, whatever the words held. Refuses with [`Refusal::Short`].
    ///
    /// ```
    /// use totals::{Refusal, Settings, Table};
    /// let settings = Settings::new(1, 2, 0)?;
    /// assert_eq!(Table::open(&mut [0; 161], settings).err(), Some(Refusal::Short));
    /// assert!(Table::open(&mut [0; 162], settings).is_ok());
    /// # Ok::<(), Refusal>(())
    /// ```
    pub fn open(words: &'a mut [u64], settings: Settings) -> Result<Table<'a>, Refusal> {
        let (workers, capacity, depth) = (settings.workers(), settings.capacity(), settings.depth());
        // SAFETY: the pointer and the length are those of a slice that is borrowed for the call.
        done(unsafe { raw::totals_open(words.as_mut_ptr(), words.len(), workers, capacity, depth) })?;
        Ok(Table { words })
    }

    /// The table that the words already hold.
    ///
    /// ```
    /// use totals::{Refusal, Settings, Table};
    /// let mut words = [0; 162];
    /// assert_eq!(Table::over(&mut words).lookup(0, 5), Err(Refusal::Strange));
    /// Table::open(&mut words, Settings::new(1, 2, 0)?)?;
    /// assert_eq!(Table::over(&mut words).lookup(0, 5), Ok(()));
    /// # Ok::<(), Refusal>(())
    /// ```
    pub fn over(words: &'a mut [u64]) -> Table<'a> {
        Table { words }
    }

    /// Hands an operation to a worker; `total` is a post's amount.
    fn call(&mut self, worker: u64, kind: u64, account: u32, total: i64) -> Result<(), Refusal> {
        // SAFETY: the pointer and the length are those of a slice that is borrowed for the call.
        done(unsafe { raw::totals_call(self.words.as_mut_ptr(), self.words.len(), worker, kind, account, total) })
    }

    /// Hands the worker an insert: the account's total is to be `total`. Refuses with `Strange`, `Stranger`, `Busy`,
    /// `Spent`, in this order.
    pub fn insert(&mut self, worker: u64, account: u32, total: i64) -> Result<(), Refusal> {
        self.call(worker, raw::TOTALS_INSERT, account, total)
    }

    /// Hands the worker a delete of the account. Refuses as [`Table::insert`]. It works however many places of others
    /// agree with the account's [`place`](crate::place) in the first M bits, and so makes room where an insert or a
    /// post is [`Crowded`](crate::Answer::Crowded).
    ///
    /// ```
    /// use totals::{Answer, Owned, Ran, Settings};
    /// let mut owned = Owned::new(Settings::new(1, 2, 0)?)?;
    /// let mut table = owned.table();
    /// let mut insert = |account, total| {
    ///     table.insert(0, account, total)?;
    ///     table.run(0, 99)
    /// };
    /// assert_eq!(insert(5, 50)?, Ran::Answered { answer: Answer::Added, steps: 13, check: 1 });
    /// assert_eq!(insert(6, 60)?, Ran::Answered { answer: Answer::Added, steps: 13, check: 1 });
    /// assert_eq!(insert(7, 70)?, Ran::Answered { answer: Answer::Crowded, steps: 13, check: 1 });
    /// assert_eq!(insert(6, 61)?, Ran::Answered { answer: Answer::Replaced, steps: 13, check: 1 });
    /// table.delete(0, 5)?;
    /// assert_eq!(table.run(0, 99)?, Ran::Answered { answer: Answer::Removed, steps: 13, check: 1 });
    /// table.insert(0, 7, 70)?;
    /// assert_eq!(table.run(0, 99)?, Ran::Answered { answer: Answer::Added, steps: 13, check: 1 });
    /// assert_eq!(table.listing()?, [(6, 61), (7, 70)]);
    /// # Ok::<(), totals::Refusal>(())
    /// ```
    pub fn delete(&mut self, worker: u64, account: u32) -> Result<(), Refusal> {
        self.call(worker, raw::TOTALS_DELETE, account, 0)
    }

    /// Hands the worker a post: the amount is to be added to the account's total, which is 0 where the account is not
    /// there; it is then made, also by an amount of 0. Refuses as [`Table::insert`].
    ///
    /// ```
    /// use totals::{Answer, Owned, Ran, Settings};
    /// let mut owned = Owned::new(Settings::new(1, 2, 1)?)?;
    /// let mut table = owned.table();
    /// let mut post = |amount| {
    ///     table.post(0, 5, amount)?;
    ///     table.run(0, 99)
    /// };
    /// assert_eq!(post(700)?, Ran::Answered { answer: Answer::Posted(700), steps: 13, check: 1 });
    /// assert_eq!(post(-900)?, Ran::Answered { answer: Answer::Posted(-200), steps: 13, check: 1 });
    /// // the sum has more than 64 bits: the total stays
    /// assert_eq!(post(i64::MIN)?, Ran::Answered { answer: Answer::Overrun, steps: 13, check: 1 });
    /// assert_eq!(table.listing()?, [(5, -200)]);
    /// # Ok::<(), totals::Refusal>(())
    /// ```
    pub fn post(&mut self, worker: u64, account: u32, amount: i64) -> Result<(), Refusal> {
        self.call(worker, raw::TOTALS_POST, account, amount)
    }

    /// Hands the worker a lookup of the account. Refuses with `Strange`, `Stranger`, `Busy`, in this order.
    pub fn lookup(&mut self, worker: u64, account: u32) -> Result<(), Refusal> {
        self.call(worker, raw::TOTALS_LOOKUP, account, 0)
    }

    /// One step of the worker's operation. Refuses with `Strange`, `Stranger`, `Idle`, in this order.
    ///
    /// ```
    /// use totals::{Answer, Owned, Refusal, Settings, Stepped};
    /// let mut owned = Owned::new(Settings::new(2, 2, 1)?)?;
    /// let mut table = owned.table();
    /// assert_eq!(table.step(1), Err(Refusal::Idle));
    /// table.lookup(1, 5)?;
    /// assert_eq!(table.step(1), Ok(Stepped::Moved));
    /// assert_eq!(table.step(1), Ok(Stepped::Answered { answer: Answer::None, steps: 2, check: 0 }));
    /// # Ok::<(), Refusal>(())
    /// ```
    pub fn step(&mut self, worker: u64) -> Result<Stepped, Refusal> {
        let mut report = Report::default();
        // SAFETY: the pointers and the lengths are those of two slices that are borrowed for the call.
        let number = unsafe {
            raw::totals_step(self.words.as_mut_ptr(), self.words.len(), worker, report.as_mut_ptr(), report.len())
        };
        stepped(number, report)
    }

    /// Up to `most` steps of the worker's operation, ending early at its answer; 256 at most, which no operation of an
    /// opened table takes. As many as [`Settings::greatest_steps`] end any operation. Refuses as [`Table::step`].
    ///
    /// ```
    /// use totals::{account_at, Answer, Owned, Ran, Settings};
    /// let settings = Settings::new(1, 2, 1)?;
    /// let mut owned = Owned::new(settings)?;
    /// let mut table = owned.table();
    /// let mut insert = |account| {
    ///     table.insert(0, account, 700)?;
    ///     table.run(0, settings.greatest_steps())
    /// };
    /// assert_eq!(insert(account_at(5))?, Ran::Answered { answer: Answer::Added, steps: 13, check: 1 });
    /// assert_eq!(insert(account_at(6))?, Ran::Answered { answer: Answer::Added, steps: 13, check: 1 });
    /// // it splits a full bucket first
    /// assert_eq!(insert(account_at(1 << 31))?, Ran::Answered { answer: Answer::Added, steps: 23, check: 2 });
    /// # Ok::<(), totals::Refusal>(())
    /// ```
    pub fn run(&mut self, worker: u64, most: u64) -> Result<Ran, Refusal> {
        let mut report = Report::default();
        let (words, length) = (self.words.as_mut_ptr(), self.words.len());
        // SAFETY: the pointers and the lengths are those of two slices that are borrowed for the call.
        let number = unsafe { raw::totals_run(words, length, worker, most, report.as_mut_ptr(), report.len()) };
        ran(number, report)
    }

    /// Writes the accounts with their totals to the start of both lists, ascending by the account's number, and nothing
    /// past the count, which it gives. Refuses with `Strange`, `Narrow`, in this order. Over words that no opening left
    /// an account may come more than once; its rows then stand in ascending order of their totals.
    ///
    /// ```
    /// use totals::{Answer, Owned, Ran, Settings};
    /// let mut owned = Owned::new(Settings::new(1, 2, 1)?)?;
    /// let mut table = owned.table();
    /// table.insert(0, 5, -700)?;
    /// assert_eq!(table.run(0, 99)?, Ran::Answered { answer: Answer::Added, steps: 13, check: 1 });
    /// let (mut accounts, mut totals) = ([0; 2], [0; 2]);
    /// assert_eq!(table.listing_into(&mut accounts, &mut totals)?, 1);
    /// assert_eq!((accounts, totals), ([5, 0], [-700, 0]));
    /// # Ok::<(), totals::Refusal>(())
    /// ```
    pub fn listing_into(&self, accounts: &mut [u32], totals: &mut [i64]) -> Result<usize, Refusal> {
        let mut report = [0; 1];
        // SAFETY: the pointers and the lengths are those of four slices that are borrowed for the call.
        let number = unsafe {
            raw::totals_list(
                self.words.as_ptr(),
                self.words.len(),
                accounts.as_mut_ptr(),
                accounts.len(),
                totals.as_mut_ptr(),
                totals.len(),
                report.as_mut_ptr(),
                report.len(),
            )
        };
        done(number)?;
        Ok(report[0] as usize)
    }

    /// The rows of [`Table::listing_into`]: the accounts with their totals, ascending. Refuses with `Strange`.
    ///
    /// ```
    /// use totals::{Answer, Owned, Ran, Settings};
    /// let mut owned = Owned::new(Settings::new(1, 2, 1)?)?;
    /// let mut table = owned.table();
    /// for (account, total) in [(1001, 7), (1000, -7)] {
    ///     table.insert(0, account, total)?;
    ///     assert_eq!(table.run(0, 99)?, Ran::Answered { answer: Answer::Added, steps: 13, check: 1 });
    /// }
    /// assert_eq!(table.listing()?, [(1000, -7), (1001, 7)]);
    /// # Ok::<(), totals::Refusal>(())
    /// ```
    pub fn listing(&self) -> Result<Vec<(u32, i64)>, Refusal> {
        // never `Narrow`: also words from elsewhere, where they are not strange, list no more rows than this, by the
        // theorem `rows_few` of crates/rows/proofs/RowLaws
        let (mut accounts, mut totals) = (vec![0; Self::GREATEST_COUNT], vec![0; Self::GREATEST_COUNT]);
        let count = self.listing_into(&mut accounts, &mut totals)?;
        Ok(accounts.into_iter().zip(totals).take(count).collect())
    }

    /// Writes the accounts with the rebates on their totals to the start of both lists, and nothing past the count,
    /// which it gives: the rows of [`Table::listing_into`] in their order, with [`rebate`](crate::rebate) of each total
    /// in its place. Refuses as the listing with `Strange`, `Narrow`, in this order. It takes about 50 kB of stack.
    ///
    /// ```
    /// use totals::{Answer, Owned, Ran, Refusal, Settings};
    /// let mut owned = Owned::new(Settings::new(1, 2, 1)?)?;
    /// let mut table = owned.table();
    /// table.insert(0, 1000, 6_000_000)?;
    /// assert_eq!(table.run(0, 99)?, Ran::Answered { answer: Answer::Added, steps: 13, check: 1 });
    /// let (mut accounts, mut rebates) = ([0; 2], [0; 2]);
    /// assert_eq!(table.rebates_into(&mut accounts, &mut rebates)?, 1);
    /// assert_eq!((accounts, rebates), ([1000, 0], [85_000, 0]));
    /// assert_eq!(table.rebates_into(&mut accounts, &mut []), Err(Refusal::Narrow));
    /// # Ok::<(), Refusal>(())
    /// ```
    pub fn rebates_into(&self, accounts: &mut [u32], rebates: &mut [u64]) -> Result<usize, Refusal> {
        let mut report = [0; 1];
        // SAFETY: the pointers and the lengths are those of four slices that are borrowed for the call.
        let number = unsafe {
            raw::totals_rebates(
                self.words.as_ptr(),
                self.words.len(),
                accounts.as_mut_ptr(),
                accounts.len(),
                rebates.as_mut_ptr(),
                rebates.len(),
                report.as_mut_ptr(),
                report.len(),
            )
        };
        done(number)?;
        Ok(report[0] as usize)
    }

    /// The rows of [`Table::rebates_into`]: the accounts with the rebates on their totals, ascending by account.
    /// Refuses with `Strange`.
    ///
    /// ```
    /// use totals::{Answer, Owned, Ran, Settings};
    /// let mut owned = Owned::new(Settings::new(1, 4, 0)?)?;
    /// let mut table = owned.table();
    /// for (account, total) in [(1002, 6_000_000), (1001, 1_000_034), (1000, -6_000_000)] {
    ///     table.insert(0, account, total)?;
    ///     assert_eq!(table.run(0, 99)?, Ran::Answered { answer: Answer::Added, steps: 13, check: 1 });
    /// }
    /// assert_eq!(table.rebates()?, [(1000, 0), (1001, 1), (1002, 85_000)]);
    /// # Ok::<(), totals::Refusal>(())
    /// ```
    pub fn rebates(&self) -> Result<Vec<(u32, u64)>, Refusal> {
        // never `Narrow`, as the listing
        let (mut accounts, mut rebates) = (vec![0; Self::GREATEST_COUNT], vec![0; Self::GREATEST_COUNT]);
        let count = self.rebates_into(&mut accounts, &mut rebates)?;
        Ok(accounts.into_iter().zip(rebates).take(count).collect())
    }

    /// Writes the listing as a file to the start of the output, and nothing past its bytes, whose number it gives:
    /// RFC 4180 records, each a line that CR LF ends, the last one too. The first line is `account,total`; then comes a
    /// line for each row of [`Table::listing_into`], in its order: the account's number, a comma, and the total, which
    /// is in cents, in units with two decimals, as -12.05 for -1205, 0.07 for 7, -0.07 for -7 and 0.00 for 0. No field
    /// has quotes. A line determines its account and its total. Refuses with `Strange`, `Narrow`, in this order. It
    /// takes about 50 kB of stack.
    ///
    /// A file has [`TOTALS_EXPORT_HEADER`](raw::TOTALS_EXPORT_HEADER) bytes, and for each row
    /// [`TOTALS_EXPORT_ROW`](raw::TOTALS_EXPORT_ROW) more at most.
    ///
    /// ```
    /// use totals::{Answer, Owned, Ran, Refusal, Settings};
    /// let mut owned = Owned::new(Settings::new(1, 2, 1)?)?;
    /// let mut table = owned.table();
    /// table.insert(0, 1000, -1205)?;
    /// assert_eq!(table.run(0, 99)?, Ran::Answered { answer: Answer::Added, steps: 13, check: 1 });
    /// let mut out = [b'?'; 30];
    /// assert_eq!(table.export_into(&mut out)?, 28);
    /// assert_eq!(&out, b"account,total\r\n1000,-12.05\r\n??");
    /// assert_eq!(table.export_into(&mut out[..27]), Err(Refusal::Narrow));
    /// # Ok::<(), Refusal>(())
    /// ```
    pub fn export_into(&self, out: &mut [u8]) -> Result<usize, Refusal> {
        let mut report = [0; 1];
        // SAFETY: the pointers and the lengths are those of three slices that are borrowed for the call.
        let number = unsafe {
            raw::totals_export(
                self.words.as_ptr(),
                self.words.len(),
                out.as_mut_ptr(),
                out.len(),
                report.as_mut_ptr(),
                report.len(),
            )
        };
        done(number)?;
        Ok(report[0] as usize)
    }

    /// The file of [`Table::export_into`]. Refuses with `Strange`.
    ///
    /// ```
    /// use totals::{Answer, Owned, Ran, Settings};
    /// let mut owned = Owned::new(Settings::new(1, 4, 0)?)?;
    /// let mut table = owned.table();
    /// for (account, total) in [(1002, i64::MIN), (1001, 7), (1000, -7)] {
    ///     table.insert(0, account, total)?;
    ///     assert_eq!(table.run(0, 99)?, Ran::Answered { answer: Answer::Added, steps: 13, check: 1 });
    /// }
    /// let rows = "1000,-0.07\r\n1001,0.07\r\n1002,-92233720368547758.08\r\n";
    /// assert_eq!(table.export()?, format!("account,total\r\n{rows}").as_bytes());
    /// # Ok::<(), totals::Refusal>(())
    /// ```
    pub fn export(&self) -> Result<Vec<u8>, Refusal> {
        // never `Narrow`: also words from elsewhere, where they are not strange, have no longer file than this, by the
        // theorem `long_enough` of crates/export/specs/Export
        let mut file = vec![0; Self::GREATEST_EXPORT];
        let size = self.export_into(&mut file)?;
        file.truncate(size);
        Ok(file)
    }
}

/// A table that owns its words.
///
/// ```
/// use totals::{Owned, Settings};
/// let mut owned = Owned::new(Settings::new(8, 16, 8)?)?;
/// assert_eq!(owned.table().listing()?, []);
/// # Ok::<(), totals::Refusal>(())
/// ```
#[derive(Debug)]
pub struct Owned {
    words: Vec<u64>,
}

impl Owned {
    /// A fresh, empty table over as many words as the settings need.
    pub fn new(settings: Settings) -> Result<Owned, Refusal> {
        let mut words = vec![0; settings.words_needed()];
        Table::open(&mut words, settings)?;
        Ok(Owned { words })
    }

    /// The table, to be worked on.
    pub fn table(&mut self) -> Table<'_> {
        Table::over(&mut self.words)
    }
}
