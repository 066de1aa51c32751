//! A slice to lend, with guards on both sides; and a listing, rebates or an export over such slices.

use totals::raw::{self, TOTALS_OK};

const GUARDS: usize = 64;

pub struct Lent<T> {
    items: Vec<T>,
    guard: T,
}

impl<T: Copy + PartialEq> Lent<T> {
    pub fn new(items: &[T], guard: T) -> Lent<T> {
        let side = [guard; GUARDS];
        Lent { items: [&side, items, &side].concat(), guard }
    }

    pub fn items(&self) -> &[T] {
        &self.items[GUARDS..self.items.len() - GUARDS]
    }

    pub fn items_mut(&mut self) -> &mut [T] {
        let end = self.items.len() - GUARDS;
        &mut self.items[GUARDS..end]
    }

    /// No guard was written.
    pub fn intact(&self) -> bool {
        let (front, rest) = self.items.split_at(GUARDS);
        let back = &rest[rest.len() - GUARDS..];
        front.iter().chain(back).all(|x| *x == self.guard)
    }
}

impl Lent<u64> {
    /// A report has these words, and no guard was written.
    pub fn holds(&self, words: &[u64]) {
        assert!(self.intact(), "a word outside the report was written");
        assert_eq!(self.items(), words);
    }
}

/// A report has what was told at its start: all of it, or steps and total without a check, if it fits. What is past it
/// is as before.
pub fn told(report: &Lent<u64>, mut before: Vec<u64>, told: &[u64]) {
    let places = match (told.len(), before.len()) {
        (3, 2) => 2,
        (words, places) if words <= places => words,
        _ => 0,
    };
    before[..places].copy_from_slice(&told[..places]);
    report.holds(&before);
}

/// The listing into lists of so many places, held against the rows or the refusal that are to come.
pub fn list(words: &Lent<u64>, places: [usize; 2], report: Lent<u64>, want: Result<Vec<(u32, i64)>, u64>) -> u64 {
    written(raw::totals_list, words, places, report, want)
}

/// The rebates into such lists, held against the rows or the refusal that are to come.
pub fn rebates(words: &Lent<u64>, places: [usize; 2], report: Lent<u64>, want: Result<Vec<(u32, u64)>, u64>) -> u64 {
    written(raw::totals_rebates, words, places, report, want)
}

/// A function that writes accounts and items of another kind to two lists.
type Writes<T> = unsafe extern "C" fn(*const u64, usize, *mut u32, usize, *mut T, usize, *mut u64, usize) -> u64;

fn written<T: Copy + PartialEq + From<u8>>(
    writes: Writes<T>,
    words: &Lent<u64>,
    [account_places, item_places]: [usize; 2],
    mut report: Lent<u64>,
    want: Result<Vec<(u32, T)>, u64>,
) -> u64 {
    let (mut want_accounts, mut want_items) = (vec![77; account_places], vec![T::from(77); item_places]);
    let (mut accounts, mut items) = (Lent::new(&want_accounts, 99), Lent::new(&want_items, T::from(99)));
    let (before, kept) = (report.items().to_vec(), words.items().to_vec());
    let (w, a, t, r) = (words.items(), accounts.items_mut(), items.items_mut(), report.items_mut());
    let (a_at, t_at, r_at) = (a.as_mut_ptr(), t.as_mut_ptr(), r.as_mut_ptr());
    let number = unsafe { writes(w.as_ptr(), w.len(), a_at, a.len(), t_at, t.len(), r_at, r.len()) };
    assert_eq!(number, want.as_ref().err().copied().unwrap_or(TOTALS_OK));
    let count = want.as_ref().map(|rows| vec![rows.len() as u64]).unwrap_or_default();
    told(&report, before, &count);
    for (i, (account, item)) in want.into_iter().flatten().enumerate() {
        (want_accounts[i], want_items[i]) = (account, item);
    }
    assert!(accounts.intact() && items.intact(), "a place outside the lists was written");
    assert!(accounts.items() == want_accounts && items.items() == want_items, "other rows");
    assert!(words.intact() && words.items() == kept, "a word has changed");
    number
}

/// The export into an output of so many bytes, held against the file or the refusal that is to come.
pub fn export(words: &Lent<u64>, length: usize, mut report: Lent<u64>, want: Result<Vec<u8>, u64>) -> u64 {
    let mut want_bytes = vec![b'?'; length];
    let mut out = Lent::new(&want_bytes, b'!');
    let (before, kept) = (report.items().to_vec(), words.items().to_vec());
    let (w, o, r) = (words.items(), out.items_mut(), report.items_mut());
    let (o_at, r_at) = (o.as_mut_ptr(), r.as_mut_ptr());
    let number = unsafe { raw::totals_export(w.as_ptr(), w.len(), o_at, o.len(), r_at, r.len()) };
    assert_eq!(number, want.as_ref().err().copied().unwrap_or(TOTALS_OK));
    let size = want.as_ref().map(|file| vec![file.len() as u64]).unwrap_or_default();
    told(&report, before, &size);
    if let Ok(file) = &want {
        want_bytes[..file.len()].copy_from_slice(file);
    }
    assert!(out.intact(), "a byte outside the output was written");
    assert!(out.items() == want_bytes, "another file");
    assert!(words.intact() && words.items() == kept, "a word has changed");
    number
}
