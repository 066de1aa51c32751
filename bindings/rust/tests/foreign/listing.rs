//! What a listing over words that are not strange is to show, and what rebates are, told by the words alone.

use model::rebate::rebate;
use same::capi::fields::*;
use same::capi::layout::addresses::record_in;
use same::capi::layout::shape::{directory_start, settings_of};

/// The words of the accounts that are listed, with their totals, in the directory's order: of each entry at depth M
/// those of its bucket whose account's place begins with the entry's bits. The account is the word modulo 2^32.
pub fn listed_words(w: &[u64]) -> Vec<(u64, i64)> {
    let s = settings_of(w[HEADER_SETTINGS]);
    let b = s.capacity as usize;
    let mut rows = Vec::new();
    for e in 0..1 << s.depth {
        let entry = w.get(directory_start(s) + e).copied().unwrap_or(0);
        let (count, items) = w[record_in(w, entry)..].split_at(RECORD_ACCOUNTS);
        let (accounts, totals) = items.split_at(b);
        let begins =
            |word: u64| u64::from((word as u32).wrapping_mul(2_654_435_761)) << s.depth >> u32::BITS == e as u64;
        let items = accounts.iter().zip(totals).take(count[RECORD_COUNT].min(s.capacity) as usize);
        rows.extend(items.filter(|item| begins(*item.0)).map(|(word, total)| (*word, *total as i64)));
    }
    rows
}

/// The rows of a listing: ascending by account, and where an account comes again, by total.
pub fn sorted_rows(listed: &[(u64, i64)]) -> Vec<(u32, i64)> {
    let mut rows: Vec<(u32, i64)> = listed.iter().map(|(word, total)| (*word as u32, *total)).collect();
    rows.sort_unstable();
    rows
}

/// The rows of the rebates: those of a listing, in its order, with the second model's rebate on each total.
pub fn rebate_rows(rows: &[(u32, i64)]) -> Vec<(u32, u64)> {
    rows.iter().map(|(account, total)| (*account, rebate(*total))).collect()
}
