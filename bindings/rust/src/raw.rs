//! The functions of the static library as C sees them; `include/totals.h` says what each promises and what it is owed.
//! A slice is a pointer and a length. The constants are the header's.

/// Opened, accepted, listed, exported, an order found.
pub const TOTALS_OK: u64 = 0;
/// A step was made, and the operation goes on.
pub const TOTALS_MOVED: u64 = 0;

/// n, b or M is outside its range.
pub const TOTALS_SETTINGS: u64 = 1;
/// Fewer words lent than needed.
pub const TOTALS_SHORT: u64 = 2;
/// The worker's number is n or more.
pub const TOTALS_STRANGER: u64 = 3;
/// A call to a worker whose operation has no answer yet.
pub const TOTALS_BUSY: u64 = 4;
/// A step for a worker without operation.
pub const TOTALS_IDLE: u64 = 5;
/// No kind of operation.
pub const TOTALS_KIND: u64 = 6;
/// Insert, delete or post by a worker that has no ticket number left.
pub const TOTALS_SPENT: u64 = 7;
/// The words are no table.
pub const TOTALS_STRANGE: u64 = 8;
/// A list is shorter than the count, the output than the file, or the list for the order than the log.
pub const TOTALS_NARROW: u64 = 10;
/// The words are no log.
pub const TOTALS_BAD_LOG: u64 = 14;
/// No order explains the log. This is no refusal.
pub const TOTALS_NO: u64 = 16;

/// An insert.
pub const TOTALS_INSERT: u64 = 1;
/// A delete.
pub const TOTALS_DELETE: u64 = 2;
/// A lookup.
pub const TOTALS_LOOKUP: u64 = 3;
/// A post.
pub const TOTALS_POST: u64 = 4;

/// The least answer. Insert: the account was not there.
pub const TOTALS_ADDED: u64 = 17;
/// Insert: the account was there.
pub const TOTALS_REPLACED: u64 = 18;
/// Delete: the account was there.
pub const TOTALS_REMOVED: u64 = 19;
/// Delete: the account was not there.
pub const TOTALS_ABSENT: u64 = 20;
/// Lookup: the account's total is in the report.
pub const TOTALS_FOUND: u64 = 21;
/// Lookup: the account is not there.
pub const TOTALS_NONE: u64 = 22;
/// Post: the account's new total is in the report.
pub const TOTALS_POSTED: u64 = 23;
/// Insert or post: the account was not there, and the places of b others agree with its place in the first M bits.
pub const TOTALS_CROWDED: u64 = 25;
/// The greatest answer. Post: the account was there, and the sum is outside the 64-bit signed range.
pub const TOTALS_OVERRUN: u64 = 27;

/// The greatest ticket number, and with it how many updates one worker can make.
pub const TOTALS_GREATEST_UPDATES: u64 = 18_446_744_073_709_551_615;
/// How many steps one run gives at most.
pub const TOTALS_GREATEST_RUN: u64 = 256;
/// How many steps a lookup takes.
pub const TOTALS_LOOKUP_STEPS: u64 = 2;
/// The last of an update's checks. The steps at each are [`Settings::steps_at_check`](crate::Settings::steps_at_check).
pub const TOTALS_GREATEST_CHECK: u64 = 4;
/// The bytes of an exported file's first line.
pub const TOTALS_EXPORT_HEADER: u64 = 15;
/// The most bytes of a row's line in an exported file.
pub const TOTALS_EXPORT_ROW: u64 = 34;
/// The most bytes of an exported file.
pub const TOTALS_GREATEST_EXPORT: u64 = 139_279;
/// The words of an operation in a log.
pub const TOTALS_LOGGED_WORDS: u64 = 8;
/// The most operations of a log.
pub const TOTALS_GREATEST_LOGGED: u64 = 12;

extern "C" {
    /// The words needed for settings, or 1.
    pub fn totals_words_needed(workers: u64, capacity: u64, depth: u64) -> u64;

    /// A fresh table: 0, or the number of a refusal.
    pub fn totals_open(words: *mut u64, length: usize, workers: u64, capacity: u64, depth: u64) -> u64;

    /// An operation handed to a worker, `total` being a post's amount: 0, or the number of a refusal.
    pub fn totals_call(words: *mut u64, length: usize, worker: u64, kind: u64, account: u32, total: i64) -> u64;

    /// One step of a worker: 0, 16 and an answer's number, or the number of a refusal. A report of three places gets an
    /// answer's steps, total and check.
    pub fn totals_step(words: *mut u64, length: usize, worker: u64, report: *mut u64, report_length: usize) -> u64;

    /// Up to `most` steps of a worker: as a step. Where it returns 0, the report gets the steps given, 0 and 0.
    pub fn totals_run(
        words: *mut u64,
        length: usize,
        worker: u64,
        most: u64,
        report: *mut u64,
        report_length: usize,
    ) -> u64;

    /// The accounts with their totals, ascending by number: 0, or the number of a refusal.
    pub fn totals_list(
        words: *const u64,
        length: usize,
        accounts: *mut u32,
        accounts_length: usize,
        totals: *mut i64,
        totals_length: usize,
        report: *mut u64,
        report_length: usize,
    ) -> u64;

    /// The accounts with the rebates on their totals, in the listing's order: 0, or the number of a refusal.
    pub fn totals_rebates(
        words: *const u64,
        length: usize,
        accounts: *mut u32,
        accounts_length: usize,
        rebates: *mut u64,
        rebates_length: usize,
        report: *mut u64,
        report_length: usize,
    ) -> u64;

    /// The listing as a file: 0, or the number of a refusal. A report gets the number of its bytes.
    pub fn totals_export(
        words: *const u64,
        length: usize,
        out: *mut u8,
        out_length: usize,
        report: *mut u64,
        report_length: usize,
    ) -> u64;

    /// The yearly rebate on a total in cents.
    pub fn totals_rebate(total: i64) -> u64;

    /// The place of an account, whose first bits choose its bucket.
    pub fn totals_place(account: u32) -> u32;

    /// The account at a place.
    pub fn totals_account_at(place: u32) -> u32;

    /// Whether some order explains a log of eight words an operation: 0 and an order, 16 where none does, or the number
    /// of a refusal.
    pub fn totals_check_log(
        log: *const u64,
        length: usize,
        capacity: u64,
        depth: u64,
        order: *mut u64,
        order_length: usize,
    ) -> u64;
}
