// Numbers by name: those of the C interface as in include/totals.h, kinds and limits as in crates/interface, and the
// words of a bucket's record as in crates/fields.

pub const KIND_INSERT: u64 = 1;
pub const KIND_DELETE: u64 = 2;
pub const KIND_LOOKUP: u64 = 3;
pub const KIND_POST: u64 = 4;
pub const GREATEST_TICKET: u64 = u64::MAX;

pub const GREATEST_WORKERS: usize = 8;
pub const GREATEST_CAPACITY: usize = 16;

pub const TOTALS_OK: u64 = 0;
pub const TOTALS_MOVED: u64 = 0;

pub const TOTALS_STRANGER: u64 = 3;
pub const TOTALS_BUSY: u64 = 4;
pub const TOTALS_IDLE: u64 = 5;
pub const TOTALS_SPENT: u64 = 7;
pub const TOTALS_STRANGE: u64 = 8;

pub const TOTALS_ADDED: u64 = 17;
pub const TOTALS_REPLACED: u64 = 18;
pub const TOTALS_REMOVED: u64 = 19;
pub const TOTALS_ABSENT: u64 = 20;
pub const TOTALS_FOUND: u64 = 21;
pub const TOTALS_NONE: u64 = 22;
pub const TOTALS_POSTED: u64 = 23;
pub const TOTALS_CROWDED: u64 = 25;
pub const TOTALS_OVERRUN: u64 = 27;

pub const TOTALS_GREATEST_COUNT: usize = 4096;
pub const TOTALS_GREATEST_EXPORT: usize = 139_279;
pub const TOTALS_GREATEST_RUN: u64 = 256;

pub const RECORD_COUNT: usize = 0;
pub const RECORD_ACCOUNTS: usize = 6;
pub const WIDEST_RECORD: usize = 2 * GREATEST_CAPACITY + 3 * GREATEST_WORKERS + RECORD_ACCOUNTS;
