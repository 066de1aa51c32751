//! The three settings of a table, their limits, and the words of memory they need.

use crate::refusal;

/// Workers `n`, bucket size `b` and greatest depth `M`.
#[derive(Clone, Copy, PartialEq, Eq, Debug)]
pub struct Settings {
    pub workers: usize,
    pub bucket_size: usize,
    pub greatest_depth: u32,
}

impl Settings {
    pub const GREATEST_WORKERS: u64 = 8;
    pub const LEAST_BUCKET_SIZE: u64 = 2;
    pub const GREATEST_BUCKET_SIZE: u64 = 16;
    pub const GREATEST_DEPTH: u64 = 8;

    /// Builds the settings, or refuses 1.
    pub fn new(workers: u64, bucket_size: u64, greatest_depth: u64) -> Result<Settings, u8> {
        let workers_fit = (1..=Self::GREATEST_WORKERS).contains(&workers);
        let size_fits =
            (Self::LEAST_BUCKET_SIZE..=Self::GREATEST_BUCKET_SIZE).contains(&bucket_size);
        if !workers_fit || !size_fits || greatest_depth > Self::GREATEST_DEPTH {
            return Err(refusal::SETTINGS);
        }
        Ok(Settings {
            workers: workers as usize,
            bucket_size: bucket_size as usize,
            greatest_depth: greatest_depth as u32,
        })
    }

    /// The words of memory that these settings need.
    pub fn words(&self) -> u64 {
        let n = self.workers as u64;
        let b = self.bucket_size as u64;
        let entries = 1u64 << self.greatest_depth;
        let states = (entries + n + 2) * (2 * b + 3 * n + 6);
        16 + entries + 4 * n + n * (4 * n + 24) + states + 61
    }

    /// The greatest number of steps an update may take: 12n + 33.
    pub fn update_bound(&self) -> u64 {
        12 * self.workers as u64 + 33
    }

    /// The number of own steps at which check 1, 2, 3 or 4 answers.
    pub fn check_steps(&self) -> [u64; 4] {
        let n = self.workers as u64;
        [2 * n + 11, 6 * n + 17, 8 * n + 27, 12 * n + 33]
    }
}
