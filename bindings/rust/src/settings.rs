//! The settings of an opening.

use crate::{raw, Refusal};

/// The settings of an opening, each within its range: workers n, bucket size b, greatest depth M.
///
/// ```
/// use totals::Settings;
/// let settings = Settings::new(8, 16, 8)?;
/// assert_eq!(settings.words_needed(), 17_305);
/// assert!(Settings::new(8, 1, 8).is_err());
/// # Ok::<(), totals::Refusal>(())
/// ```
#[derive(Clone, Copy, Debug, PartialEq, Eq, Hash)]
pub struct Settings {
    workers: u64,
    capacity: u64,
    depth: u64,
}

impl Settings {
    /// The least number of workers.
    pub const LEAST_WORKERS: u64 = 1;
    /// The greatest number of workers.
    pub const GREATEST_WORKERS: u64 = 8;
    /// The least bucket size.
    pub const LEAST_CAPACITY: u64 = 2;
    /// The greatest bucket size.
    pub const GREATEST_CAPACITY: u64 = 16;
    /// The least greatest depth.
    pub const LEAST_DEPTH: u64 = 0;
    /// The greatest depth there is.
    pub const GREATEST_DEPTH: u64 = 8;
    /// How many steps a lookup takes, exactly.
    pub const LOOKUP_STEPS: u64 = raw::TOTALS_LOOKUP_STEPS;
    /// The last of an update's checks, which count from 1.
    pub const GREATEST_CHECK: u64 = raw::TOTALS_GREATEST_CHECK;

    /// The settings, or [`Refusal::Settings`] where one is outside its range.
    pub fn new(workers: u64, capacity: u64, depth: u64) -> Result<Settings, Refusal> {
        let settings = Settings { workers, capacity, depth };
        match settings.words_needed() as u64 {
            raw::TOTALS_SETTINGS => Err(Refusal::Settings),
            _ => Ok(settings),
        }
    }

    /// How many words a table of these settings needs: 162 to 17,305.
    pub fn words_needed(self) -> usize {
        // SAFETY: numbers alone go in and out.
        unsafe { raw::totals_words_needed(self.workers, self.capacity, self.depth) as usize }
    }

    /// How many steps an update takes at each of its checks.
    const fn steps_at_checks(self) -> [u64; Self::GREATEST_CHECK as usize] {
        let n = self.workers;
        [2 * n + 11, 6 * n + 17, 8 * n + 27, 12 * n + 33]
    }

    /// How many steps an update takes that this check answers, exactly: 2n+11, 6n+17, 8n+27 and 12n+33 for check 1 to
    /// 4; there are no others. With one worker checks 1 and 2 alone answer, after 13 and 23 steps.
    ///
    /// ```
    /// use totals::Settings;
    /// let settings = Settings::new(3, 4, 2)?;
    /// let figures = [1, 2, 3, 4].map(|check| settings.steps_at_check(check));
    /// assert_eq!(figures, [Some(17), Some(35), Some(51), Some(69)]);
    /// assert_eq!(settings.steps_at_check(Settings::GREATEST_CHECK + 1), None);
    /// # Ok::<(), totals::Refusal>(())
    /// ```
    pub const fn steps_at_check(self, check: u64) -> Option<u64> {
        match check {
            1..=Self::GREATEST_CHECK => Some(self.steps_at_checks()[check as usize - 1]),
            _ => None,
        }
    }

    /// The most steps that an operation takes, whatever the other workers do: 23 with one worker, else 12n+33.
    ///
    /// ```
    /// use totals::Settings;
    /// assert_eq!(Settings::new(1, 16, 8)?.greatest_steps(), 23);
    /// assert_eq!(Settings::new(2, 16, 8)?.greatest_steps(), 57);
    /// # Ok::<(), totals::Refusal>(())
    /// ```
    pub const fn greatest_steps(self) -> u64 {
        let [_, second, _, fourth] = self.steps_at_checks();
        if self.workers == 1 {
            second
        } else {
            fourth
        }
    }

    /// The number of workers, n.
    pub fn workers(self) -> u64 {
        self.workers
    }

    /// The bucket size, b.
    pub fn capacity(self) -> u64 {
        self.capacity
    }

    /// The greatest depth, M.
    pub fn depth(self) -> u64 {
        self.depth
    }
}
