//! Where a worker's last ticket stands in a table's words.

use same::capi::fields::{HEADER_SETTINGS, WORKER_TICKET};
use same::capi::layout::addresses::worker_at;
use same::capi::layout::shape::settings_of;

pub fn last_ticket(words: &mut [u64], worker: usize) -> &mut u64 {
    let at = worker_at(settings_of(words[HEADER_SETTINGS]), worker);
    &mut words[at + WORKER_TICKET]
}
