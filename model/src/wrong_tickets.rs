//! The wrong machines on tickets: other limits, a ticket kept in fewer bits in one of the three
//! places that have one, other comparisons. From last tickets 0 each of them answers as the true one
//! does while no worker makes more than 65,535 operations.

use crate::machine::Machine;
use crate::records::{Kind, State, Update, GREATEST_TICKET};
use crate::settings::Settings;
use crate::steps::{Steps, True};
use crate::task::{StepKind, Task};
use crate::working::Working;
use std::rc::Rc;

#[derive(Clone, Copy, PartialEq, Eq, Debug)]
pub enum WrongTicket {
    /// An update is refused 7 when the last number, 2^64 - 1, is still left.
    SpentEarly,
    /// After the last number an update is accepted, with ticket 0.
    SpentLate,
    /// After the last number a post is accepted, with ticket 0.
    PostSpentLate,
    /// An update is refused 7 after 65,535, which was the limit of document 01.
    SpentAfter65535,
    /// After the last number a lookup is refused 7 too.
    LookupSpent,
    /// A lookup uses up a number.
    LookupNumbered,
    /// The last ticket is kept modulo 2^16.
    LastOf16Bits,
    /// The last ticket is kept modulo 2^32.
    LastOf32Bits,
    /// The ticket in a slot is kept modulo 2^32.
    SlotOf32Bits,
    /// A settled ticket is kept modulo 2^32.
    SettledOf32Bits,
    /// Settled is compared as signed numbers of 64 bits.
    SettledSigned,
    /// Settled is compared by the sign of the difference.
    SettledByDifference,
}

impl WrongTicket {
    pub const ALL: [WrongTicket; 12] = [
        WrongTicket::SpentEarly,
        WrongTicket::SpentLate,
        WrongTicket::PostSpentLate,
        WrongTicket::SpentAfter65535,
        WrongTicket::LookupSpent,
        WrongTicket::LookupNumbered,
        WrongTicket::LastOf16Bits,
        WrongTicket::LastOf32Bits,
        WrongTicket::SlotOf32Bits,
        WrongTicket::SettledOf32Bits,
        WrongTicket::SettledSigned,
        WrongTicket::SettledByDifference,
    ];

    pub fn name(self) -> &'static str {
        match self {
            WrongTicket::SpentEarly => "spent-early",
            WrongTicket::SpentLate => "spent-late",
            WrongTicket::PostSpentLate => "post-spent-late",
            WrongTicket::SpentAfter65535 => "spent-after-65535",
            WrongTicket::LookupSpent => "lookup-spent",
            WrongTicket::LookupNumbered => "lookup-numbered",
            WrongTicket::LastOf16Bits => "last-of-16-bits",
            WrongTicket::LastOf32Bits => "last-of-32-bits",
            WrongTicket::SlotOf32Bits => "slot-of-32-bits",
            WrongTicket::SettledOf32Bits => "settled-of-32-bits",
            WrongTicket::SettledSigned => "settled-signed",
            WrongTicket::SettledByDifference => "settled-by-difference",
        }
    }

    pub(crate) fn machine(self) -> &'static dyn Steps {
        match self {
            WrongTicket::SpentEarly => &SpentAfter(GREATEST_TICKET - 1),
            WrongTicket::SpentLate => &SpentLate,
            WrongTicket::PostSpentLate => &PostSpentLate,
            WrongTicket::SpentAfter65535 => &SpentAfter(65_535),
            WrongTicket::LookupSpent => &LookupSpent,
            WrongTicket::LookupNumbered => &LookupNumbered,
            WrongTicket::LastOf16Bits => &LastOfBits(16),
            WrongTicket::LastOf32Bits => &LastOfBits(32),
            WrongTicket::SlotOf32Bits => &SlotOf32Bits,
            WrongTicket::SettledOf32Bits => &SettledOf32Bits,
            WrongTicket::SettledSigned => &SettledSigned,
            WrongTicket::SettledByDifference => &SettledByDifference,
        }
    }
}

/// The number modulo 2 to the power of so many bits.
fn low(number: u64, bits: u32) -> u64 {
    number % (1 << bits)
}

/// This number is used, and none above it.
struct SpentAfter(u64);

impl Steps for SpentAfter {
    fn last_ticket(&self, kind: Kind, before: u64) -> Option<u64> {
        let last = True.last_ticket(kind, before);
        last.filter(|last| kind == Kind::Lookup || *last <= self.0)
    }
}

struct SpentLate;

impl Steps for SpentLate {
    fn last_ticket(&self, kind: Kind, before: u64) -> Option<u64> {
        Some(True.last_ticket(kind, before).unwrap_or(0))
    }
}

struct PostSpentLate;

impl Steps for PostSpentLate {
    fn last_ticket(&self, kind: Kind, before: u64) -> Option<u64> {
        let last = True.last_ticket(kind, before);
        last.or((kind == Kind::Post).then_some(0))
    }
}

struct LookupSpent;

impl Steps for LookupSpent {
    fn last_ticket(&self, kind: Kind, before: u64) -> Option<u64> {
        let update = True.last_ticket(Kind::Insert, before);
        update.and(True.last_ticket(kind, before))
    }
}

struct LookupNumbered;

impl Steps for LookupNumbered {
    fn last_ticket(&self, kind: Kind, before: u64) -> Option<u64> {
        match kind {
            Kind::Lookup => Some(before.saturating_add(1)),
            _ => True.last_ticket(kind, before),
        }
    }
}

struct LastOfBits(u32);

impl Steps for LastOfBits {
    fn last_ticket(&self, kind: Kind, before: u64) -> Option<u64> {
        let last = True.last_ticket(kind, before);
        last.map(|last| low(last, self.0))
    }
}

struct SlotOf32Bits;

impl Steps for SlotOf32Bits {
    fn announce(&self, machine: &mut Machine, w: usize, task: &Task) -> StepKind {
        let mut announced = task.clone();
        announced.operation.ticket = low(task.operation.ticket, 32);
        True.announce(machine, w, &announced)
    }
}

/// The state with settled tickets of 32 bits.
fn low_settled(mut state: State) -> State {
    for settled in &mut state.settled {
        settled.ticket = low(settled.ticket, 32);
    }
    state
}

struct SettledOf32Bits;

impl Steps for SettledOf32Bits {
    fn bucket_copy(&self, settings: &Settings, task: &Task) -> State {
        low_settled(True.bucket_copy(settings, task))
    }

    /// Only a bucket made in this round is changed.
    fn take(&self, settings: &Settings, working: &mut Working, k: usize, update: &Update) -> u32 {
        let splits = True.take(settings, working, k, update);
        let bucket = working.bucket(update.account);
        if working.is_made(bucket) {
            let state = low_settled(State::clone(&bucket.current()));
            *bucket.state.borrow_mut() = Rc::new(state);
        }
        splits
    }
}

struct SettledSigned;

impl Steps for SettledSigned {
    fn is_settled(&self, state: &State, worker: usize, ticket: u64) -> bool {
        state.settled[worker].ticket as i64 >= ticket as i64
    }
}

struct SettledByDifference;

impl Steps for SettledByDifference {
    fn is_settled(&self, state: &State, worker: usize, ticket: u64) -> bool {
        state.settled[worker].ticket.wrapping_sub(ticket) as i64 >= 0
    }
}
