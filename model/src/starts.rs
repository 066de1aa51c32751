//! Where orders start: which machine an opening makes, and with which last tickets; and last tickets
//! near the numbers at which a ticket of too few bits, or with a sign, goes wrong.

use crate::fault::Fault;
use crate::machine::{LastTickets, Machine};
use crate::prng::Prng;
use crate::records::GREATEST_TICKET;
use crate::totals::LENT;

/// The machine that every opening of an order makes. As opened, but for the last tickets.
#[derive(Clone, Copy, PartialEq, Eq, Debug, Default)]
pub struct Start {
    pub fault: Fault,
    pub last_tickets: LastTickets,
}

/// Last tickets 0, as document 01 has them.
impl From<Fault> for Start {
    fn from(fault: Fault) -> Start {
        Start::new(fault, LastTickets::default())
    }
}

impl Start {
    pub fn new(fault: Fault, last_tickets: LastTickets) -> Start {
        Start {
            fault,
            last_tickets,
        }
    }

    /// The table of an opening over the words that `totals` lends: refusals 1 and 2.
    pub fn open(&self, n: u64, b: u64, m: u64) -> Result<Machine, u8> {
        let mut machine = Machine::open(n, b, m, LENT)?;
        machine.fault = self.fault;
        for (worker, ticket) in machine.workers.iter_mut().zip(self.last_tickets) {
            worker.last_ticket = ticket;
        }
        Ok(machine)
    }
}

/// The first ticket, the first ones that 16, 31, 32 and 63 bits do not hold, and the last.
pub const EDGES: [u64; 6] = [1, 1 << 16, 1 << 31, 1 << 32, 1 << 63, GREATEST_TICKET];

/// So many numbers are near an edge, and so many of them below it.
const NEAR: u64 = 8;
const BELOW: u64 = 5;

/// For each worker a number near some edge. A function of the seed, but not drawn as an order with
/// that seed is.
pub fn near_edges(seed: u64) -> LastTickets {
    let mut prng = Prng::new(!seed);
    LastTickets::default().map(|_| near_edge(&mut prng))
}

fn near_edge(prng: &mut Prng) -> u64 {
    let least = prng.one_of(&EDGES).saturating_sub(BELOW);
    least.saturating_add(prng.below(NEAR))
}
