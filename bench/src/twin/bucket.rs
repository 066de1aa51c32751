// A bucket and the updates that its state takes.
use crate::fields::{GREATEST_CAPACITY, GREATEST_WORKERS};
use crate::places::place;

#[derive(Clone, Copy, PartialEq, Eq, Debug)]
pub enum Answer {
    Added,
    Replaced,
    Removed,
    Absent,
    Found(i64),
    None,
    Posted(i64),
    Crowded,
    Overrun,
}

#[derive(Clone, Copy, PartialEq, Eq)]
pub enum Kind {
    Insert,
    Delete,
    Lookup,
    Post,
}

// An announced update; a post's total is its amount.
#[derive(Clone, Copy)]
pub struct Update {
    pub kind: Kind,
    pub account: u32,
    pub total: i64,
    pub ticket: u64,
}

// Accounts ascending with their totals, the first `count` of each. The version goes up at each swap of the state.
#[derive(Clone)]
pub struct Bucket {
    pub depth: u32,
    pub prefix: u32,
    pub toggle: u8,
    pub applied: u8,
    pub version: u32,
    pub count: usize,
    pub accounts: [u32; GREATEST_CAPACITY],
    pub totals: [i64; GREATEST_CAPACITY],
    pub settled: [u64; GREATEST_WORKERS],
    pub answers: [Answer; GREATEST_WORKERS],
}

// The first d bits of an account's place.
pub fn first_bits(account: u32, d: u32) -> u32 {
    (u64::from(place(account)) >> (32 - d)) as u32
}

impl Bucket {
    pub fn new(depth: u32, prefix: u32) -> Bucket {
        Bucket {
            depth,
            prefix,
            toggle: 0,
            applied: 0,
            version: 0,
            count: 0,
            accounts: [0; GREATEST_CAPACITY],
            totals: [0; GREATEST_CAPACITY],
            settled: [0; GREATEST_WORKERS],
            answers: [Answer::None; GREATEST_WORKERS],
        }
    }

    // To be split; until then it holds updates back.
    pub fn full_below(&self, greatest: u32, capacity: usize) -> bool {
        self.count >= capacity && self.depth < greatest
    }

    // Where the account stands, or where it belongs.
    fn search(&self, account: u32) -> Result<usize, usize> {
        let place = self.accounts[..self.count]
            .iter()
            .position(|a| *a >= account);
        match place {
            Some(i) if self.accounts[i] == account => Ok(i),
            Some(i) => Err(i),
            None => Err(self.count),
        }
    }

    pub fn look(&self, account: u32) -> Answer {
        match self.accounts[..self.count]
            .iter()
            .position(|a| *a == account)
        {
            Some(i) => Answer::Found(self.totals[i]),
            None => Answer::None,
        }
    }

    // The account's total set, where it stands or where it belongs.
    fn put(&mut self, place: Result<usize, usize>, account: u32, total: i64) {
        match place {
            Ok(i) => self.totals[i] = total,
            Err(i) => {
                self.accounts.copy_within(i..self.count, i + 1);
                self.totals.copy_within(i..self.count, i + 1);
                self.accounts[i] = account;
                self.totals[i] = total;
                self.count += 1;
            }
        }
    }

    fn insert(&mut self, place: Result<usize, usize>, account: u32, total: i64) -> Answer {
        self.put(place, account, total);
        match place {
            Ok(_) => Answer::Replaced,
            Err(_) => Answer::Added,
        }
    }

    fn post(&mut self, place: Result<usize, usize>, account: u32, amount: i64) -> Answer {
        let total = place.map_or(0, |i| self.totals[i]);
        let Some(sum) = total.checked_add(amount) else {
            return Answer::Overrun;
        };
        self.put(place, account, sum);
        Answer::Posted(sum)
    }

    fn delete(&mut self, place: Result<usize, usize>) -> Answer {
        match place {
            Ok(i) => {
                self.accounts.copy_within(i + 1..self.count, i);
                self.totals.copy_within(i + 1..self.count, i);
                self.count -= 1;
                Answer::Removed
            }
            Err(_) => Answer::Absent,
        }
    }

    // Worker j's update carried out and settled; a new account in a full bucket is settled as crowded.
    pub fn carry(&mut self, j: usize, update: &Update, capacity: usize) {
        let place = self.search(update.account);
        let answer = match update.kind {
            Kind::Delete | Kind::Lookup => self.delete(place),
            _ if place.is_err() && self.count >= capacity => Answer::Crowded,
            Kind::Insert => self.insert(place, update.account, update.total),
            Kind::Post => self.post(place, update.account, update.total),
        };
        self.settled[j] = update.ticket;
        self.answers[j] = answer;
    }

    // The half whose accounts' places have one more bit.
    pub fn half(&self, bit: u32) -> Bucket {
        let mut half = Bucket::new(self.depth + 1, 2 * self.prefix + bit);
        half.settled = self.settled;
        half.answers = self.answers;
        for i in 0..self.count {
            if first_bits(self.accounts[i], half.depth) == half.prefix {
                half.accounts[half.count] = self.accounts[i];
                half.totals[half.count] = self.totals[i];
                half.count += 1;
            }
        }
        half
    }
}
