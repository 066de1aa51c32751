//! The working copy of the directory in a directory pass.

use crate::places::{first_bits, place};
use crate::records::{Bucket, Directory, State};
use crate::settings::Settings;
use std::rc::Rc;

/// A private directory, the buckets made in this round, and the shared buckets that were found
/// full below depth M with the states that were read (split or not).
#[derive(Clone, Debug)]
pub struct Working {
    pub depth: u32,
    pub entries: Vec<Rc<Bucket>>,
    pub made: Vec<Rc<Bucket>>,
    pub found: Vec<(Rc<Bucket>, Rc<State>)>,
}

impl Working {
    pub fn copy_of(directory: &Directory) -> Working {
        Working {
            depth: directory.depth,
            entries: directory.entries.clone(),
            made: Vec::new(),
            found: Vec::new(),
        }
    }

    /// The bucket at the entry that a place's first bits choose.
    pub fn at(&self, place: u32) -> &Rc<Bucket> {
        &self.entries[first_bits(place, self.depth) as usize]
    }

    /// The bucket that the account belongs to.
    pub fn bucket(&self, account: u32) -> &Rc<Bucket> {
        self.at(place(account))
    }

    pub fn is_made(&self, bucket: &Rc<Bucket>) -> bool {
        self.made.iter().any(|made| Rc::ptr_eq(made, bucket))
    }

    pub fn into_directory(self) -> Rc<Directory> {
        Rc::new(Directory {
            depth: self.depth,
            entries: self.entries,
        })
    }

    /// The bucket of this place is full and below depth M.
    pub fn is_splittable(&self, settings: &Settings, place: u32) -> bool {
        let bucket = self.at(place);
        bucket.current().is_full_below(settings, bucket.depth)
    }

    /// Puts a bucket made in this round at the entries whose first bits are its prefix.
    pub fn put(&mut self, bucket: Rc<Bucket>) {
        let below = self.depth - bucket.depth;
        let first = (bucket.prefix << below) as usize;
        let count = 1usize << below;
        self.entries[first..first + count].fill(Rc::clone(&bucket));
        self.made.push(bucket);
    }

    /// Changes the bucket of this place. Only a bucket made in this round is changed: it is still
    /// private.
    pub fn change(&self, place: u32, change: &dyn Fn(&mut State)) {
        let bucket = self.at(place);
        let mut copy = State::clone(&bucket.current());
        if self.is_made(bucket) {
            change(&mut copy);
            *bucket.state.borrow_mut() = Rc::new(copy);
        }
    }
}
