//! The buckets of a directory as the page names them, and what was split between two directories.

use crate::records::Bucket;
use std::rc::Rc;

/// A bucket by its depth and prefix.
#[derive(Clone, Copy, PartialEq, Eq, Debug)]
pub struct Leaf {
    pub depth: u32,
    pub prefix: u32,
}

impl Leaf {
    pub fn of(bucket: &Bucket) -> Leaf {
        Leaf {
            depth: bucket.depth,
            prefix: bucket.prefix,
        }
    }

    /// Deeper, with the same first bits.
    fn is_under(&self, top: &Leaf) -> bool {
        self.depth > top.depth && self.prefix >> (self.depth - top.depth) == top.prefix
    }
}

/// A bucket that was split, and the buckets that stand in its place.
#[derive(Clone, PartialEq, Eq, Debug)]
pub struct Split {
    pub old: Leaf,
    pub into: Vec<Leaf>,
}

/// The buckets of a directory's entries, each once.
pub fn leaves(entries: &[Rc<Bucket>]) -> Vec<Leaf> {
    let mut all: Vec<Leaf> = entries.iter().map(|bucket| Leaf::of(bucket)).collect();
    all.dedup();
    all
}

/// The buckets of the first that are not in the second, each with those that stand in its place.
pub fn split(old: &[Leaf], new: &[Leaf]) -> Vec<Split> {
    let gone = old.iter().filter(|leaf| !new.contains(leaf));
    gone.map(|top| Split {
        old: *top,
        into: new
            .iter()
            .filter(|leaf| leaf.is_under(top))
            .copied()
            .collect(),
    })
    .collect()
}
