//! The two kinds of action and the times of each (docs/RULES.md, 1.3 and 1.6). Times are compared within their kind
//! alone: nothing here, and nothing that Rust derives, tells which of a `TopTime` and a `SubTime` is the smaller.

use crate::model::STORE;
use std::cmp::Ordering;

/// Kind 0 are the topactions, kind 1 the subactions.
#[derive(Clone, Copy, PartialEq, Eq, PartialOrd, Ord, Debug)]
pub enum Kind {
    Top = 0,
    Sub = 1,
}

pub const KINDS: [Kind; 2] = [Kind::Top, Kind::Sub];

impl Kind {
    /// The kind of all children of an action or of the store, by its number.
    pub fn under(parent: u64) -> Kind {
        if parent == STORE {
            Kind::Top
        } else {
            Kind::Sub
        }
    }

    pub fn other(self) -> Kind {
        match self {
            Kind::Top => Kind::Sub,
            Kind::Sub => Kind::Top,
        }
    }
}

/// A time of the topactions' counter.
#[derive(Clone, Copy, PartialEq, Eq, PartialOrd, Ord, Debug)]
pub struct TopTime(pub u64);

/// A time of the subactions' counter.
#[derive(Clone, Copy, PartialEq, Eq, PartialOrd, Ord, Debug)]
pub struct SubTime(pub u64);

/// A time of each kind: the two counters, or those of a read. Pairs have no order: their parts may differ either way.
#[derive(Clone, Copy, PartialEq, Eq, Debug)]
pub struct Times {
    pub top: TopTime,
    pub sub: SubTime,
}

impl Times {
    pub const ZERO: Times = Times::new(0, 0);

    pub const fn new(top: u64, sub: u64) -> Times {
        Times { top: TopTime(top), sub: SubTime(sub) }
    }

    /// The smaller of each kind, which may come from either pair.
    pub fn smaller(self, other: Times) -> Times {
        Times { top: self.top.min(other.top), sub: self.sub.min(other.sub) }
    }

    pub fn number(self, kind: Kind) -> u64 {
        match kind {
            Kind::Top => self.top.0,
            Kind::Sub => self.sub.0,
        }
    }

    /// With the number of each kind for the other's.
    pub fn exchanged(self) -> Times {
        Times::new(self.sub.0, self.top.0)
    }

    /// Of a read under these counters: whether its time of this kind is above the counter of this kind.
    pub fn is_above(self, counters: Times, kind: Kind) -> bool {
        match kind {
            Kind::Top => self.top > counters.top,
            Kind::Sub => self.sub > counters.sub,
        }
    }

    /// Of the counters: raises the one of this kind, and leaves the other. The end time that it then gives.
    pub fn raise(&mut self, kind: Kind) -> EndTime {
        match kind {
            Kind::Top => self.top.0 += 1,
            Kind::Sub => self.sub.0 += 1,
        }
        EndTime::new(kind, self.number(kind))
    }
}

/// An end time, of its action's kind.
#[derive(Clone, Copy, PartialEq, Eq, Debug)]
pub enum EndTime {
    Top(TopTime),
    Sub(SubTime),
}

impl EndTime {
    pub const fn new(kind: Kind, number: u64) -> EndTime {
        match kind {
            Kind::Top => EndTime::Top(TopTime(number)),
            Kind::Sub => EndTime::Sub(SubTime(number)),
        }
    }

    pub fn number(self) -> u64 {
        match self {
            EndTime::Top(TopTime(number)) | EndTime::Sub(SubTime(number)) => number,
        }
    }

    /// Whether a read with these times was made before.
    pub fn is_after(self, read: Times) -> bool {
        match self {
            EndTime::Top(end) => read.top < end,
            EndTime::Sub(end) => read.sub < end,
        }
    }

    pub fn is_above(self, counters: Times) -> bool {
        match self {
            EndTime::Top(end) => end > counters.top,
            EndTime::Sub(end) => end > counters.sub,
        }
    }
}

impl PartialOrd for EndTime {
    /// None where the kinds differ.
    fn partial_cmp(&self, other: &EndTime) -> Option<Ordering> {
        match (self, other) {
            (EndTime::Top(mine), EndTime::Top(theirs)) => Some(mine.cmp(theirs)),
            (EndTime::Sub(mine), EndTime::Sub(theirs)) => Some(mine.cmp(theirs)),
            _ => None,
        }
    }
}
