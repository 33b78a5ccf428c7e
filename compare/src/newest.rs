//! The newest end times of an action or of the store (docs/RULES.md, 1.5 and 4.5), one for each account. The second
//! engine keeps them for the table's words and for their soundness, and judges nobody by them.

use crate::action::Action;
use crate::header::ACCOUNTS;
use crate::times::{EndTime, Kind, Times};

#[derive(Clone, PartialEq, Eq, Debug)]
pub struct Newest {
    /// Of the children, whose end times these are.
    kind: Kind,
    times: [u64; ACCOUNTS],
}

impl Newest {
    pub const fn new(kind: Kind, times: [u64; ACCOUNTS]) -> Newest {
        Newest { kind, times }
    }

    /// Where no child has committed.
    pub const fn none(kind: Kind) -> Newest {
        Newest::new(kind, [0; ACCOUNTS])
    }

    pub fn at(&self, account: usize) -> EndTime {
        EndTime::new(self.kind, self.times[account])
    }

    pub fn numbers(&self) -> &[u64; ACCOUNTS] {
        &self.times
    }

    /// A child has committed.
    pub fn note(&mut self, child: &Action) {
        for (time, &entry) in self.times.iter_mut().zip(&child.writes) {
            if entry != 0 {
                *time = child.end.number();
            }
        }
    }

    /// Whether one of them is above the counter of their kind.
    pub fn is_above(&self, counters: Times) -> bool {
        let most = counters.number(self.kind);
        self.times.iter().any(|&time| time > most)
    }
}
