//! Whether a read is stale at a parent (docs/RULES.md, 4.10): by its records, by its newest end times, and where the
//! two do not say the same (7.16).

use crate::action::{Action, Parent};
use crate::header::ACCOUNTS;
use crate::newest::Newest;
use crate::table::Table;
use crate::times::Times;

/// A read of which a parent's newest end time and its records do not say the same.
#[derive(Clone, Copy)]
pub struct Misjudged {
    pub parent: Parent,
    pub account: usize,
    /// Whether the records say that it is stale. Then the newest end time is too early, and otherwise too late.
    pub is_stale: bool,
    /// Whether it is the read of a child of the parent, and not of one further down.
    pub is_childs: bool,
}

impl Table {
    /// None for a parent that is nobody.
    pub fn newest_of(&self, parent: Parent) -> Option<&Newest> {
        match parent {
            Parent::Store => Some(&self.newest),
            Parent::Action(place) => Some(&self.at(place).newest),
            Parent::Nobody | Parent::Unknown(_) => None,
        }
    }

    /// The records of a parent, of those that are held, that have an account in their write sets.
    fn writers_of(&self, parent: Parent, account: usize) -> impl Iterator<Item = &Action> {
        self.held().filter(move |b| b.parent == parent && b.writes[account] != 0 && b.is_writer())
    }

    /// The latest end time among these records, 0 where there is none.
    pub fn latest(&self, parent: Parent, account: usize) -> u64 {
        self.writers_of(parent, account).map(|b| b.end.number()).max().unwrap_or(0)
    }

    fn is_stale(&self, parent: Parent, account: usize, read: Times) -> bool {
        self.writers_of(parent, account).any(|b| b.end.is_after(read))
    }

    fn is_known_stale(&self, parent: Parent, account: usize, read: Times) -> bool {
        self.newest_of(parent).is_some_and(|newest| newest.at(account).is_after(read))
    }

    /// Whether an action's clash is known by its parent's newest end times.
    pub fn knows_clash(&self, n: u64) -> bool {
        let me = self.action(n);
        let is_stale = |k: usize| me.reads[k].times().is_some_and(|read| self.is_known_stale(me.parent, k, read));
        (0..ACCOUNTS).any(is_stale)
    }

    /// Whom an action is below, whatever the table: the store first, then its parent and those further up.
    pub fn parents_above(&self, a: &Action) -> impl Iterator<Item = Parent> + '_ {
        std::iter::once(Parent::Store).chain(self.places_above(a).map(Parent::Action))
    }

    /// The reads of an action, in any state, at the store and at all above it, in any state.
    pub fn misjudged<'a>(&'a self, a: &'a Action) -> impl Iterator<Item = Misjudged> + 'a {
        let reads = a.reads.iter().enumerate().filter_map(|(k, read)| Some((k, read.times()?)));
        let at = |parent, account, times| {
            let is_stale = self.is_stale(parent, account, times);
            let is_true = self.is_known_stale(parent, account, times) == is_stale;
            (!is_true).then_some(Misjudged { parent, account, is_stale, is_childs: parent == a.parent })
        };
        reads.flat_map(move |(k, times)| self.parents_above(a).filter_map(move |parent| at(parent, k, times)))
    }

    /// Those of live actions, at the store and at live actions.
    pub fn misjudged_live(&self) -> impl Iterator<Item = Misjudged> + '_ {
        self.live().flat_map(|a| self.misjudged(a)).filter(|read| self.is_store_or_live(read.parent))
    }
}
