//! The forward rule (docs/RULES.md, 4.12 and 4.13): who of those that are still live has read what an action changes.

use crate::action::{Action, Parent};
use crate::header::ACCOUNTS;
use crate::table::Table;

impl Table {
    /// The child of a parent through which a live action is below it, be it itself; none where it is not below it.
    fn child_towards<'a>(&'a self, m: &'a Action, parent: Parent) -> Option<&'a Action> {
        self.upwards(m).find(|a| a.parent == parent)
    }

    /// The live actions below an action's parent, but for itself and those below it.
    pub fn rivals<'a>(&'a self, me: &'a Action) -> impl Iterator<Item = &'a Action> {
        let is_rival = |m: &&Action| self.child_towards(m, me.parent).is_some_and(|child| child.number != me.number);
        self.ever().iter().filter(|m| m.is_live()).filter(is_rival)
    }

    /// Each reader ahead of an action by its number, with each account over which it is one.
    pub fn readers_ahead<'a>(&'a self, me: &'a Action) -> impl Iterator<Item = (u64, u64)> + 'a {
        let over = |m: &'a Action| (0..ACCOUNTS).filter(|&k| me.writes[k] != 0 && m.has_read(k));
        self.rivals(me).flat_map(move |m| over(m).map(|k| (m.number, k as u64)))
    }

    /// The lowest number, and of that action's accounts the lowest. Numbers are given again, so it need not be the one
    /// that started first.
    pub fn first_reader_ahead(&self, n: u64) -> Option<(u64, u64)> {
        self.readers_ahead(self.action(n)).min()
    }
}
