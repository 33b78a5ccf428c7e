//! The tree of a table by the second engine (docs/RULES.md, 12): the report as structs and as text.

use crate::action::{Parent, Place, State};
use crate::cause;
use crate::header::{ACCOUNTS, BASE_BYTES};
use crate::model::{amount_in, as_amount, base_card, Figures, Ledger, CHARGE_ACCOUNTS, FIRST_CHARGE, NO_FIGURES};
use crate::table::Table;
use std::fmt;

/// Exact sums, of which it is not known whether they are amounts.
type Sums = [i128; CHARGE_ACCOUNTS];

/// The line of an action.
pub struct Line {
    pub depth: u64,
    pub number: u64,
    pub state: State,
    pub own_adds: Figures,
    pub total: Figures,
}

/// The line of a charge account in the last block.
pub struct Balance {
    pub account: u64,
    pub opening: i64,
    pub sum: i64,
    pub closing: i64,
}

pub struct Tree {
    pub lines: Vec<Line>,
    pub block: Vec<Balance>,
}

/// The sums as figures, where each is an amount.
fn figures(sums: Sums) -> Result<Figures, u64> {
    let mut out = NO_FIGURES;
    for (figure, sum) in out.iter_mut().zip(sums) {
        *figure = as_amount(sum)?;
    }
    Ok(out)
}

impl Table {
    /// An action's own adds and the totals of all children of it that ever committed, each from its children in turn.
    /// It asks no kept sum, and is right for tables that a list led to.
    pub fn total_of_all(&self, place: Place) -> Sums {
        let mut total = self.at(place).own_adds.map(i128::from);
        for (at, a) in self.ever().iter().enumerate() {
            if a.parent == Parent::Action(place) && a.state == State::Committed {
                for (sum, child) in total.iter_mut().zip(self.total_of_all(Place(at))) {
                    *sum += child;
                }
            }
        }
        total
    }

    /// Puts the lines under an action or the store. Only those who are held have one, so who lies below somebody that
    /// was dropped isn't met.
    fn lines_under(&self, parent: Parent, depth: u64, lines: &mut Vec<Line>) -> Result<(), u64> {
        for a in self.held().filter(|a| a.parent == parent) {
            let (number, state, own_adds) = (a.number, a.state, a.own_adds);
            lines.push(Line { depth, number, state, own_adds, total: figures(a.total())? });
            self.lines_under(self.parent_named(number), depth + 1, lines)?;
        }
        Ok(())
    }
}

impl Ledger {
    /// The tree beside the base store that the table began with, or why there is none.
    pub fn tree(&self, opening: &[u8]) -> Result<Tree, u64> {
        if opening.len() != BASE_BYTES {
            return Err(cause::STORE_LENGTH);
        }
        if let Some(cause) = self.stores_cause() {
            return Err(cause);
        }
        let mut lines = Vec::new();
        self.table.lines_under(Parent::Store, 0, &mut lines)?;
        let balance = |(account, sum): (usize, i64)| {
            let amount = |store: &[u8]| amount_in(&store[base_card(account)]);
            Balance { account: account as u64, opening: amount(opening), sum, closing: amount(&self.base) }
        };
        let block = (FIRST_CHARGE..ACCOUNTS).zip(self.table.kept).map(balance).collect();
        Ok(Tree { lines, block })
    }
}

fn word(state: State) -> &'static str {
    match state {
        State::Live => "live",
        State::Committed => "committed",
        State::Aborted => "aborted",
        State::Unknown(_) => unreachable!("a sound table has no such state"),
    }
}

impl fmt::Display for Tree {
    fn fmt(&self, f: &mut fmt::Formatter) -> fmt::Result {
        for line in &self.lines {
            write!(f, "{} {} {}", line.depth, line.number, word(line.state))?;
            for (own, total) in line.own_adds.iter().zip(&line.total) {
                write!(f, " {own} {total}")?;
            }
            writeln!(f)?;
        }
        for b in &self.block {
            writeln!(f, "{} {} {} {}", b.account, b.opening, b.sum, b.closing)?;
        }
        Ok(())
    }
}
