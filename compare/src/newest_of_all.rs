//! The claim of docs/RULES.md, 4.11, after a list, on the library's own words: the newest end times are those of all
//! records that each parent has had, and the verdicts by them, by the records held and by all records are one. The
//! second engine's table knows every action that was ever started.

use crate::action::{Action, Parent};
use crate::coverage::Coverage;
use crate::header::ACCOUNTS;
use crate::library::{decode, Lent};
use crate::model::STORE;
use crate::same::{same, Compared};
use crate::table::Table;

/// The latest end time for each account among the records of a parent.
fn latest<'a>(actions: impl IntoIterator<Item = &'a Action>, parent: Parent) -> [u64; ACCOUNTS] {
    let mut latest = [0; ACCOUNTS];
    for record in actions.into_iter().filter(|a| a.parent == parent && a.is_writer()) {
        for k in (0..ACCOUNTS).filter(|&k| record.writes[k] != 0) {
            latest[k] = record.end.number().max(latest[k]);
        }
    }
    latest
}

pub fn newest_of_all(lent: &Lent, table: &Table, seen: &mut Coverage) -> Compared {
    let found = decode(&lent.table).expect("a table's length");
    for n in STORE..=table.highest {
        let parent = table.parent_named(n);
        let (had, held) = (latest(table.ever(), parent), latest(table.held(), parent));
        let newest = found.newest_of(found.parent_named(n)).expect("the store or an action");
        same(&format!("the newest end times of {n}"), newest.numbers(), &had)?;
        seen.newest.of_a_list(&had, &held);
    }
    for n in table.live().map(|a| a.number) {
        let (known, first) = (found.knows_clash(n), found.first_clash(n));
        same(&format!("whether a clash of {n} is known"), known, first.is_some())?;
        same(&format!("the first clash of {n} by its records"), first, table.first_clash(n))?;
        seen.newest.verdict(known);
    }
    Ok(())
}
