//! The call for a short day, measured beside a plain search for one place: lists by their order over cloned structs,
//! counted as they come.

use crate::bench::{row, slow_rounds, Row, ROUNDS};
use crate::dayfile::event_bytes;
use crate::header::*;
use crate::library;
use crate::model::{Event, Ledger, STORE};
use crate::rule::Rule;
use crate::short_days::{new_ledger, short_event, ShortDay};
use std::hint::black_box;
use std::ops::Range;

const RULE: Rule = Rule::Backward;
/// The longest short days, of which the last is asked for, and those of which all are.
const LONGEST: usize = SHORT_EVENTS;
const ALL: usize = SHORT_EVENTS - 1;
/// Rounds of all of them, each of which takes seconds.
const FEW_ROUNDS: usize = 5;

// ---- the search

/// The ledger after a list, and how many lists are still to be passed over. The stores are not cloned: what they hold
/// makes no difference to a cause here.
struct Search {
    ledger: Ledger,
    list: Vec<Event>,
    before: u64,
}

impl Search {
    /// Counts a list that is long enough; whether it is the one.
    fn is_here(&mut self) -> bool {
        let is_here = self.before == 0;
        self.before = self.before.saturating_sub(1);
        is_here
    }

    /// Whether it is among those that go on from the list with so many events; the list is then the one.
    fn finds(&mut self, left: usize) -> bool {
        if left == 0 {
            return self.is_here();
        }
        for code in EVENT_START..=EVENT_ABORT {
            let mut e = short_event(code, STORE, self.list.len() + 1);
            for number in STORE..=self.ledger.table.highest {
                e.number = number;
                if self.ledger.event_cause(&e).is_none() && self.goes_on(&e, left) {
                    return true;
                }
            }
        }
        false
    }

    /// The same of those whose next event this is. The last event of a list is not taken, as nothing follows it.
    fn goes_on(&mut self, e: &Event, left: usize) -> bool {
        self.list.push(e.clone());
        let found = if left == 1 { self.is_here() } else { self.is_behind(e, left - 1) };
        if !found {
            self.list.pop();
        }
        found
    }

    fn is_behind(&mut self, e: &Event, left: usize) -> bool {
        let table = self.ledger.table.clone();
        self.ledger.sound_event(e);
        let found = self.finds(left);
        self.ledger.table = table;
        found
    }
}

fn searched(k: usize, place: u64) -> Option<ShortDay> {
    let mut search = Search { ledger: new_ledger(RULE), list: Vec::new(), before: place };
    search.finds(k).then(|| event_bytes(&search.list))
}

// ---- rows

/// What the library gives, if it gives one.
fn called(k: usize, place: u64) -> Option<ShortDay> {
    let mut buffer = [0; SHORT_BYTES];
    let (kind, _) = library::short_day(k as u64, RULE.number(), place, &mut buffer);
    (kind == SHORT_DAY_GIVEN).then(|| buffer[..EVENT_BYTES * k].to_vec())
}

/// How many there are, by the search; the last of them is the same by both.
fn count(k: usize) -> u64 {
    let mut search = Search { ledger: new_ledger(RULE), list: Vec::new(), before: u64::MAX };
    assert!(!search.finds(k), "more short days of {k} events than can be counted");
    let count = u64::MAX - search.before;
    assert_eq!(called(k, count - 1), searched(k, count - 1), "the last short day of {k} events");
    assert_eq!(called(k, count), None, "a short day of {k} events behind the last");
    count
}

/// The calls for these places, and the searches.
fn push(rows: &mut Vec<Row>, what: &str, rounds: usize, k: usize, places: Range<u64>) {
    let mut call = || places.clone().for_each(|place| _ = black_box(called(k, place)));
    let mut search = || places.clone().for_each(|place| _ = black_box(searched(k, place)));
    rows.push(row(what, &slow_rounds(rounds, &mut [&mut call, &mut search])));
}

pub fn short_days(rows: &mut Vec<Row>) {
    let (longest, all) = (count(LONGEST), count(ALL));
    let last = longest - 1;
    push(rows, &format!("the last of {longest} short days of {LONGEST} events"), ROUNDS, LONGEST, last..longest);
    push(rows, &format!("all {all} short days of {ALL} events, a call to each"), FEW_ROUNDS, ALL, 0..all);
}
