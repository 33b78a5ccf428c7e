//! Damage to the newest end times of a table, and newest end times that only look like damage: what docs/RULES.md,
//! 7.16, leaves free.

use crate::action::{Action, Parent, State};
use crate::damage::{between, beyond, row, Damage};
use crate::header::ACCOUNTS;
use crate::library::{decode, COMMITTED, END, NEWEST, PARENT, READS, STATE, SUB_TIMES, WRITES};
use crate::random::Random;
use crate::table::Table;
use crate::times::Kind;

pub fn damage_newest(r: &mut Random, damage: Damage, words: &mut [u64]) {
    let Some(table) = decode(words) else { return };
    match damage {
        Damage::NewestAboveCounter | Damage::NewestWithinOther => raise_above(r, damage, &table, words),
        Damage::NewestEarly | Damage::NewestLate => make_false(r, damage, &table, words),
        Damage::NewestFree => move_freely(r, &table, words),
        Damage::NewestOfFinished => change_finished(r, &table, words),
        _ => change_any(r, &table, words),
    }
}

/// Makes those right that are false, so that other damage may stand alone: each becomes the latest of the parent's
/// records.
pub fn mend_newest(words: &mut [u64]) {
    let Some(table) = decode(words) else { return };
    for read in table.misjudged_live() {
        put(words, &table, read.parent, read.account, table.latest(read.parent, read.account));
    }
}

fn put(words: &mut [u64], table: &Table, parent: Parent, account: usize, time: u64) {
    row(words, table.number_of(parent))[NEWEST + account] = time;
}

fn counter(table: &Table, kind: Kind) -> u64 {
    table.counters.number(kind)
}

/// The store, and all actions.
fn parents(table: &Table) -> Vec<Parent> {
    std::iter::once(Parent::Store).chain(table.held().map(|a| table.parent_named(a.number))).collect()
}

fn any_account(r: &mut Random) -> usize {
    r.below(ACCOUNTS as u64) as usize
}

/// When the live actions below a parent have read an account.
fn reads_below(table: &Table, parent: Parent, account: usize) -> Vec<u64> {
    let below = table.live().filter(|m| table.parents_above(m).any(|p| p == parent));
    below.filter_map(|m| m.reads[account].times()).map(|times| times.number(parent.kind())).collect()
}

/// An account that nobody live below the parent has read, mostly, where there is one.
fn quiet_account(r: &mut Random, table: &Table, parent: Parent) -> usize {
    let is_quiet = |k: &usize| reads_below(table, parent, *k).is_empty();
    let quiet: Vec<usize> = (0..ACCOUNTS).filter(is_quiet).collect();
    if quiet.is_empty() || r.one_in(4) {
        any_account(r)
    } else {
        *r.pick(&quiet)
    }
}

/// The store, a live action or a finished one, each as likely.
fn any_parent(r: &mut Random, table: &Table) -> Parent {
    let live = r.one_in(2);
    let of_state: Vec<&Action> = table.held().filter(|a| a.is_live() == live).collect();
    if of_state.is_empty() || r.one_in(3) {
        Parent::Store
    } else {
        table.parent_named(r.pick(&of_state).number)
    }
}

/// One above the counter of its kind; where that is asked, one that is not above the other counter.
fn raise_above(r: &mut Random, damage: Damage, table: &Table, words: &mut [u64]) {
    let parent = any_parent(r, table);
    let account = quiet_account(r, table, parent);
    let [own, other] = [parent.kind(), parent.kind().other()].map(|kind| counter(table, kind));
    let time = match damage {
        Damage::NewestWithinOther => between(r, own, other),
        _ => Some(beyond(r, own.saturating_add(1))),
    };
    if let Some(time) = time {
        put(words, table, parent, account, time);
    }
}

/// A live action, and the store or a live action above it.
type Pair<'a> = (&'a Action, Parent);

/// Those of the one list, or of the other where there is none; where there are both, the ones as likely as the others.
fn either<T>(r: &mut Random, (ones, others): (Vec<T>, Vec<T>)) -> Vec<T> {
    if others.is_empty() || (!ones.is_empty() && r.one_in(2)) {
        ones
    } else {
        others
    }
}

/// A pair: with the store as likely as with an action, and a parent and its child as likely as others.
fn any_pair<'a>(r: &mut Random, table: &'a Table) -> Option<Pair<'a>> {
    let above = |m: &'a Action| table.parents_above(m).map(move |p| (m, p));
    let pairs = table.live().flat_map(above).filter(|(_, p)| table.is_store_or_live(*p));
    let some = either(r, pairs.partition(|(_, p)| *p == Parent::Store));
    let some = either(r, some.into_iter().partition(|(m, p)| m.parent == *p));
    (!some.is_empty()).then(|| *r.pick(&some))
}

/// The accounts that records of a parent have written.
fn written(table: &Table, parent: Parent) -> Vec<usize> {
    (0..ACCOUNTS).filter(|&k| table.latest(parent, k) > 0).collect()
}

/// A finished action, where there is one, made a record of this parent, with any end time that no other has.
fn make_record(r: &mut Random, table: &Table, parent: Parent, words: &mut [u64]) {
    let finished: Vec<u64> = table.held().filter(|a| !a.is_live()).map(|a| a.number).collect();
    let is_taken = |end: u64| table.held().any(|a| a.parent == parent && a.end.number() == end);
    let Some(end) = between(r, 0, counter(table, parent.kind())).filter(|&end| !is_taken(end)) else { return };
    if finished.is_empty() {
        return;
    }
    let row = row(words, *r.pick(&finished));
    (row[PARENT], row[STATE], row[END]) = (table.number_of(parent), COMMITTED, end);
    row[WRITES + any_account(r)] = 1;
}

/// One that is false for a read: too early where a record ended after it, too late where none did. Record and read are
/// made first. The read's other time is as late as can be, and the newest end times of other parents are mended.
fn make_false(r: &mut Random, damage: Damage, table: &Table, words: &mut [u64]) {
    let is_early = matches!(damage, Damage::NewestEarly);
    let Some((m, parent)) = any_pair(r, table) else { return };
    if is_early && written(table, parent).is_empty() {
        make_record(r, table, parent, words);
    }
    let Some(table) = decode(words) else { return };
    let accounts = if is_early { written(&table, parent) } else { vec![quiet_account(r, &table, parent)] };
    if accounts.is_empty() {
        return;
    }
    let account = *r.pick(&accounts);
    let (latest, now) = (table.latest(parent, account), counter(&table, parent.kind()));
    if latest > now || (!is_early && latest == now) {
        return;
    }
    let read = if is_early { r.below(latest) } else { latest + r.below(now - latest) };
    put_read(words, &table, m, (parent.kind(), read), account);
    mend_newest(words);
    let time = if is_early { r.below(read + 1) } else { read + 1 + r.below(now - read) };
    put(words, &table, parent, account, time);
}

/// A read with this time, and with the counter as its time of the other kind.
fn put_read(words: &mut [u64], table: &Table, m: &Action, (kind, time): (Kind, u64), account: usize) {
    let of = |own: Kind| if own == kind { time } else { counter(table, own) };
    let row = row(words, m.number);
    row[READS + account] = of(Kind::Top).saturating_add(1);
    row[SUB_TIMES + account] = of(Kind::Sub);
}

/// Those of the store and of live actions, moved as far as no read below tells the difference.
fn move_freely(r: &mut Random, table: &Table, words: &mut [u64]) {
    for parent in parents(table).into_iter().filter(|p| table.is_store_or_live(*p)) {
        for account in 0..ACCOUNTS {
            let (latest, reads) = (table.latest(parent, account), reads_below(table, parent, account));
            let first = reads.iter().filter(|t| **t < latest).max().map_or(0, |t| t + 1);
            let last = reads.into_iter().filter(|t| *t >= latest).min().unwrap_or(counter(table, parent.kind()));
            if first <= last && r.one_in(2) {
                put(words, table, parent, account, first + r.below((last - first).saturating_add(1)));
            }
        }
    }
}

/// Those of finished actions, at any times that the counter allows.
fn change_finished(r: &mut Random, table: &Table, words: &mut [u64]) {
    let most = counter(table, Kind::Sub);
    for a in table.held().filter(|a| matches!(a.state, State::Committed | State::Aborted)) {
        for k in 0..ACCOUNTS {
            if r.one_in(2) {
                row(words, a.number)[NEWEST + k] = r.below(most.saturating_add(1));
            }
        }
    }
}

/// Any one, mostly of an account that somebody live has read.
fn change_any(r: &mut Random, table: &Table, words: &mut [u64]) {
    let parent = any_parent(r, table);
    let read: Vec<usize> = (0..ACCOUNTS).filter(|&k| table.live().any(|m| m.has_read(k))).collect();
    let account = if read.is_empty() || r.one_in(4) { any_account(r) } else { *r.pick(&read) };
    let most = counter(table, parent.kind());
    put(words, table, parent, account, r.below(most.saturating_add(1)));
}
