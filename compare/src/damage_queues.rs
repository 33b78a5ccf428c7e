//! Damage to the two queues of a table, to one of them or to both.

use crate::damage::{any_action, beyond, field, highest, kind_of, may_wait, row, Damage};
use crate::header::ACTIONS;
use crate::library::{entry_words, ENTRIES, LIVE, NUMBER, QUEUE_LENGTHS, READINESS, STATE, VERDICT};
use crate::random::Random;
use crate::times::{Kind, KINDS};

/// What stands in words that are only asked whether they are 0.
const ODD: [u64; 6] = [0, 0, 1, 7, 1 << 63, u64::MAX];
/// The same without 0.
const YES: [u64; 4] = [1, 7, 1 << 63, u64::MAX];

/// One kind, or both.
fn some_kinds(r: &mut Random) -> &'static [Kind] {
    *r.pick(&[&[Kind::Top], &[Kind::Sub], &KINDS[..]])
}

pub fn damage_queues(r: &mut Random, damage: Damage, words: &mut [u64]) {
    let kind = *r.pick(&KINDS);
    match damage {
        Damage::QueueMade => some_kinds(r).iter().for_each(|&kind| make_queue(r, words, kind)),
        Damage::QueueMadeReady => make_ready_queue(r, words, kind),
        Damage::QueuesMadeReady => KINDS.into_iter().for_each(|kind| make_ready_queue(r, words, kind)),
        Damage::QueueLength => *length(words, kind) = beyond(r, ACTIONS as u64 + 1),
        Damage::EntriesAbove => some_kinds(r).iter().for_each(|&kind| damage_entries_above(r, words, kind)),
        Damage::EntryOfOtherKind => enter_other_kind(r, words, kind),
        _ => damage_queue(r, damage, words, kind),
    }
}

pub fn length(words: &mut [u64], kind: Kind) -> &mut u64 {
    &mut words[QUEUE_LENGTHS[kind as usize]]
}

/// A word of the entry at a position.
fn word(words: &mut [u64], kind: Kind, position: u64, at: usize) -> &mut u64 {
    &mut row(words, position)[ENTRIES[kind as usize] + at]
}

fn put_entry(r: &mut Random, words: &mut [u64], kind: Kind, position: u64, number: u64) {
    row(words, position)[entry_words(kind)].copy_from_slice(&[number, *r.pick(&ODD), *r.pick(&ODD)]);
}

/// A queue of some of those that may wait in it, in any order, with odd words: what a caller may lend though no events
/// lead there.
pub fn make_queue(r: &mut Random, words: &mut [u64], kind: Kind) {
    let fits = |n: &u64| kind_of(words, *n) == kind && may_wait(words, *n);
    let mut numbers: Vec<u64> = (1..=highest(words)).filter(fits).collect();
    let mut put = 0;
    while !numbers.is_empty() && !r.one_in(8) {
        let number = numbers.swap_remove(r.below(numbers.len() as u64) as usize);
        put += 1;
        put_entry(r, words, kind, put, number);
    }
    *length(words, kind) = put;
}

fn make_ready_queue(r: &mut Random, words: &mut [u64], kind: Kind) {
    make_queue(r, words, kind);
    if *length(words, kind) > 0 {
        *word(words, kind, 1, READINESS) = *r.pick(&YES);
    }
}

/// Positions behind the tail, filled with anything, or with what an engine that reads on would take for entries.
fn damage_entries_above(r: &mut Random, words: &mut [u64], kind: Kind) {
    let (highest, length) = (highest(words), (*length(words, kind)).min(ACTIONS as u64));
    for position in length + 1..=ACTIONS as u64 {
        let number = if r.one_in(2) { r.next() } else { r.below(highest + 1) };
        put_entry(r, words, kind, position, number);
    }
}

/// One that may wait in the other queue, put in this one: behind its tail, or in another's place.
fn enter_other_kind(r: &mut Random, words: &mut [u64], kind: Kind) {
    let fits = |n: u64| kind_of(words, n) != kind && may_wait(words, n);
    let Some(number) = any_action(r, words, fits) else { return };
    let tail = *length(words, kind);
    if tail >= ACTIONS as u64 {
        return;
    }
    if tail > 0 && r.one_in(2) {
        *word(words, kind, 1 + r.below(tail), NUMBER) = number;
    } else {
        put_entry(r, words, kind, tail + 1, number);
        *length(words, kind) = tail + 1;
    }
}

/// Damage to a queue, which is made first where there is none.
fn damage_queue(r: &mut Random, damage: Damage, words: &mut [u64], kind: Kind) {
    if *length(words, kind) == 0 {
        make_queue(r, words, kind);
    }
    let (highest, tail) = (highest(words), *length(words, kind));
    if tail == 0 || tail >= ACTIONS as u64 {
        return;
    }
    let position = 1 + r.below(tail);
    match damage {
        Damage::QueueLonger => *length(words, kind) = (tail + 1 + r.below(2)).min(ACTIONS as u64),
        Damage::QueueShorter => *length(words, kind) = r.below(tail),
        Damage::EntryNobody => {
            *word(words, kind, position, NUMBER) = if r.one_in(2) { 0 } else { beyond(r, highest + 1) }
        }
        Damage::EntryOther => *word(words, kind, position, NUMBER) = other_of_kind(r, words, kind),
        Damage::EntryTwice => {
            let number = *word(words, kind, position, NUMBER);
            *word(words, kind, tail + 1, NUMBER) = number;
            *length(words, kind) = tail + 1;
        }
        _ => {
            *word(words, kind, position, VERDICT) = *r.pick(&ODD);
            *word(words, kind, position, READINESS) = *r.pick(&ODD);
        }
    }
}

/// Any action, mostly of the queue's kind and often live.
fn other_of_kind(r: &mut Random, words: &[u64], kind: Kind) -> u64 {
    let any = 1 + r.below(highest(words).max(1));
    if r.one_in(4) {
        return any;
    }
    let lives = r.one_in(2);
    any_action(r, words, |n| kind_of(words, n) == kind && (!lives || field(words, n, STATE) == LIVE)).unwrap_or(any)
}
