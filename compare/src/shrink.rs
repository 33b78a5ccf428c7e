//! The smallest list that still shows a difference: parts are taken out, large ones first, while it stays.

use crate::action::Place;
use crate::column::CHARGE_BYTES;
use crate::header::EVENT_ADD;
use crate::model::{amount_in, Answer, Event, Ledger, AMOUNT_BYTES, STORE};
use std::collections::HashMap;

fn smallest<T: Clone>(
    list: &[T],
    without: impl Fn(&[T], usize, usize) -> Vec<T>,
    differs: impl Fn(&[T]) -> bool,
) -> Vec<T> {
    let mut best = list.to_vec();
    let mut part = best.len().div_ceil(2);
    while part > 0 {
        let mut at = 0;
        while at < best.len() {
            let shorter = without(&best, at, (at + part).min(best.len()));
            if differs(&shorter) {
                best = shorter;
            } else {
                at += part;
            }
        }
        part /= 2;
    }
    best
}

fn others<T: Clone>(all: &[T], from: usize, to: usize) -> Vec<T> {
    [&all[..from], &all[to..]].concat()
}

pub fn smallest_bytes(bytes: &[u8], differs: impl Fn(&[u8]) -> bool) -> Vec<u8> {
    smallest(bytes, others, differs)
}

/// Of a list of charges, the last of which may be cut.
pub fn smallest_charges(list: &[u8], differs: impl Fn(&[u8]) -> bool) -> Vec<u8> {
    let charges: Vec<Vec<u8>> = list.chunks(CHARGE_BYTES).map(<[u8]>::to_vec).collect();
    smallest(&charges, others, |part| differs(&part.concat())).concat()
}

/// Of a list that begins on a new ledger.
pub fn smallest_list(events: &[Event], new: &Ledger, differs: impl Fn(&[Event]) -> bool) -> Vec<Event> {
    smallest(events, |all, from, to| without(all, new, from, to), differs)
}

/// The other events, with the numbers that their actions get when those taken out are gone: the whole list and the
/// shorter one are run side by side, and an action is the same in both by its start. Where it has no number in the
/// shorter list, the event keeps the one that it has.
fn without(events: &[Event], new: &Ledger, from: usize, to: usize) -> Vec<Event> {
    let (mut whole, mut shorter, mut kept) = (new.clone(), new.clone(), Vec::new());
    let mut numbers: HashMap<Place, u64> = HashMap::new();
    for (i, e) in events.iter().enumerate() {
        let named = (e.number != STORE && e.number <= whole.table.highest).then(|| whole.table.holder(e.number));
        let answer = whole.sound_event(e);
        if (from..to).contains(&i) {
            continue;
        }
        let number = named.and_then(|place| numbers.get(&place).copied()).unwrap_or(e.number);
        let renumbered = Event { number, ..e.clone() };
        if let (Answer::Started(n), Answer::Started(m)) = (answer, shorter.sound_event(&renumbered)) {
            numbers.insert(whole.table.holder(n), m);
        }
        kept.push(renumbered);
    }
    kept
}

/// How many bytes of a card a reader is shown.
const SHOWN: usize = 2;

/// A list for a reader, a line to an event.
pub fn described(events: &[Event]) -> String {
    let mut text = format!("{} events:", events.len());
    for (i, e) in events.iter().enumerate() {
        text += &format!("\n{} code {} number {} account {} {}", i + 1, e.code, e.number, e.account, card_described(e));
    }
    text
}

fn card_described(e: &Event) -> String {
    let length = e.card.len();
    if e.code == EVENT_ADD && length >= AMOUNT_BYTES {
        return format!("amount {} in {length} bytes", amount_in(&e.card));
    }
    let front: Vec<u8> = e.card.iter().take(SHOWN).copied().collect();
    format!("card {front:?}.. of {length}")
}
