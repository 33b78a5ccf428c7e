//! Every short day (docs/RULES.md, 15) by the second engine alone: each event that a byte's number lets stand is tried
//! behind each list, and what isn't refused is taken on a clone of the ledger.

use crate::cause;
use crate::dayfile::{event_bytes, event_of};
use crate::header::*;
use crate::model::{Event, Ledger};
use crate::rule::Rule;

/// The one account of a short day.
const ACCOUNT: u64 = 0;

/// How many lengths there are, from no event on.
pub const LENGTHS: usize = SHORT_EVENTS + 1;

/// A short day, as the bytes of its events.
pub type ShortDay = Vec<u8>;

/// The short days under a rule: at i those of i events, in their order.
pub type ShortDays = [Vec<ShortDay>; LENGTHS];

/// The event of this code and number at a place of a list, counted from 1.
pub fn short_event(code: u64, number: u64, place: usize) -> Event {
    let fill = if code == EVENT_WRITE { place as u8 } else { 0 };
    Event { code, number, account: ACCOUNT, card: vec![fill; CARD_BYTES] }
}

pub fn new_ledger(rule: Rule) -> Ledger {
    Ledger::new(rule, vec![0; BASE_BYTES], vec![0; SHADOW_BYTES])
}

/// What may stand at a place, by code and then by number. A list has one byte for the number.
fn tried(place: usize) -> impl Iterator<Item = Event> {
    let numbers = 0..=u64::from(u8::MAX);
    let of_code = move |code| numbers.clone().map(move |number| short_event(code, number, place));
    (EVENT_START..=EVENT_ABORT).flat_map(of_code)
}

/// What the event leaves; nothing where it is refused.
fn taken(ledger: &Ledger, e: &Event) -> Option<Ledger> {
    if ledger.event_cause(e).is_some() {
        return None;
    }
    let mut next = ledger.clone();
    (next.sound_event(e).cause() == cause::NONE).then_some(next)
}

/// Puts a list, and then all that go on from it. Lists of one length come by their order, since what is tried does.
fn walk(ledger: &Ledger, list: &[Event], all: &mut ShortDays) {
    all[list.len()].push(event_bytes(list));
    if list.len() == SHORT_EVENTS {
        return;
    }
    for e in tried(list.len() + 1) {
        if let Some(next) = taken(ledger, &e) {
            walk(&next, &[list, &[e]].concat(), all);
        }
    }
}

pub fn short_days(rule: Rule) -> ShortDays {
    let mut all = ShortDays::default();
    walk(&new_ledger(rule), &[], &mut all);
    all
}

pub fn events_of(day: &[u8]) -> Vec<Event> {
    day.chunks(EVENT_BYTES).map(event_of).collect()
}

/// For a reader: the code and the number of each event, and in brackets the byte of a card that isn't of zeros.
pub fn described(day: &[u8]) -> String {
    let event = |bytes: &[u8]| match *bytes {
        [code, number, _, 0, ..] => format!("{code} {number}"),
        [code, number, _, fill, ..] => format!("{code} {number} ({fill})"),
        _ => format!("{bytes:?}"),
    };
    let events: Vec<String> = day.chunks(EVENT_BYTES).map(event).collect();
    if events.is_empty() {
        return "no event".to_string();
    }
    events.join(", ")
}
