//! The calls beside event and look, on parts of any length and content: a list in one call, opening, the three numbers.

use crate::cause;
use crate::coverage::Coverage;
use crate::dayfile::{event_bytes, event_of};
use crate::generate::{event, style};
use crate::header::{ANSWER_WORDS, BASE_BYTES, EVENT_BYTES, SHADOW_BYTES, TABLE_WORDS};
use crate::header::{RULE_BACKWARD, RULE_FORWARD};
use crate::library::{answer_words, decode, encode, Lent, COUNTERS, HIGHEST};
use crate::lists::STALE;
use crate::model::Ledger;
use crate::random::Random;
use crate::same::{same, same_lent, same_words, Compared};
use crate::table::Table;
use crate::times::Times;

/// A list has fewer events than this; a buffer that may be too small, fewer words.
const EVENTS: u64 = 6;
const ROOM: u64 = 20;
/// What openings ask for: the rules, what is next to them, and what ends in the bits of one.
pub const ASKED: [u64; 8] = [
    RULE_BACKWARD - 1,
    RULE_BACKWARD,
    RULE_FORWARD,
    RULE_FORWARD + 1,
    1 << 8 | RULE_FORWARD,
    1 << 32 | RULE_BACKWARD,
    1 << 32 | RULE_FORWARD,
    u64::MAX,
];

/// A short list that may be cut, with room that may be too small; `ledger` stands where events mostly are not refused.
pub fn list_call(r: &mut Random, before: &Lent, ledger: &Ledger, seen: &mut Coverage) -> Compared {
    let (style, mut ahead, mut events) = (style(r), ledger.clone(), Vec::new());
    for _ in 0..r.below(EVENTS) {
        let e = event(r, &ahead, style, true);
        ahead.event(&e);
        events.push(e);
    }
    let mut bytes = event_bytes(&events);
    if r.one_in(4) {
        bytes.truncate(r.below(bytes.len() as u64 + 1) as usize);
    }
    let enough = (ANSWER_WORDS * events.len()) as u64;
    let room = if r.one_in(4) { r.below(ROOM) } else { enough + r.below(3) };
    let mut answers = vec![STALE; room as usize];
    let (cause, after, words) = expected_list(before, &bytes, room as usize);
    let mut lent = before.clone();
    same("list call: cause", lent.run(&bytes, &mut answers), cause)?;
    same("list call: answers", answers, words)?;
    seen.list_call(cause);
    same_lent(&lent, &after)
}

fn expected_list(before: &Lent, bytes: &[u8], room: usize) -> (u64, Lent, Vec<u64>) {
    let refused = |cause| (cause, before.clone(), vec![STALE; room]);
    if before.base.len() != BASE_BYTES || before.shadow.len() != SHADOW_BYTES {
        return refused(cause::STORE_LENGTH);
    }
    let Some(table) = decode(&before.table).filter(Table::is_sound) else {
        return refused(cause::UNSOUND);
    };
    if bytes.len() % EVENT_BYTES != 0 || room / ANSWER_WORDS < bytes.len() / EVENT_BYTES {
        return refused(cause::LENGTH);
    }
    let mut ledger = Ledger { table, base: before.base.clone(), shadow: before.shadow.clone() };
    let events = bytes.chunks(EVENT_BYTES).map(event_of);
    let mut words: Vec<u64> = events.flat_map(|e| answer_words(ledger.sound_event(&e))).collect();
    words.resize(room, STALE);
    let mut after = Lent { table: before.table.clone(), base: ledger.base, shadow: ledger.shadow };
    encode(&ledger.table, &mut after.table);
    (cause::NONE, after, words)
}

/// What an opening answers, and the words that it leaves.
fn expected_opening(before: &[u64], asked: u64) -> (u64, Vec<u64>) {
    if before.len() != TABLE_WORDS {
        return (cause::UNSOUND, before.to_vec());
    }
    let ((cause, table), mut words) = (Table::opened(asked), vec![0; TABLE_WORDS]);
    encode(&table, &mut words);
    (cause, words)
}

pub fn open_and_three_numbers(r: &mut Random, before: &Lent, seen: &mut Coverage) -> Compared {
    let word = |i: usize| before.table.get(i).copied().unwrap_or(0);
    let [top, sub] = COUNTERS.map(word);
    same("the three numbers", before.three_numbers(), (word(HIGHEST), Times::new(top, sub)))?;
    let (mut lent, asked) = (before.clone(), *r.pick(&ASKED));
    let (cause, words) = expected_opening(&before.table, asked);
    same(&format!("an opening under {asked}"), lent.open(asked), cause)?;
    seen.rules.opening(asked, cause);
    same_words(&lent.table, &words)
}
