//! Whole days on both engines, from file to listing and from file to tree.

use crate::cause;
use crate::coverage::Coverage;
use crate::damage::{any_opening, damage, LENGTHS};
use crate::dayfile::{counted_events, day_tree, entry_at, parse, refused_line, run_day, Run};
use crate::generate::{any_day, bytes};
use crate::header::{BASE_BYTES, LISTING_BYTES, SHADOW_BYTES, TABLE_WORDS};
use crate::library::{encode, Lent};
use crate::model::{Event, Ledger};
use crate::random::Random;
use crate::rule::Rule;
use crate::same::{same, same_bytes, same_lent, Compared};
use crate::shrink::{smallest_bytes, smallest_list};

/// What the buffer for a listing or a tree holds before the call.
const UNTOUCHED: u8 = 0x55;
/// Makes these random numbers others than the lists'.
const SALT: u64 = 0x0da7_f11e;
/// How often progress is shown.
const DAYS_TO_A_STEP: u64 = 100;

/// What a day is lent; the opening store its tree alone.
struct Parts {
    lent: Lent,
    opening: Vec<u8>,
}

/// Why a day is refused before its file is read, if it is.
fn lengths_cause(lent: &Lent) -> Option<u64> {
    if lent.base.len() != BASE_BYTES || lent.shadow.len() != SHADOW_BYTES {
        return Some(cause::STORE_LENGTH);
    }
    (lent.table.len() != TABLE_WORDS).then_some(cause::UNSOUND)
}

/// What a day that was run leaves.
fn left(ledger: Ledger) -> Lent {
    let mut table = vec![0; TABLE_WORDS];
    encode(&ledger.table, &mut table);
    Lent { table, base: ledger.base, shadow: ledger.shadow }
}

/// What the second engine makes of a day on anything that was lent: the listing, and what is left.
fn expected(file: &[u8], before: &Lent) -> (String, Lent) {
    if let Some(cause) = lengths_cause(before) {
        return (refused_line(cause), before.clone());
    }
    match run_day(file, Rule::Backward, before.shadow.clone()) {
        (text, None) => (text, before.clone()),
        (text, Some(ledger)) => (text, left(ledger)),
    }
}

/// What it makes of the day's tree: the text, and what is left, the opening store too.
fn expected_tree(file: &[u8], before: &Parts) -> (String, Lent, Vec<u8>) {
    let stays = |text| (text, before.lent.clone(), before.opening.clone());
    if before.opening.len() != BASE_BYTES {
        return stays(refused_line(cause::STORE_LENGTH));
    }
    if let Some(cause) = lengths_cause(&before.lent) {
        return stays(refused_line(cause));
    }
    match day_tree(file, before.lent.shadow.clone()) {
        (text, None) => stays(text),
        (text, Some(Run { ledger, opening })) => (text, left(ledger), opening),
    }
}

/// A whole buffer: what a call put in its front, and nothing behind it.
fn same_text(what: &str, buffer: &[u8; LISTING_BYTES], length: usize, text: &str) -> Compared {
    same(what, String::from_utf8_lossy(&buffer[..length]).as_ref(), text)?;
    same(&format!("the buffer behind the {what}"), buffer[length..].iter().all(|&b| b == UNTOUCHED), true)
}

fn listing(file: &[u8], before: &Lent, seen: &mut Coverage) -> Compared {
    let (text, after) = expected(file, before);
    let mut lent = before.clone();
    let mut buffer = Box::new([UNTOUCHED; LISTING_BYTES]);
    let length = lent.day(file, &mut buffer).len();
    same_text("listing", &buffer, length, &text)?;
    seen.day(&text);
    same_lent(&lent, &after)
}

fn tree(file: &[u8], before: &Parts, seen: &mut Coverage) -> Compared {
    let (text, after, opening_after) = expected_tree(file, before);
    let (mut lent, mut opening) = (before.lent.clone(), before.opening.clone());
    let mut buffer = Box::new([UNTOUCHED; LISTING_BYTES]);
    let length = lent.day_tree(file, &mut opening, &mut buffer).len();
    same_text("day's tree", &buffer, length, &text)?;
    seen.day_tree(&text);
    same_bytes("the opening store after a day's tree", &opening, &opening_after)?;
    same_lent(&lent, &after)
}

fn day(file: &[u8], before: &Parts, seen: &mut Coverage) -> Compared {
    listing(file, &before.lent, seen)?;
    tree(file, before, seen)
}

/// Parts that mostly fit.
fn any_parts(r: &mut Random) -> Parts {
    let mut lent =
        Lent { table: vec![r.next(); TABLE_WORDS], base: bytes(r, BASE_BYTES), shadow: bytes(r, SHADOW_BYTES) };
    if r.one_in(10) {
        let which = *r.pick(LENGTHS);
        damage(r, which, &mut lent);
    }
    Parts { lent, opening: any_opening(r) }
}

/// A file that still shows the difference, with as few events as we can find, or bytes where it is refused.
fn small_file(file: &[u8], before: &Parts) -> Vec<u8> {
    let differs = |part: &[u8]| day(part, before, &mut Coverage::default()).is_err();
    let Ok(whole) = parse(file) else { return smallest_bytes(file, differs) };
    let count_at = entry_at(file[0].into());
    let with = |events: &[Event]| [&file[..count_at], &counted_events(events)].concat();
    let new = Ledger::new(Rule::Backward, whole.base, vec![0; SHADOW_BYTES]);
    with(&smallest_list(&whole.events, &new, |part| differs(&with(part))))
}

pub fn check_days(count: u64, seed: u64, seen: &mut Coverage) -> Compared {
    let mut r = Random::new(seed ^ SALT);
    for i in 0..count {
        let file = any_day(&mut r);
        let before = any_parts(&mut r);
        if let Err(text) = day(&file, &before, seen) {
            let small = small_file(&file, &before);
            let why = day(&small, &before, &mut Coverage::default()).err().unwrap_or(text);
            return Err(format!("{why}\non a day file of {} bytes: {small:02x?}", small.len()));
        }
        if i % DAYS_TO_A_STEP == 0 {
            crate::check::progress(&format!("{i} days of {count}"));
        }
    }
    Ok(())
}
