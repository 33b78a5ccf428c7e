//! Single events, and the other calls, on tables and stores that are damaged, or look so.

use crate::asking::{ask, held_to_answer};
use crate::before::Before;
use crate::calls::{list_call, open_and_three_numbers};
use crate::cause;
use crate::coverage::Coverage;
use crate::damage::{any_opening, damage, Damage, DAMAGES};
use crate::generate::{event, events, style};
use crate::header::{BASE_BYTES, EVENT_ADD, EVENT_COMMIT, SHADOW_BYTES};
use crate::library::{decode, encode, Lent};
use crate::lists::Opening;
use crate::model::{amount_in, Answer, Event, Ledger, Shown, FIRST_CHARGE};
use crate::random::Random;
use crate::rule::{Rule, RULES};
use crate::same::{same, same_lent, Compared};
use crate::shrink::{described, smallest_list};
use crate::table::Table;
use crate::trees::tree;

/// What the stores hold before the list.
const BASE: [u8; BASE_BYTES] = [3; BASE_BYTES];
const SHADOW_FILL: u8 = 5;
/// A list is shorter than one of these, and as many tables as this are damaged after it.
const LONGEST_HISTORIES: [u64; 3] = [150, 150, 600];
const TABLES_TO_A_HISTORY: u64 = 50;
/// One table in so many is lent under the rule that its list was not under.
const OTHER_RULE: u64 = 3;
/// Makes these random numbers others than the lists'.
const SALT: u64 = 0xda3a_6ed0;

/// What the second engine makes of one event on anything that was lent.
fn expected(lent: &Lent, e: &Event, seen: &mut Coverage) -> (Answer, Lent, Result<Shown, u64>) {
    let misfit = lent.base.len() != BASE_BYTES || lent.shadow.len() != SHADOW_BYTES;
    let Some(table) = decode(&lent.table) else {
        let cause = if misfit { cause::STORE_LENGTH } else { cause::UNSOUND };
        seen.table_length += 1;
        return (Answer::Refused(cause), lent.clone(), Err(cause));
    };
    let mut ledger = Ledger { table, base: lent.base.clone(), shadow: lent.shadow.clone() };
    if !misfit {
        seen.soundness(&ledger.table, &lent.table);
    }
    let a = seen_event(&mut ledger, e, seen);
    seen.own_adds_refused += u64::from(refused_for_own_adds(&ledger, e, a));
    seen.numbers.kept_refused += u64::from(refused_for_kept_sum(&ledger, e, a));
    let mut words = lent.table.clone();
    encode(&ledger.table, &mut words);
    let look = ledger.look(e.number, e.account);
    (a, Lent { table: words, base: ledger.base, shadow: ledger.shadow }, look)
}

/// The second engine's answer; what it found counts where the call is not refused before the event is looked at.
fn seen_event(ledger: &mut Ledger, e: &Event, seen: &mut Coverage) -> Answer {
    let before = ledger.stores_cause().is_none().then(|| Before::new(&ledger.table, e));
    let outcome = ledger.outcome(e);
    if let Some(before) = before {
        seen.outcome(&before, ledger, &outcome);
    }
    outcome.answer
}

/// Where the next events mostly are not refused: what is lent, unless it is refused whatever the event.
fn guide(lent: &Lent, undamaged: &Ledger) -> Ledger {
    let ledger = |table: Table| Ledger { table, base: lent.base.clone(), shadow: lent.shadow.clone() };
    let damaged = decode(&lent.table).map(ledger).filter(|l| l.stores_cause().is_none());
    damaged.unwrap_or_else(|| undamaged.clone())
}

/// Whether an add was refused for its own adds alone: what it would leave pending is an amount.
fn refused_for_own_adds(ledger: &Ledger, e: &Event, a: Answer) -> bool {
    if e.code != EVENT_ADD || a != Answer::Refused(cause::SUM) {
        return false;
    }
    let pending = ledger.table.action(e.number).pending[e.account as usize - FIRST_CHARGE];
    pending.checked_add(amount_in(&e.card)).is_some()
}

/// Whether a commit was refused for a kept sum alone: what it would leave pending, or in the base store, are amounts.
fn refused_for_kept_sum(ledger: &Ledger, e: &Event, a: Answer) -> bool {
    let is_refused = e.code == EVENT_COMMIT && a == Answer::Refused(cause::SUM);
    is_refused && ledger.only_kept_sum_fails(ledger.table.action(e.number))
}

fn opening(rule: Rule) -> Opening {
    Opening { rule, base: BASE.to_vec(), shadow: vec![SHADOW_FILL; SHADOW_BYTES] }
}

/// What a list leaves, in both engines.
fn played(rule: Rule, history: &[Event]) -> (Lent, Ledger) {
    let (mut lent, mut ledger) = (opening(rule).lend(), opening(rule).ledger());
    for e in history {
        lent.event(e);
        ledger.event(e);
    }
    (lent, ledger)
}

/// Every call on a table that a list left, after one damage or two.
fn damaged(seed: u64, (lent, ledger): &(Lent, Ledger), seen: &mut Coverage) -> Compared {
    let (mut r, mut lent) = (Random::new(seed), lent.clone());
    for _ in 0..1 + r.below(3) / 2 {
        let which = *r.pick(DAMAGES);
        damage(&mut r, which, &mut lent);
    }
    if r.one_in(OTHER_RULE) {
        damage(&mut r, Damage::RuleOther, &mut lent);
    }
    let guide = guide(&lent, ledger);
    list_call(&mut r, &lent, &guide, seen)?;
    open_and_three_numbers(&mut r, &lent, seen)?;
    let report = tree(&lent, &any_opening(&mut r), seen)?;
    seen.damaged_tree(&report);
    let style = style(&mut r);
    let e = event(&mut r, &guide, style, false);
    let (a, after, look) = expected(&lent, &e, seen);
    let (cause, ours) = (ask(&lent, &e)?, lent.event(&e));
    same(&format!("answer to {e:?}"), ours, a)?;
    held_to_answer(cause, &e, ours, seen)?;
    seen.answer(&e, a);
    seen.look(look);
    seen.damaged += 1;
    same_lent(&lent, &after)?;
    same(&format!("look after {e:?}"), lent.look(e.number, e.account), look)
}

pub fn check_damaged(count: u64, seed: u64, seen: &mut Coverage) -> Compared {
    let mut r = Random::new(seed ^ SALT);
    let (mut rule, mut history, mut left) = (Rule::Backward, Vec::new(), played(Rule::Backward, &[]));
    for i in 0..count {
        if i % TABLES_TO_A_HISTORY == 0 {
            let longest = *r.pick(&LONGEST_HISTORIES);
            let (length, style) = (r.below(longest) as usize, style(&mut r));
            rule = *r.pick(&RULES);
            history = events(&mut r, opening(rule).ledger(), length, style, false);
            left = played(rule, &history);
            crate::check::progress(&format!("{i} damaged tables of {count}"));
        }
        let once = r.next();
        if let Err(text) = damaged(once, &left, seen) {
            let compared = |part: &[Event]| damaged(once, &played(rule, part), &mut Coverage::default());
            let small = smallest_list(&history, &opening(rule).ledger(), |part| compared(part).is_err());
            let why = compared(&small).err().unwrap_or(text);
            return Err(format!("{why}\non damage {once} under rule {} after {}", rule.number(), described(&small)));
        }
    }
    Ok(())
}
