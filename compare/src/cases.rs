//! Cases of own adds and trees at the ends of what an amount holds, of the two queues, the two counters and the two
//! rules. Each has a name, and both engines are held to what the case says.

use crate::action::State::{self, Aborted, Committed, Live};
use crate::action::{Action, Parent};
use crate::asking::{ask, held_to_answer};
use crate::cause;
use crate::coverage::Coverage;
use crate::header::{BASE_BYTES, CARD_BYTES, EVENT_ADD, SHADOW_BYTES, TABLE_WORDS};
use crate::kind_cases;
use crate::library::{encode, Lent};
use crate::model::{put_amount, Answer, Event, Ledger, CHARGE_ACCOUNTS, FIRST_CHARGE, MOST_COUNTED, NO_FIGURES, STORE};
use crate::newest::Newest;
use crate::newest_cases;
use crate::number_cases;
use crate::queue::Queue;
use crate::queue_cases::{self, longest};
use crate::rule::Rule;
use crate::rule_cases;
use crate::same::{same_lent, Compared};
use crate::scripts::check_script;
use crate::table::Table;
use crate::times::{Kind, Times, KINDS};
use crate::trees::tree;

/// The ends of what an amount holds.
const MOST: i64 = i64::MAX;
const LEAST: i64 = i64::MIN;
/// Counters of which the one or the other is too high, so that no table is sound with them.
const TOP_TOO_HIGH: Times = Times::new(MOST_COUNTED + 1, 0);
const SUB_TOO_HIGH: Times = Times::new(0, MOST_COUNTED + 1);
/// What the stores hold. With this as an opening amount, opening and sum may lie outside; nothing asks for that.
const FILL: u8 = 0x7f;

/// An action made by hand: its parent, its state, and of one account its own adds and its kept sum. It has written
/// nothing.
type Made = (u64, State, i64, i64);

struct TreeCase {
    name: &'static str,
    actions: &'static [Made],
    counters: Times,
    opening_bytes: usize,
    cause: u64,
}

const fn passes(name: &'static str, actions: &'static [Made]) -> TreeCase {
    TreeCase { name, actions, counters: Times::ZERO, opening_bytes: BASE_BYTES, cause: cause::NONE }
}

const fn outside(name: &'static str, actions: &'static [Made]) -> TreeCase {
    TreeCase { cause: cause::SUM, ..passes(name, actions) }
}

/// A total that is no amount.
const OUTSIDE: &[Made] = &[(STORE, Live, MOST, 1)];

const TREES: &[TreeCase] = &[
    outside("a total 1 above the most", OUTSIDE),
    outside("a total 1 below the least", &[(STORE, Live, -1, LEAST)]),
    passes("exactly the most", &[(STORE, Committed, MOST - 1, 1)]),
    passes("exactly the least", &[(STORE, Committed, -1, LEAST + 1)]),
    passes("opposite ends", &[(STORE, Live, MOST, LEAST), (1, Committed, LEAST, MOST)]),
    outside("the same end twice", &[(STORE, Committed, LEAST, LEAST)]),
    passes("a child's own adds are not asked for again", &[(STORE, Live, MOST, 0), (1, Committed, 1, 0)]),
    passes("nor is its total", &[(STORE, Live, 0, MOST), (1, Committed, MOST, 0), (1, Committed, MOST, 0)]),
    outside("an aborted action's total", &[(STORE, Committed, 0, 0), (1, Aborted, MOST, 1)]),
    outside("a total below an aborted action", &[(STORE, Aborted, 0, 0), (1, Aborted, 0, 0), (2, Committed, MOST, 1)]),
    outside("a total below a child whose number is higher", &[(2, Live, MOST, 1), (STORE, Live, 0, 0)]),
    passes("one who is nobody's child is not asked", &[(STORE, Live, 0, 0), (2, Aborted, MOST, 1)]),
    passes("nor are those below it", &[(STORE, Live, 0, 0), (2, Aborted, 0, 0), (2, Committed, MOST, 1)]),
    passes("nor is a ring", &[(2, Committed, MOST, 1), (3, Aborted, LEAST, -1), (1, Committed, 1, MOST)]),
    passes("topactions whose totals together are no amount", &[(STORE, Committed, MOST, 0), (STORE, Committed, 1, 0)]),
    TreeCase { counters: TOP_TOO_HIGH, cause: cause::UNSOUND, ..passes("an unsound table", OUTSIDE) },
    TreeCase { counters: SUB_TOO_HIGH, cause: cause::UNSOUND, ..passes("a table unsound in its subactions", OUTSIDE) },
    TreeCase {
        counters: TOP_TOO_HIGH,
        opening_bytes: BASE_BYTES - 1,
        cause: cause::STORE_LENGTH,
        ..passes("an unsound table and a short opening store", OUTSIDE)
    },
    TreeCase {
        opening_bytes: BASE_BYTES + 1,
        cause: cause::STORE_LENGTH,
        ..passes("a total outside and a long opening store", OUTSIDE)
    },
    TreeCase { opening_bytes: 0, cause: cause::STORE_LENGTH, ..passes("no opening store", &[]) },
    passes("no action", &[]),
];

/// An add by an action that has something pending and own adds.
struct AddCase {
    name: &'static str,
    pending: i64,
    own_adds: i64,
    amount: i64,
    answer: Answer,
}

const REFUSED: Answer = Answer::Refused(cause::SUM);

const ADDS: &[AddCase] = &[
    AddCase { name: "own adds above the most alone", pending: 0, own_adds: MOST, amount: 1, answer: REFUSED },
    AddCase { name: "own adds below the least alone", pending: 0, own_adds: LEAST, amount: -1, answer: REFUSED },
    AddCase { name: "a pending sum above the most alone", pending: MOST, own_adds: 0, amount: 1, answer: REFUSED },
    AddCase { name: "opposite ends, up", pending: LEAST, own_adds: MOST, amount: 1, answer: REFUSED },
    AddCase { name: "opposite ends, down", pending: LEAST, own_adds: MOST, amount: -1, answer: REFUSED },
    AddCase { name: "own adds up to the most", pending: -1, own_adds: MOST - 1, amount: 1, answer: Answer::Added },
    AddCase { name: "0 to own adds at the least", pending: 1, own_adds: LEAST, amount: 0, answer: Answer::Added },
];

fn ledger(table: Table) -> Ledger {
    Ledger { table, base: vec![FILL; BASE_BYTES], shadow: vec![FILL; SHADOW_BYTES] }
}

fn lend(ledger: &Ledger) -> Lent {
    let mut table = vec![0; TABLE_WORDS];
    encode(&ledger.table, &mut table);
    Lent { table, base: ledger.base.clone(), shadow: ledger.shadow.clone() }
}

fn made(actions: &[Made], charge: usize) -> Table {
    let highest = actions.len() as u64;
    let action = |(number, &(parent, state, own, kept)): (u64, &Made)| {
        let mut a = Action { state, ..Action::new(number, Parent::in_row(parent, number, highest)) };
        a.own_adds[charge] = own;
        a.kept[charge] = kept;
        a
    };
    let rows = (1..=highest).zip(actions).map(action).collect();
    let (newest, queues) = (Newest::none(Kind::Top), KINDS.map(|_| Queue::new()));
    Table::lent(Rule::Backward, highest, Times::ZERO, NO_FIGURES, newest, queues, rows)
}

fn tree_case(case: &TreeCase, charge: usize) -> Compared {
    let mut table = made(case.actions, charge);
    table.counters = case.counters;
    let report = tree(&lend(&ledger(table)), &vec![FILL; case.opening_bytes], &mut Coverage::default())?;
    if report.cause == case.cause {
        return Ok(());
    }
    Err(format!("both engines have cause {}, and the case {}", report.cause, case.cause))
}

fn add_case(case: &AddCase, charge: usize) -> Compared {
    let mut table = made(&[(STORE, Live, case.own_adds, 0)], charge);
    table.action_mut(1).pending[charge] = case.pending;
    table.action_mut(1).writes[FIRST_CHARGE + charge] = 1;
    let mut ledger = ledger(table);
    let mut lent = lend(&ledger);
    let mut e =
        Event { code: EVENT_ADD, number: 1, account: (FIRST_CHARGE + charge) as u64, card: vec![0; CARD_BYTES] };
    put_amount(&mut e.card, case.amount);
    let (cause, ours, theirs) = (ask(&lent, &e)?, lent.event(&e), ledger.event(&e));
    if (ours, theirs) != (case.answer, case.answer) {
        return Err(format!("the library has {ours:?}, the second engine {theirs:?}, and the case {:?}", case.answer));
    }
    held_to_answer(cause, &e, ours, &mut Coverage::default())?;
    same_lent(&lent, &lend(&ledger))
}

fn script_case(group: &str, name: &str, script: &str, seen: &mut Coverage) -> Compared {
    check_script(script).map_err(|text| format!("{text}\nin the case of {group}: {name}"))?;
    seen.cases += 1;
    Ok(())
}

fn check_scripts(seen: &mut Coverage) -> Compared {
    let groups =
        [queue_cases::GROUPS, kind_cases::GROUPS, number_cases::GROUPS, newest_cases::GROUPS, rule_cases::GROUPS];
    for (group, cases) in groups.concat() {
        for (name, script) in cases {
            script_case(group, name, script, seen)?;
        }
    }
    let long = [longest(), number_cases::long(), newest_cases::long(), rule_cases::long()];
    for (name, script) in long.into_iter().flatten() {
        script_case("long", name, &script, seen)?;
    }
    Ok(())
}

/// Every case; those of sums on each charge account in turn.
pub fn check_cases(seen: &mut Coverage) -> Compared {
    check_scripts(seen)?;
    for charge in 0..CHARGE_ACCOUNTS {
        for case in TREES {
            tree_case(case, charge).map_err(|text| format!("{text}\nin the case of a tree: {}", case.name))?;
            seen.cases += 1;
        }
        for case in ADDS {
            add_case(case, charge).map_err(|text| format!("{text}\nin the case of an add: {}", case.name))?;
            seen.cases += 1;
        }
    }
    Ok(())
}
