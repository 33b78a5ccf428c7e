//! Lists of events on both engines, event by event and in one call, with the tree and the newest end times that they
//! leave, and held to the serial run.

use crate::asking::{held_to_answer, stays};
use crate::before::Before;
use crate::cause;
use crate::coverage::Coverage;
use crate::dayfile::event_bytes;
use crate::generate::{any_base, bytes, events, style};
use crate::header::{ANSWER_WORDS, CARD_BYTES, SHADOW_BYTES, TABLE_WORDS};
use crate::library::{answers, encode, Lent};
use crate::model::{amount_in, base_card, Answer, Event, Leaver, Ledger, Shown, FIRST_CHARGE};
use crate::newest_of_all::newest_of_all;
use crate::random::Random;
use crate::rule::{Rule, RULES};
use crate::same::{same, same_bytes, same_lent, same_words, Compared};
use crate::serial::{added_in_r, serial_run, Fed, Given};
use crate::shrink::{described, smallest_list};
use crate::trees::tree_of_list;
use std::collections::HashMap;

/// What a buffer holds before a call fills it.
pub const STALE: u64 = 77;
/// Words that a buffer for answers has too many.
const SPARE: usize = 5;
/// A list is at most as long as one of these.
const LONGEST: [u64; 5] = [50, 250, 250, 700, 2_000];
/// A cause is asked before every event. Whether it left all as it was is looked at each time in a list of at most so
/// many events, and each so many-th time in a longer one: a look at everything takes far longer than the call.
const FEW_EVENTS: usize = 20;
const HELD_EVERY: usize = 8;

/// The rule of the new table and the stores that a list begins with.
pub struct Opening {
    pub rule: Rule,
    pub base: Vec<u8>,
    pub shadow: Vec<u8>,
}

impl Opening {
    pub fn any(r: &mut Random) -> Opening {
        Opening { rule: *r.pick(&RULES), base: any_base(r), shadow: bytes(r, SHADOW_BYTES) }
    }

    pub fn lend(&self) -> Lent {
        let mut lent = Lent { table: vec![STALE; TABLE_WORDS], base: self.base.clone(), shadow: self.shadow.clone() };
        assert_eq!(lent.open(self.rule.number()), cause::NONE, "a buffer of a table's length is refused");
        lent
    }

    pub fn ledger(&self) -> Ledger {
        Ledger::new(self.rule, self.base.clone(), self.shadow.clone())
    }
}

/// Both engines on a list, and what it has got so far.
struct Played {
    lent: Lent,
    ledger: Ledger,
    /// The second engine's table as words.
    words: Vec<u64>,
    answers: Vec<Answer>,
    /// For each event those that committed by leaving a queue at it. The library's answers don't say who; but its
    /// table has been the second engine's after every event.
    left: Vec<Vec<u64>>,
    given: HashMap<usize, Given>,
    /// How often what is lent is held to what it was before a cause was asked.
    held_every: usize,
}

impl Played {
    /// Before a list of so many events.
    fn new(opening: &Opening, events: usize) -> Played {
        let (lent, ledger, mut words) = (opening.lend(), opening.ledger(), vec![0; TABLE_WORDS]);
        encode(&ledger.table, &mut words);
        let held_every = if events <= FEW_EVENTS { 1 } else { HELD_EVERY };
        Played { lent, ledger, words, answers: Vec::new(), left: Vec::new(), given: HashMap::new(), held_every }
    }

    /// Whether what is lent is what the second engine has.
    fn same_ledger(&self) -> Compared {
        same_words(&self.lent.table, &self.words)?;
        same_bytes("base store", &self.lent.base, &self.ledger.base)?;
        same_bytes("shadow store", &self.lent.shadow, &self.ledger.shadow)
    }

    /// The cause of an event that is still to come.
    fn cause(&self, e: &Event) -> Result<u64, String> {
        let cause = self.lent.cause(e);
        if self.answers.len() % self.held_every == 0 {
            stays(self.same_ledger())?;
        }
        Ok(cause)
    }

    /// One event: its cause, answer, table, both stores, and what a look shows.
    fn event(&mut self, e: &Event, seen: &mut Coverage) -> Compared {
        let before = Before::new(&self.ledger.table, e);
        let cause = self.cause(e)?;
        let (a, outcome) = (self.lent.event(e), self.ledger.outcome(e));
        same("answer", a, outcome.answer)?;
        held_to_answer(cause, e, a, seen)?;
        encode(&self.ledger.table, &mut self.words);
        self.same_ledger()?;
        let shown = self.lent.look(e.number, e.account);
        same("look", shown, self.ledger.look(e.number, e.account))?;
        if let (Some(amount), Ok(Shown { card, .. })) = (read_amount(a), shown) {
            self.given.insert(self.answers.len(), Given { card, amount });
        }
        seen.answer(e, a);
        seen.look(shown);
        seen.outcome(&before, &self.ledger, &outcome);
        self.answers.push(a);
        self.left.push(committed(&outcome.left));
        Ok(())
    }
}

fn committed(left: &[Leaver]) -> Vec<u64> {
    left.iter().filter(|w| w.committed).map(|w| w.number).collect()
}

/// A list, event by event; then the tree, the newest end times, the serial run, and the same list in one call. Its
/// answers, where all is the same.
pub fn list(opening: &Opening, events: &[Event], seen: &mut Coverage) -> Result<Vec<Answer>, String> {
    let mut played = Played::new(opening, events.len());
    for e in events {
        played.event(e, seen)?;
    }
    let Played { lent, ledger, answers, left, given, .. } = played;
    same("the three numbers", lent.three_numbers(), (ledger.table.highest, ledger.table.counters))?;
    seen.lists += 1;
    seen.rules.list(opening.rule);
    seen.numbers.list(&ledger.table);
    tree_of_list(&lent, &ledger.table, &opening.base, seen)?;
    newest_of_all(&lent, &ledger.table, seen)?;
    let fed = Fed { events, answers: &answers, left: &left };
    held_to_serial_run(opening, fed, &given, &lent.base, seen)?;
    nothing_lost(opening, fed, &lent.base, seen)?;
    in_one_call(opening, events, &answers, &lent, seen)?;
    Ok(answers)
}

/// The amount that a read was given, if any; None where the answer is no read's.
fn read_amount(a: Answer) -> Option<Option<i128>> {
    match a {
        Answer::Read(_) => Some(None),
        Answer::ReadSum(_, sum) => Some(Some(sum.into())),
        _ => None,
    }
}

/// The claim of docs/RULES.md, 6.6, by running: the serial run against what the library showed and left.
fn held_to_serial_run(
    opening: &Opening,
    fed: Fed,
    given: &HashMap<usize, Given>,
    base: &[u8],
    seen: &mut Coverage,
) -> Compared {
    let serial = serial_run(fed, &opening.base);
    for (event, here) in &serial.reads {
        let what = format!("serial run: what was read at event {}", event + 1);
        same(&what, given.get(event), Some(here))?;
        seen.serial_reads += 1;
        seen.rules.serial_read(opening.rule);
        seen.serial_sums += u64::from(here.amount.is_some());
    }
    same_bytes("serial run: the base store", base, &serial.base)
}

/// Of each charge account what stood there and what was added make what stands there (docs/RULES.md, 6.7).
fn nothing_lost(opening: &Opening, fed: Fed, base: &[u8], seen: &mut Coverage) -> Compared {
    for (charge, added) in added_in_r(fed).into_iter().enumerate() {
        let account = FIRST_CHARGE + charge;
        let amount = |store: &[u8]| i128::from(amount_in(&store[base_card(account)]));
        same(&format!("the amount of account {account}"), amount(base), amount(&opening.base) + added)?;
        seen.amounts_held += u64::from(added != 0);
    }
    Ok(())
}

fn in_one_call(
    opening: &Opening,
    events: &[Event],
    expected: &[Answer],
    after: &Lent,
    seen: &mut Coverage,
) -> Compared {
    let in_a_byte = |part: u64| part <= u8::MAX.into();
    let fits =
        |e: &Event| in_a_byte(e.code) && in_a_byte(e.number) && in_a_byte(e.account) && e.card.len() == CARD_BYTES;
    if !events.iter().all(fits) {
        return Ok(());
    }
    let mut lent = opening.lend();
    let mut words = vec![STALE; ANSWER_WORDS * events.len() + SPARE];
    same("list call", lent.run(&event_bytes(events), &mut words), cause::NONE)?;
    let (filled, spare) = words.split_at(ANSWER_WORDS * events.len());
    same("list call: answers", answers(filled).as_slice(), expected)?;
    same("list call: words after the answers", spare, &[STALE; SPARE])?;
    seen.list_calls += 1;
    same_lent(&lent, after)
}

pub fn check_lists(count: u64, seed: u64, seen: &mut Coverage) -> Compared {
    let mut r = Random::new(seed);
    let mut done = 0;
    while done < count {
        let opening = Opening::any(&mut r);
        let (style, in_bytes) = (style(&mut r), r.one_in(2));
        let longest = *r.pick(&LONGEST);
        let length = 1 + r.below(longest) as usize;
        let events = events(&mut r, opening.ledger(), length, style, in_bytes);
        if let Err(text) = list(&opening, &events, seen) {
            let differs = |part: &[Event]| list(&opening, part, &mut Coverage::default()).is_err();
            let small = smallest_list(&events, &opening.ledger(), differs);
            let why = list(&opening, &small, &mut Coverage::default()).err().unwrap_or(text);
            return Err(format!("{why}\nunder rule {} after {}", opening.rule.number(), described(&small)));
        }
        done += length as u64;
        crate::check::progress(&format!("{done} events of {count}"));
    }
    Ok(())
}
