//! Cases as scripts, in the words of docs/RULES.md, 13. A step is an event, with its answer behind ` = ` where that is
//! not just started, written, added or entered; or something that is put into what is lent, or asked of it, between
//! events: `entry` and `length` are of the topactions' queue, `sub-entry` and `sub-length` of the subactions', and a
//! `kept` sum and the `newest` end times of 0 are the store's. `newest` asks for the accounts that are not 0, each with
//! its time. `tree` asks for the lines of the tree, with the accounts that are not 0, each with own adds and total, and
//! for the accounts of its last block that are not all 0. Amounts that are put are also those of the opening store.
//! `open` opens the table anew under a rule and asks for the cause, 0 where there is none; `rule` puts a rule into the
//! table, or asks for its own. Both engines are held to every step.

use crate::asking::{ask, held_to_answer};
use crate::coverage::Coverage;
use crate::header::*;
use crate::library::{decode, encode, rule_word, state_said, Lent};
use crate::library::{COUNTERS, END, ENTRIES, ENTRY_WORDS, HIGHEST, KEPT, NEWEST, OWN_ADDS, PARENT};
use crate::library::{PENDING, QUEUE_LENGTHS, READS, RULE, STATE, SUB_TIMES, WRITES};
use crate::model::{amount_in, base_card, put_amount, Answer, Event, Ledger, Shown, FIRST_CHARGE};
use crate::rule::Rule;
use crate::same::{same, same_lent, same_words, Compared};
use crate::table::Table;
use crate::times::Kind;
use crate::trees::tree;

/// Both engines on one ledger, which is the same after every step.
struct Both {
    lent: Lent,
    ledger: Ledger,
    /// The base store that the tree is told it began with.
    opening: Vec<u8>,
}

fn number(word: &str) -> i128 {
    word.parse().unwrap_or_else(|_| panic!("a script has {word} where a number stands"))
}

/// An event that has no card of its own.
fn bare(code: u64, number: i128, account: i128) -> Event {
    Event { code, number: number as u64, account: account as u64, card: vec![0; CARD_BYTES] }
}

fn event(verb: &str, numbers: &[i128]) -> Event {
    if let Some(parent) = verb.strip_prefix('+') {
        return bare(EVENT_START, number(parent), 0);
    }
    match (verb, numbers) {
        ("r", &[n, k]) => bare(EVENT_READ, n, k),
        ("w", &[n, k, b]) => Event { card: vec![b as u8; CARD_BYTES], ..bare(EVENT_WRITE, n, k) },
        ("c", &[n]) => bare(EVENT_COMMIT, n, 0),
        ("a", &[n]) => bare(EVENT_ABORT, n, 0),
        ("d", &[n, k, x]) => {
            let mut e = bare(EVENT_ADD, n, k);
            put_amount(&mut e.card, x as i64);
            e
        }
        ("e", &[n]) => bare(EVENT_ENTER, n, 0),
        ("j", &[n]) => bare(EVENT_JUDGE, n, 0),
        ("code", &[code]) => bare(code as u64, 1, 0),
        _ => panic!("a script has the step {verb} {numbers:?}"),
    }
}

/// The word of a row that has a charge account's figure.
fn figure(verb: &str, account: i128) -> usize {
    let first = match verb {
        "pending" => PENDING,
        "own" => OWN_ADDS,
        _ => KEPT,
    };
    first + account as usize - FIRST_CHARGE
}

fn joined(words: impl IntoIterator<Item = u64>) -> String {
    words.into_iter().map(|w| w.to_string()).collect::<Vec<_>>().join(" ")
}

/// Of which queue a step speaks.
fn queue(verb: &str) -> usize {
    let kind = if verb.starts_with("sub-") { Kind::Sub } else { Kind::Top };
    kind as usize
}

/// A card's byte, where all are the same.
fn fill(card: &[u8]) -> String {
    if card.iter().all(|b| *b == card[0]) {
        card[0].to_string()
    } else {
        format!("{card:?}")
    }
}

fn look_said(look: Result<Shown, u64>) -> String {
    match look {
        Ok(Shown { card, moves }) => format!("{} {moves}", fill(&card)),
        Err(cause) => Answer::Refused(cause).to_string(),
    }
}

/// Whether an answer is one that a script leaves out.
fn is_plain(a: Answer) -> bool {
    matches!(a, Answer::Started(_) | Answer::Written | Answer::Added | Answer::Entered)
}

fn held(found: &str, said: &str) -> Compared {
    if found == said {
        return Ok(());
    }
    Err(format!("both engines have {found}, and the case {said}"))
}

impl Both {
    fn new() -> Both {
        let (base, shadow) = (vec![0; BASE_BYTES], vec![0; SHADOW_BYTES]);
        let lent = Lent { table: vec![0; TABLE_WORDS], base: base.clone(), shadow: shadow.clone() };
        let ledger = Ledger::new(Rule::Backward, base.clone(), shadow);
        Both { lent, ledger, opening: base }
    }

    /// A word of row n.
    fn word(&mut self, n: i128, field: usize) -> &mut u64 {
        &mut self.lent.table[ROW_WORDS * n as usize + field]
    }

    /// Puts something into what is lent; whether the step is such a one.
    fn put(&mut self, verb: &str, numbers: &[i128]) -> bool {
        match (verb, numbers) {
            ("amount", &[account, amount]) => {
                for store in [&mut self.lent.base, &mut self.opening] {
                    put_amount(&mut store[base_card(account as usize)], amount as i64);
                }
            }
            ("pending" | "own" | "kept", &[n, account, sum]) => {
                *self.word(n, figure(verb, account)) = sum as i64 as u64
            }
            ("parent", &[n, parent]) => *self.word(n, PARENT) = parent as u64,
            ("state", &[n, state]) => *self.word(n, STATE) = state as u64,
            ("wrote", &[n, account, entry]) => *self.word(n, WRITES + account as usize) = entry as u64,
            ("highest", &[number]) => *self.word(0, HIGHEST) = number as u64,
            ("rule", &[number]) => *self.word(0, RULE) = rule_word(Rule::of(number as u64)),
            ("end", &[n, time]) => *self.word(n, END) = time as u64,
            ("counters", &[top, sub]) => {
                for (at, counter) in COUNTERS.into_iter().zip([top, sub]) {
                    *self.word(0, at) = counter as u64;
                }
            }
            ("times", &[n, account, top, sub]) => {
                *self.word(n, READS + account as usize) = top as u64 + 1;
                *self.word(n, SUB_TIMES + account as usize) = sub as u64;
            }
            ("sub-time", &[n, account, time]) => *self.word(n, SUB_TIMES + account as usize) = time as u64,
            ("newest", &[n, account, time]) => *self.word(n, NEWEST + account as usize) = time as u64,
            ("length" | "sub-length", &[length]) => *self.word(0, QUEUE_LENGTHS[queue(verb)]) = length as u64,
            ("entry" | "sub-entry", &[position, number, verdict, readiness]) => {
                for (i, w) in [number, verdict, readiness].into_iter().enumerate() {
                    *self.word(position, ENTRIES[queue(verb)] + i) = w as u64;
                }
            }
            _ => return false,
        }
        self.ledger.table = decode(&self.lent.table).expect("a table's length");
        self.ledger.base.copy_from_slice(&self.lent.base);
        true
    }

    /// The cause of an opening under a rule of this number.
    fn open(&mut self, number: u64) -> Result<u64, String> {
        let (theirs, table) = Table::opened(number);
        let (cause, mut words) = (self.lent.open(number), vec![0; TABLE_WORDS]);
        same("open", cause, theirs)?;
        encode(&table, &mut words);
        same_words(&self.lent.table, &words)?;
        self.ledger.table = table;
        Ok(cause)
    }

    fn times_said(&mut self, n: i128, account: usize) -> String {
        match (*self.word(n, READS + account), *self.word(n, SUB_TIMES + account)) {
            (0, _) => "none".to_string(),
            (entry, sub_time) => joined([entry - 1, sub_time]),
        }
    }

    fn newest_said(&mut self, n: i128) -> String {
        let times = (0..ACCOUNTS).map(|k| (k, *self.word(n, NEWEST + k)));
        let said: Vec<String> = times.filter(|(_, time)| *time != 0).map(|(k, time)| format!("{k} {time}")).collect();
        if said.is_empty() {
            "none".to_string()
        } else {
            said.join(", ")
        }
    }

    /// What is asked, if the step asks something.
    fn asked(&mut self, verb: &str, numbers: &[i128]) -> Result<Option<String>, String> {
        let found = match (verb, numbers) {
            ("amount", &[account]) => amount_in(&self.lent.base[base_card(account as usize)]).to_string(),
            ("card", &[account]) => fill(&self.lent.base[base_card(account as usize)]),
            ("counters", []) => joined(COUNTERS.map(|at| *self.word(0, at))),
            ("length" | "sub-length", []) => self.word(0, QUEUE_LENGTHS[queue(verb)]).to_string(),
            ("state", &[n]) => state_said(*self.word(n, STATE)).to_string(),
            ("parent", &[n]) => self.word(n, PARENT).to_string(),
            ("highest", []) => self.word(0, HIGHEST).to_string(),
            ("rule", []) => self.ledger.table.rule.number().to_string(),
            ("open", &[number]) => self.open(number as u64)?.to_string(),
            ("pending" | "own" | "kept", &[n, account]) => (*self.word(n, figure(verb, account)) as i64).to_string(),
            ("tree", []) => tree(&self.lent, &self.opening, &mut Coverage::default())?.to_string(),
            ("end", &[n]) => self.word(n, END).to_string(),
            ("times", &[n, account]) => self.times_said(n, account as usize),
            ("sub-time", &[n, account]) => self.word(n, SUB_TIMES + account as usize).to_string(),
            ("newest", &[n]) => self.newest_said(n),
            ("entry" | "sub-entry", &[position]) => {
                let first = ENTRIES[queue(verb)];
                joined((first..first + ENTRY_WORDS).map(|field| *self.word(position, field)))
            }
            ("look", &[n, account]) => {
                let (n, account) = (n as u64, account as u64);
                let shown = self.lent.look(n, account);
                same("look", shown, self.ledger.look(n, account))?;
                look_said(shown)
            }
            _ => return Ok(None),
        };
        Ok(Some(found))
    }

    fn event(&mut self, e: &Event, said: Option<&str>) -> Compared {
        let (table, cause) = (self.lent.table.clone(), ask(&self.lent, e)?);
        let (a, theirs) = (self.lent.event(e), self.ledger.event(e));
        same("answer", a, theirs)?;
        held_to_answer(cause, e, a, &mut Coverage::default())?;
        let mut after = Lent { table, base: self.ledger.base.clone(), shadow: self.ledger.shadow.clone() };
        encode(&self.ledger.table, &mut after.table);
        same_lent(&self.lent, &after)?;
        match said {
            None if is_plain(a) => Ok(()),
            _ => held(&a.to_string(), said.unwrap_or("an answer that is left out")),
        }
    }

    fn step(&mut self, step: &str) -> Compared {
        let (what, said) = step.split_once(" = ").map_or((step, None), |(what, said)| (what, Some(said)));
        let (times, what) = what.split_once(" * ").map_or((1, what), |(times, what)| (number(times), what));
        let mut words = what.split_whitespace();
        let (verb, numbers) = (words.next().unwrap_or_default(), words.map(number).collect::<Vec<_>>());
        match said {
            None if self.put(verb, &numbers) => return Ok(()),
            None => {}
            Some(said) => {
                if let Some(found) = self.asked(verb, &numbers)? {
                    return held(&found, said);
                }
            }
        }
        (0..times).try_for_each(|_| self.event(&event(verb, &numbers), said))
    }
}

/// A step without the line breaks that a script may have.
fn one_line(step: &str) -> String {
    step.split_whitespace().collect::<Vec<_>>().join(" ")
}

/// A script on a new table over stores of zeros, its steps parted by semicolons.
pub fn check_script(script: &str) -> Compared {
    let mut both = Both::new();
    for step in script.split(';').map(one_line) {
        both.step(&step).map_err(|text| format!("{text}\nat the step {step}"))?;
    }
    let table = &both.ledger.table;
    same("the three numbers", both.lent.three_numbers(), (table.highest, table.counters))
}
