//! A day file read, run, and listed or reported as a tree, by the second engine.

use crate::cause;
use crate::header::{ACCOUNTS, BASE_BYTES, CARD_BYTES, EVENT_BYTES, SHADOW_BYTES};
use crate::model::{base_card, Answer, Event, Ledger};
use crate::rule::Rule;
use crate::times::Times;
use std::fmt::{self, Write};

/// The parts of a day file (docs/RULES.md, 9.1): a count of cards, an entry for each, a count of events, the events.
const CARD_COUNT_BYTES: usize = 1;
const MOST_CARDS: u8 = 32;
const ENTRY_BYTES: usize = 1 + CARD_BYTES;
const EVENT_COUNT_BYTES: usize = 2;
pub const MOST_EVENTS: usize = 1000;

pub struct Day {
    pub base: Vec<u8>,
    pub events: Vec<Event>,
}

/// Where the entry of opening card i begins; behind the last entry stands the count of events.
pub fn entry_at(i: usize) -> usize {
    CARD_COUNT_BYTES + ENTRY_BYTES * i
}

pub fn parse(file: &[u8]) -> Result<Day, u64> {
    let (&cards, rest) = file.split_first().ok_or(cause::LENGTH)?;
    if cards > MOST_CARDS {
        return Err(cause::COUNT);
    }
    let (opening, rest) = rest.split_at_checked(ENTRY_BYTES * cards as usize).ok_or(cause::LENGTH)?;
    let (&count, events) = rest.split_first_chunk::<EVENT_COUNT_BYTES>().ok_or(cause::LENGTH)?;
    let count = u16::from_le_bytes(count) as usize;
    if count > MOST_EVENTS {
        return Err(cause::COUNT);
    }
    if events.len() != EVENT_BYTES * count {
        return Err(cause::LENGTH);
    }
    let base = opening_base(opening).ok_or(cause::OPENING)?;
    Ok(Day { base, events: events.chunks(EVENT_BYTES).map(event_of).collect() })
}

fn opening_base(opening: &[u8]) -> Option<Vec<u8>> {
    let mut base = vec![0; BASE_BYTES];
    let mut least = 0;
    for entry in opening.chunks(ENTRY_BYTES) {
        let (&account, card) = entry.split_first()?;
        let account = account as usize;
        if account < least || account >= ACCOUNTS {
            return None;
        }
        least = account + 1;
        base[base_card(account)].copy_from_slice(card);
    }
    Some(base)
}

/// An event from its bytes.
pub fn event_of(bytes: &[u8]) -> Event {
    let [code, number, account, card @ ..] = bytes else { panic!("an event of {} bytes", bytes.len()) };
    Event { code: (*code).into(), number: (*number).into(), account: (*account).into(), card: card.to_vec() }
}

/// Events as a day file or a list has them; every part must fit.
pub fn event_bytes(events: &[Event]) -> Vec<u8> {
    let mut bytes = Vec::with_capacity(EVENT_BYTES * events.len());
    for e in events {
        bytes.extend([e.code as u8, e.number as u8, e.account as u8]);
        bytes.extend(&e.card);
    }
    bytes
}

/// The events of a day file behind their count.
pub fn counted_events(events: &[Event]) -> Vec<u8> {
    let mut bytes = (events.len() as u16).to_le_bytes().to_vec();
    bytes.extend(event_bytes(events));
    bytes
}

/// The one line of a day that is refused.
pub fn refused_line(cause: u64) -> String {
    format!("refused {cause}\n")
}

/// A line for each answer, and the last one, with how many were started and the counters.
pub fn listing(answers: &[Answer], counters: Times) -> String {
    let (mut lines, mut started) = (String::new(), 0);
    for (i, answer) in answers.iter().enumerate() {
        started += u64::from(matches!(answer, Answer::Started(_)));
        writeln!(lines, "{} {answer}", i + 1).expect("a string grows");
    }
    writeln!(lines, "end {started} {} {}", counters.top.0, counters.sub.0).expect("a string grows");
    lines
}

/// The listing of a day, its events run under a rule, over a shadow store that may hold anything, and what stands after
/// it: nothing where the file is refused.
pub fn run_day(file: &[u8], rule: Rule, shadow: Vec<u8>) -> (String, Option<Ledger>) {
    let day = match parse(file) {
        Ok(day) => day,
        Err(fault) => return (refused_line(fault), None),
    };
    let mut ledger = Ledger::new(rule, day.base, shadow);
    let answers: Vec<Answer> = day.events.iter().map(|e| ledger.sound_event(e)).collect();
    (listing(&answers, ledger.table.counters), Some(ledger))
}

/// What stands after a day, and the base store that it began with.
pub struct Run {
    pub ledger: Ledger,
    pub opening: Vec<u8>,
}

/// The text of a day's tree, over a shadow store that may hold anything, and what stands after it: nothing where the
/// file is refused.
pub fn day_tree(file: &[u8], shadow: Vec<u8>) -> (String, Option<Run>) {
    let day = match parse(file) {
        Ok(day) => day,
        Err(fault) => return (refused_line(fault), None),
    };
    let mut ledger = Ledger::new(Rule::Backward, day.base.clone(), shadow);
    for e in &day.events {
        ledger.sound_event(e);
    }
    let tree = ledger.tree(&day.base).expect("the tree of a new table's events is not refused");
    (tree.to_string(), Some(Run { ledger, opening: day.base }))
}

pub fn read(path: &str) -> Result<Vec<u8>, String> {
    std::fs::read(path).map_err(|e| format!("{path}: {e}"))
}

/// Prints a day file's lines as the day program does, which has rule 1 alone, and asks the library nothing.
pub fn print_lines(path: &str, rule: Rule) -> Result<(), String> {
    print!("{}", run_day(&read(path)?, rule, vec![0; SHADOW_BYTES]).0);
    Ok(())
}

/// Prints a day file's tree as the tree program does, by the second engine alone as well.
pub fn print_tree(path: &str) -> Result<(), String> {
    print!("{}", day_tree(&read(path)?, vec![0; SHADOW_BYTES]).0);
    Ok(())
}

/// An answer's word and its numbers, as a listing has them.
impl fmt::Display for Answer {
    fn fmt(&self, f: &mut fmt::Formatter) -> fmt::Result {
        match self {
            Answer::Refused(c) => write!(f, "refused {c}"),
            Answer::Started(n) => write!(f, "started {n}"),
            Answer::Read(v) => write!(f, "read {} {}", v.holder, v.moves),
            Answer::Written => write!(f, "written"),
            Answer::Committed(t) => write!(f, "committed {t}"),
            Answer::Failed(t, k) => write!(f, "failed {t} {k}"),
            Answer::Aborted(n, m) => write!(f, "aborted {n} {m}"),
            Answer::Added => write!(f, "added"),
            Answer::ReadSum(v, sum) => write!(f, "read {} {} {sum}", v.holder, v.moves),
            Answer::Entered => write!(f, "entered"),
            Answer::Ready(m) => write!(f, "ready {m}"),
            Answer::JudgedFailed(m) => write!(f, "failed {m}"),
        }
    }
}
