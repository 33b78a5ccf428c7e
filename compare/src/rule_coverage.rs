//! What a comparison met of the two rules: how commits fared under the forward one, what it refuses, queues in tables
//! that are under it, and openings.

use crate::action::Action;
use crate::before::Before;
use crate::calls::ASKED;
use crate::cause;
use crate::coverage::{row, Point};
use crate::header::{ACCOUNTS, EVENT_COMMIT, EVENT_ENTER};
use crate::model::{Answer, Leaver, Ledger, Outcome, FIRST_CHARGE};
use crate::queue_coverage::name;
use crate::rule::{Rule, RULES};
use crate::table::Table;
use crate::times::{Kind, KINDS};
use std::collections::BTreeMap;
use std::fmt;

#[derive(Default)]
pub struct RuleCoverage {
    /// Of events under rule 2.
    met: BTreeMap<String, u64>,
    /// Commits under rule 1 that passed with a reader ahead.
    passed_backward: u64,
    /// By the number of the rule.
    lists: BTreeMap<u64, u64>,
    serial_reads: BTreeMap<u64, u64>,
    openings: BTreeMap<String, u64>,
}

// ---- what there is to meet under rule 2

/// Of commits that fail, and of those that pass.
const FOR_SIBLING: &str = "failed for a sibling";
const FOR_ONE_BELOW: &str = "failed for one below a sibling";
const FOR_LATER_START: &str = "failed for one that started after another reader";
const OVER_HIGHER_ACCOUNT: &str = "failed over an account above another reader's";
const OVER_ADD: &str = "failed over an add";
const WITH_SUM: &str = "failed where a sum is no amount";
const BESIDE_FINISHED: &str = "passed beside a finished reader";
const OWN_READ: &str = "passed with a read of what it changes itself";
const READ_OF_RIVALS: &str = "passed with a read of what a rival changes";
const SAME_ACCOUNT: &str = "passed beside a rival that changes the same account";
const NOTHING_WRITTEN: &str = "passed with nothing written, beside readers";
const READ_ABOVE: &str = "passed, and one above it has read what it changes";
const READ_BESIDE_ABOVE: &str = "passed, and one beside those above it has read what it changes";
const WITH_CLASH: &str = "passed with a clash";
/// Of those that are refused, and of queues that a lent table has.
const COUNTED_OUT: &str = "refused 19 with a reader ahead";
const QUEUE_FIRST: &str = "refused 18";
const SUM: &str = "refused 15 of a commit";
const LEFT_WITH_READER: &str = "left a queue at an abort with a reader ahead";
const LEFT_FOR_SUMS: &str = "left a queue at an abort as aborted";

const MET: [&str; 19] = [
    FOR_SIBLING,
    FOR_ONE_BELOW,
    FOR_LATER_START,
    OVER_HIGHER_ACCOUNT,
    OVER_ADD,
    WITH_SUM,
    BESIDE_FINISHED,
    OWN_READ,
    READ_OF_RIVALS,
    SAME_ACCOUNT,
    NOTHING_WRITTEN,
    READ_ABOVE,
    READ_BESIDE_ABOVE,
    WITH_CLASH,
    COUNTED_OUT,
    QUEUE_FIRST,
    SUM,
    LEFT_WITH_READER,
    LEFT_FOR_SUMS,
];

/// Of each kind.
const FAILED: &str = "failed";
const PASSED: &str = "passed with something written";
const LEFT: &str = "left a queue at an abort as committed";

fn of_kind(what: &str, kind: Kind) -> String {
    format!("{what}, of {}", name(kind))
}

const ENTER: &str = "an enter";
const JUDGE: &str = "a judge";
const NOBODY: &str = "nobody";
const LIVE: &str = "a live action";
const FINISHED: &str = "a finished action";

fn refused_21(event: &str, whom: &str) -> String {
    format!("refused 21: {event} of {whom}")
}

fn opened(asked: u64, cause: u64) -> String {
    format!("{asked} answered {cause}")
}

/// All that is to be met of events under rule 2.
fn to_meet() -> Vec<String> {
    let mut all: Vec<String> = MET.map(str::to_string).into();
    for kind in KINDS {
        all.extend([FAILED, PASSED, LEFT].map(|what| of_kind(what, kind)));
    }
    for event in [ENTER, JUDGE] {
        all.extend([NOBODY, LIVE, FINISHED].map(|whom| refused_21(event, whom)));
    }
    all
}

// ---- what is met

fn changes(a: &Action, account: usize) -> bool {
    a.writes[account] != 0
}

fn over_any(test: impl Fn(usize) -> bool) -> bool {
    (0..ACCOUNTS).any(test)
}

fn whom(table: &Table, number: u64) -> &'static str {
    if number == 0 || number > table.highest {
        NOBODY
    } else if table.action(number).is_live() {
        LIVE
    } else {
        FINISHED
    }
}

impl RuleCoverage {
    /// An event, and what it left. A commit leaves its action's sets and all rivals as they were.
    pub fn event(&mut self, before: &Before, after: &Ledger, done: &Outcome) {
        let table = &after.table;
        match (table.rule, done.answer) {
            (Rule::Forward, Answer::Failed(..)) => self.failed(after, table.action(before.number)),
            (Rule::Forward, Answer::Committed(_)) => self.passed(before, table),
            (Rule::Forward, Answer::Refused(cause)) => self.refused(before, table, cause),
            (Rule::Forward, Answer::Aborted(..)) => done.left.iter().for_each(|w| self.left(table, w)),
            (Rule::Backward, Answer::Committed(_)) => {
                self.passed_backward += u64::from(table.first_reader_ahead(before.number).is_some())
            }
            _ => {}
        }
    }

    fn note(&mut self, is_met: bool, what: impl Into<String>) {
        *self.met.entry(what.into()).or_default() += u64::from(is_met);
    }

    fn failed(&mut self, after: &Ledger, me: &Action) {
        let table = &after.table;
        let readers: Vec<(u64, u64)> = table.readers_ahead(me).collect();
        let (first, account) = *readers.iter().min().expect("a commit fails for a reader ahead");
        let is_child = table.action(first).parent == me.parent;
        self.note(is_child, FOR_SIBLING);
        self.note(!is_child, FOR_ONE_BELOW);
        self.note(readers.iter().any(|(m, _)| table.holder(*m) < table.holder(first)), FOR_LATER_START);
        self.note(readers.iter().any(|(_, k)| *k < account), OVER_HIGHER_ACCOUNT);
        self.note(account >= FIRST_CHARGE as u64, OVER_ADD);
        self.note(after.sums_fail(me), WITH_SUM);
        self.note(true, of_kind(FAILED, me.kind()));
    }

    fn passed(&mut self, before: &Before, table: &Table) {
        let me = table.action(before.number);
        let rivals: Vec<&Action> = table.rivals(me).collect();
        let mut siblings = table.held().filter(|a| a.parent == me.parent && a.number != me.number);
        let meets = |a: &Action| over_any(|k| changes(me, k) && a.has_read(k));
        self.note(siblings.any(|a| !a.is_live() && meets(a)), BESIDE_FINISHED);
        self.note(meets(me), OWN_READ);
        self.note(rivals.iter().any(|m| over_any(|k| changes(m, k) && me.has_read(k))), READ_OF_RIVALS);
        self.note(rivals.iter().any(|m| over_any(|k| changes(m, k) && changes(me, k))), SAME_ACCOUNT);
        let wrote = me.wrote_something();
        self.note(!wrote && rivals.iter().any(|m| m.has_read_any()), NOTHING_WRITTEN);
        self.note(wrote, of_kind(PASSED, me.kind()));
        self.note(before.has_clash, WITH_CLASH);
        self.passed_beside_others(table, me);
    }

    /// A commit's readers among those who are no rivals. Those above it may have its own reads from it by now.
    fn passed_beside_others(&mut self, table: &Table, me: &Action) {
        let meets = |a: &&Action| over_any(|k| changes(me, k) && a.has_read(k) && !me.has_read(k));
        let is_above = |a: &Action| table.is_below(me, table.parent_named(a.number));
        let (above, beside): (Vec<&Action>, Vec<&Action>) = table.live().filter(meets).partition(|a| is_above(a));
        self.note(!above.is_empty(), READ_ABOVE);
        self.note(!beside.is_empty(), READ_BESIDE_ABOVE);
    }

    fn refused(&mut self, before: &Before, table: &Table, cause: u64) {
        match cause {
            cause::NO_QUEUES => {
                let event = if before.code == EVENT_ENTER { ENTER } else { JUDGE };
                self.note(true, refused_21(event, whom(table, before.number)));
            }
            cause::COUNTED_OUT => self.note(table.first_reader_ahead(before.number).is_some(), COUNTED_OUT),
            cause::QUEUE_FIRST => self.note(true, QUEUE_FIRST),
            cause::SUM => self.note(before.code == EVENT_COMMIT, SUM),
            _ => {}
        }
    }

    /// One that left a queue; those who are live now were live then.
    fn left(&mut self, table: &Table, leaver: &Leaver) {
        let has_reader = table.first_reader_ahead(leaver.number).is_some();
        self.note(leaver.committed, of_kind(LEFT, table.action(leaver.number).kind()));
        self.note(leaver.committed && has_reader, LEFT_WITH_READER);
        self.note(!leaver.committed, LEFT_FOR_SUMS);
    }

    pub fn list(&mut self, rule: Rule) {
        *self.lists.entry(rule.number()).or_default() += 1;
    }

    /// A read that was held to the serial run, of a list under this rule.
    pub fn serial_read(&mut self, rule: Rule) {
        *self.serial_reads.entry(rule.number()).or_default() += 1;
    }

    pub fn opening(&mut self, asked: u64, cause: u64) {
        *self.openings.entry(opened(asked, cause)).or_default() += 1;
    }

    /// What a comparison has to meet.
    pub fn points(&self) -> Vec<Point> {
        let met = |counts: &BTreeMap<String, u64>, key: &String| counts.get(key).copied().unwrap_or(0);
        let event = |what: String| (format!("under rule 2: {what}"), met(&self.met, &what));
        let mut points: Vec<Point> = to_meet().into_iter().map(event).collect();
        points.push(("passed under rule 1 with a reader ahead".to_string(), self.passed_backward));
        for asked in ASKED {
            let answers = [Table::opened(asked).0, cause::UNSOUND].map(|cause| opened(asked, cause));
            points.extend(answers.map(|what| (format!("an opening under {what}"), met(&self.openings, &what))));
        }
        for number in RULES.map(Rule::number) {
            let reads = self.serial_reads.get(&number).copied().unwrap_or(0);
            points.push((format!("a read held to the serial run under rule {number}"), reads));
        }
        points
    }
}

impl fmt::Display for RuleCoverage {
    fn fmt(&self, f: &mut fmt::Formatter) -> fmt::Result {
        row(f, "lists by rule", &self.lists)?;
        row(f, "reads held to the serial run by rule", &self.serial_reads)?;
        writeln!(f, "passed under rule 1 with a reader ahead: {}", self.passed_backward)?;
        writeln!(f, "under rule 2")?;
        self.met.iter().try_for_each(|(what, count)| writeln!(f, "  {what}: {count}"))?;
        writeln!(f, "openings under")?;
        self.openings.iter().try_for_each(|(what, count)| writeln!(f, "  {what}: {count}"))
    }
}
