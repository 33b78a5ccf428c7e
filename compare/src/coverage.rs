//! What a comparison has met, so that a reader sees that nothing was left out.

use crate::before::{Before, Joins};
use crate::cause;
use crate::header::{EVENT_ADD, EVENT_COMMIT, EVENT_READ};
use crate::model::{amount_in, Answer, Event, Ledger, Outcome, Shown, FIRST_CHARGE};
use crate::newest_coverage::NewestCoverage;
use crate::number_coverage::NumberCoverage;
use crate::queue_coverage::QueueCoverage;
use crate::rule_coverage::RuleCoverage;
use crate::sound::Unsound;
use crate::table::Table;
use crate::times::{Kind, KINDS};
use crate::trees::Report;
use std::collections::BTreeMap;
use std::fmt;

#[derive(Default)]
pub struct Coverage {
    answers: BTreeMap<&'static str, u64>,
    refusals: BTreeMap<u64, u64>,
    moves: BTreeMap<u64, u64>,
    adds: BTreeMap<&'static str, u64>,
    sums: BTreeMap<&'static str, u64>,
    sums_refused: BTreeMap<&'static str, u64>,
    charge_clashes: u64,
    joins: Joins,
    unsound: BTreeMap<Unsound, u64>,
    unsound_alone: BTreeMap<Unsound, u64>,
    unsound_by_kind: BTreeMap<Unsound, u64>,
    sound: u64,
    pub table_length: u64,
    pub lists: u64,
    pub list_calls: u64,
    list_refusals: BTreeMap<u64, u64>,
    pub serial_reads: u64,
    pub serial_sums: u64,
    pub amounts_held: u64,
    pub damaged: u64,
    pub own_adds_refused: u64,
    looks_refused: BTreeMap<u64, u64>,
    causes_asked: BTreeMap<u64, u64>,
    queues: QueueCoverage,
    pub numbers: NumberCoverage,
    pub newest: NewestCoverage,
    pub rules: RuleCoverage,
    pub cases: u64,
    trees: u64,
    tree_refusals: BTreeMap<u64, u64>,
    damaged_trees: u64,
    far_trees: u64,
    pub closings_held: u64,
    pub totals_not_own: u64,
    days: u64,
    day_refusals: BTreeMap<u64, u64>,
    day_trees: u64,
    day_tree_refusals: BTreeMap<u64, u64>,
    events: u64,
}

/// Something that a comparison has to meet, and how often it has.
pub type Point = (String, u64);

/// The clauses of docs/RULES.md, 7, that have to do with no kind.
const OF_NO_KIND: [Unsound; 8] = [
    Unsound::Highest,
    Unsound::State,
    Unsound::ParentUnknown,
    Unsound::ParentNotLive,
    Unsound::EndTimeTwice,
    Unsound::Pending,
    Unsound::Ring,
    Unsound::Rule,
];
/// Those that there are two of, one for each kind.
const PER_KIND: [fn(Kind) -> Unsound; 13] = [
    Unsound::Counter,
    Unsound::ReadTime,
    Unsound::ReadTimeOfOther,
    Unsound::NoEndTime,
    Unsound::EndTime,
    Unsound::QueueLength,
    Unsound::QueuedNobody,
    Unsound::QueuedNotLive,
    Unsound::QueuedOfOther,
    Unsound::QueuedChildLive,
    Unsound::QueuedTwice,
    Unsound::NewestTime,
    Unsound::NewestFalse,
];
/// Those of them that an engine could take for kept, if it held the times of both kinds to one another.
const BY_TIMES: [fn(Kind) -> Unsound; 5] =
    [Unsound::Counter, Unsound::ReadTime, Unsound::ReadTimeOfOther, Unsound::EndTime, Unsound::NewestTime];

/// The causes of a tree, each of which is shown, also with a count of 0.
const TREE_CAUSES: [u64; 3] = [cause::STORE_LENGTH, cause::UNSOUND, cause::SUM];

impl Coverage {
    pub fn answer(&mut self, e: &Event, a: Answer) {
        self.events += 1;
        let word = match a {
            Answer::Refused(cause) => {
                *self.refusals.entry(cause).or_default() += 1;
                if cause == cause::SUM {
                    *self.sums_refused.entry(summing(e)).or_default() += 1;
                }
                "refused"
            }
            Answer::Started(_) => "started",
            Answer::Read(v) => {
                *self.moves.entry(v.moves).or_default() += 1;
                "read"
            }
            Answer::Written => "written",
            Answer::Committed(_) => "committed",
            Answer::Failed(_, account) => {
                self.charge_clashes += u64::from(account >= FIRST_CHARGE as u64);
                "failed"
            }
            Answer::Aborted(..) => "aborted",
            Answer::Added => {
                *self.adds.entry(sign(amount_in(&e.card))).or_default() += 1;
                "added"
            }
            Answer::ReadSum(v, sum) => {
                *self.moves.entry(v.moves).or_default() += 1;
                *self.sums.entry(sign(sum)).or_default() += 1;
                "read"
            }
            Answer::Entered => "entered",
            Answer::Ready(_) => "ready",
            Answer::JudgedFailed(_) => "failed-at-judge",
        };
        *self.answers.entry(word).or_default() += 1;
    }

    pub fn look(&mut self, shown: Result<Shown, u64>) {
        if let Err(cause) = shown {
            *self.looks_refused.entry(cause).or_default() += 1;
        }
    }

    /// A cause that the library was asked for, none where it would refuse nothing.
    pub fn asked(&mut self, cause: u64) {
        *self.causes_asked.entry(cause).or_default() += 1;
    }

    /// An event on a sound table, and what came of it.
    pub fn outcome(&mut self, before: &Before, after: &Ledger, done: &Outcome) {
        self.queues.event(before, &after.table, done);
        self.numbers.event(before, &after.table, done);
        self.rules.event(before, after, done);
        if let Answer::Committed(_) = done.answer {
            self.joins.behind += before.joins.behind;
            self.joins.behind_later += before.joins.behind_later;
            self.joins.crossed += before.joins.crossed;
        }
    }

    /// A lent table, and its words.
    pub fn soundness(&mut self, table: &Table, words: &[u64]) {
        let faults: Vec<Unsound> = table.faults().into_iter().collect();
        for &clause in &faults {
            *self.unsound.entry(clause).or_default() += 1;
        }
        match faults[..] {
            [] => {
                self.sound += 1;
                self.numbers.sound(table);
                self.newest.sound(table);
                self.newest.sound_words(words);
            }
            [alone] => {
                *self.unsound_alone.entry(alone).or_default() += 1;
                self.newest.alone(table, alone);
                if table.is_sound_in_mixed_times() {
                    *self.unsound_by_kind.entry(alone).or_default() += 1;
                }
            }
            _ => {}
        }
    }

    /// What a comparison has to meet.
    fn points(&self) -> Vec<Point> {
        let of = |counts: &BTreeMap<Unsound, u64>, clause| counts.get(&clause).copied().unwrap_or(0);
        let of_cause = |cause| self.causes_asked.get(&cause).copied().unwrap_or(0);
        let mut points = self.queues.points();
        points.extend(self.numbers.points());
        points.extend(self.newest.points());
        points.extend(self.rules.points());
        for cause in [cause::NONE].into_iter().chain(cause::OF_EVENTS) {
            points.push((format!("a cause asked that is {cause}"), of_cause(cause)));
        }
        points.push(("a read joined that takes its times from two".to_string(), self.joins.crossed));
        for clause in OF_NO_KIND {
            points.push((format!("{clause:?} broken alone"), of(&self.unsound_alone, clause)));
        }
        for kind in KINDS {
            for clause in PER_KIND.map(|clause| clause(kind)) {
                points.push((format!("{clause:?} broken alone"), of(&self.unsound_alone, clause)));
            }
            for clause in BY_TIMES.map(|clause| clause(kind)) {
                points.push((format!("{clause:?} broken within the other kind"), of(&self.unsound_by_kind, clause)));
            }
        }
        points
    }

    /// The points that it has not met.
    pub fn left_out(&self) -> Vec<String> {
        self.points().into_iter().filter(|(_, count)| *count == 0).map(|(point, _)| point).collect()
    }

    fn show_soundness(&self, f: &mut fmt::Formatter) -> fmt::Result {
        let named = |counts: &BTreeMap<Unsound, u64>| counts.iter().map(|(c, &n)| (format!("{c:?}"), n)).collect();
        row(f, "unsound by clause", &named(&self.unsound))?;
        row(f, "unsound by one clause alone", &named(&self.unsound_alone))?;
        row(f, "of these sound if the kinds were not parted", &named(&self.unsound_by_kind))?;
        writeln!(f, "sound all the same: {}, tables of another length: {}", self.sound, self.table_length)
    }

    pub fn list_call(&mut self, cause: u64) {
        self.list_calls += 1;
        if cause != 0 {
            *self.list_refusals.entry(cause).or_default() += 1;
        }
    }

    pub fn tree(&mut self, cause: u64) {
        self.trees += 1;
        if cause != cause::NONE {
            *self.tree_refusals.entry(cause).or_default() += 1;
        }
    }

    pub fn damaged_tree(&mut self, report: &Report) {
        self.damaged_trees += u64::from(report.cause == cause::NONE);
        self.far_trees += u64::from(report.has_far_own_adds());
    }

    pub fn day(&mut self, listing: &str) {
        self.days += 1;
        if let Some(cause) = refusal(listing) {
            *self.day_refusals.entry(cause).or_default() += 1;
        }
    }

    pub fn day_tree(&mut self, text: &str) {
        self.day_trees += 1;
        if let Some(cause) = refusal(text) {
            *self.day_tree_refusals.entry(cause).or_default() += 1;
        }
    }

    pub fn compared(&self) -> u64 {
        self.events + self.list_calls + self.cases + self.trees + self.days + self.day_trees
    }

    fn show_trees(&self, f: &mut fmt::Formatter) -> fmt::Result {
        writeln!(f, "cases: {}, trees: {}", self.cases, self.trees)?;
        let count = |cause| self.tree_refusals.get(&cause).copied().unwrap_or(0);
        row(f, "trees refused by number", &TREE_CAUSES.map(|cause| (cause, count(cause))).into())?;
        let (passed, far) = (self.damaged_trees, self.far_trees);
        writeln!(f, "trees of damaged tables that passed: {passed}, with own adds near an end: {far}")?;
        writeln!(f, "totals other than own adds: {}", self.totals_not_own)?;
        writeln!(f, "closings held to opening and sum: {}", self.closings_held)
    }
}

/// The cause that a day's text says, if it is refused.
fn refusal(text: &str) -> Option<u64> {
    text.strip_prefix("refused ")?.trim_end().parse().ok()
}

/// The event that made a sum.
fn summing(e: &Event) -> &'static str {
    match e.code {
        EVENT_READ => "read",
        EVENT_COMMIT => "commit",
        EVENT_ADD => "add",
        _ => "another event",
    }
}

fn sign(amount: i64) -> &'static str {
    match amount {
        0 => "zero",
        1.. => "positive",
        _ => "negative",
    }
}

pub fn row<K: fmt::Display>(f: &mut fmt::Formatter, title: &str, counts: &BTreeMap<K, u64>) -> fmt::Result {
    write!(f, "{title}:")?;
    for (k, n) in counts {
        write!(f, " {k} {n}")?;
    }
    writeln!(f)
}

impl fmt::Display for Coverage {
    fn fmt(&self, f: &mut fmt::Formatter) -> fmt::Result {
        row(f, "answers", &self.answers)?;
        row(f, "refusals by number", &self.refusals)?;
        row(f, "looks refused by number", &self.looks_refused)?;
        row(f, "causes asked before events by number", &self.causes_asked)?;
        write!(f, "{}", self.queues)?;
        write!(f, "{}", self.numbers)?;
        write!(f, "{}", self.newest)?;
        write!(f, "{}", self.rules)?;
        row(f, "reads by moves up", &self.moves)?;
        row(f, "adds", &self.adds)?;
        row(f, "sums read", &self.sums)?;
        row(f, "refused 15 by event", &self.sums_refused)?;
        writeln!(f, "adds refused 15 for own adds alone: {}", self.own_adds_refused)?;
        writeln!(f, "failed over a charge account: {}", self.charge_clashes)?;
        let Joins { behind, behind_later, crossed } = self.joins;
        writeln!(f, "reads left behind at a parent's card: {behind}, though the parent's are later: {behind_later}")?;
        writeln!(f, "reads joined that take their times from two: {crossed}")?;
        writeln!(f, "lists: {}, lists in one call: {}", self.lists, self.list_calls)?;
        row(f, "lists in one call refused by number", &self.list_refusals)?;
        writeln!(f, "reads held to the serial run: {}, with a sum: {}", self.serial_reads, self.serial_sums)?;
        writeln!(f, "base amounts held to what was added: {}", self.amounts_held)?;
        writeln!(f, "damaged tables and stores: {}", self.damaged)?;
        self.show_soundness(f)?;
        self.show_trees(f)?;
        writeln!(f, "days: {}", self.days)?;
        row(f, "days refused by number", &self.day_refusals)?;
        writeln!(f, "trees of days: {}", self.day_trees)?;
        row(f, "trees of days refused by number", &self.day_tree_refusals)
    }
}
