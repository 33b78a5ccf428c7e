//! What events met of numbers that are given again, of counters at their most and of kept sums; and which shapes the
//! parents of sound tables had.

use crate::before::Before;
use crate::cause;
use crate::coverage::{row, Point};
use crate::header::EVENT_COMMIT;
use crate::model::{Answer, Outcome, MOST_COUNTED};
use crate::queue_coverage::name;
use crate::table::Table;
use crate::times::KINDS;
use std::collections::BTreeMap;
use std::fmt;

/// Sound tables that hardly any list leads to, and how often each shape was met.
type Shapes = BTreeMap<String, u64>;

#[derive(Default)]
pub struct NumberCoverage {
    given_again: u64,
    most_starts: u64,
    /// Starts that passed over a number, as its record is needed.
    past_needed: u64,
    below_parent: u64,
    orphaned: u64,
    all_live: u64,
    /// Refused starts at which records are needed.
    all_needed: u64,
    /// Refused 19, by kind and event.
    counted_out: BTreeMap<String, u64>,
    shapes: Shapes,
    /// Lines of trees whose totals have those of children that were dropped.
    pub lines_with_dropped: u64,
    /// Actions that are held and have no line.
    pub held_unshown: u64,
    /// Commits refused 15 for a kept sum alone.
    pub kept_refused: u64,
}

const COMMIT: &str = "a commit";
const ENTER: &str = "an enter";
const RING: &str = "a ring of finished actions";
const OWN_PARENT: &str = "one that is its own parent";
const PARENT_ABOVE: &str = "a parent whose number is above its child's";

/// A counter at its most or one below it, with a queue or without.
fn counter_shape(kind: &str, below: bool, waits: bool) -> String {
    let height = if below { "one below its most" } else { "at its most" };
    format!("the counter of {kind} {height}, {}", if waits { "with a queue" } else { "without a queue" })
}

fn refused_19(kind: &str, event: &str) -> String {
    format!("{event} of {kind}")
}

impl NumberCoverage {
    pub fn event(&mut self, before: &Before, after: &Table, done: &Outcome) {
        match done.answer {
            Answer::Started(number) => self.started(number, before, after),
            Answer::Refused(cause::NO_NUMBER) if before.needed.is_empty() => self.all_live += 1,
            Answer::Refused(cause::NO_NUMBER) => self.all_needed += 1,
            Answer::Refused(cause::COUNTED_OUT) => {
                let kind = before.kind.map_or("nobody", name);
                let event = if before.code == EVENT_COMMIT { COMMIT } else { ENTER };
                *self.counted_out.entry(refused_19(kind, event)).or_default() += 1;
            }
            _ => {}
        }
    }

    fn started(&mut self, number: u64, before: &Before, after: &Table) {
        self.given_again += u64::from(number <= before.highest);
        self.past_needed += u64::from(before.needed.iter().any(|&n| n < number));
        self.below_parent += u64::from(after.parent_number(after.action(number)) > number);
        let orphans = after.held().filter(|a| after.is_orphan(a)).count() as u64;
        self.orphaned += orphans.saturating_sub(before.orphans);
    }

    /// A list that has ended.
    pub fn list(&mut self, table: &Table) {
        self.most_starts = self.most_starts.max(table.ever().len() as u64);
    }

    /// A lent table that is sound.
    pub fn sound(&mut self, table: &Table) {
        let mut note = |met: bool, shape: String| *self.shapes.entry(shape).or_default() += u64::from(met);
        note(table.held().any(|a| table.is_in_ring(a)), RING.to_string());
        note(table.held().any(|a| table.is_orphan(a)), OWN_PARENT.to_string());
        note(table.held().any(|a| table.parent_number(a) > a.number), PARENT_ABOVE.to_string());
        for kind in KINDS {
            let length = table.queue(kind).length;
            let counted = table.counters.number(kind) + length;
            for below in [false, true] {
                let met = counted == MOST_COUNTED - u64::from(below);
                note(met, counter_shape(name(kind), below, length > 0));
            }
        }
    }

    /// What a comparison has to meet.
    pub fn points(&self) -> Vec<Point> {
        let mut points = vec![
            ("a number given again".to_string(), self.given_again),
            ("a start past a record that is needed".to_string(), self.past_needed),
            ("a start below its parent's number".to_string(), self.below_parent),
            ("an action that lost its parent".to_string(), self.orphaned),
            ("refused 6, records needed".to_string(), self.all_needed),
            ("a total with a dropped child's".to_string(), self.lines_with_dropped),
            ("an action held and not shown".to_string(), self.held_unshown),
            ("refused 15 for a kept sum alone".to_string(), self.kept_refused),
        ];
        let mut shapes: Vec<String> = [RING, OWN_PARENT, PARENT_ABOVE].map(str::to_string).into();
        for kind in KINDS.map(name) {
            for event in [COMMIT, ENTER] {
                let key = refused_19(kind, event);
                points.push((format!("refused 19: {key}"), self.counted_out.get(&key).copied().unwrap_or(0)));
            }
            for (below, waits) in [(false, false), (false, true), (true, false), (true, true)] {
                shapes.push(counter_shape(kind, below, waits));
            }
        }
        let met = |shape: &String| self.shapes.get(shape).copied().unwrap_or(0);
        points.extend(shapes.iter().map(|shape| (format!("a sound table with {shape}"), met(shape))));
        points
    }
}

impl fmt::Display for NumberCoverage {
    fn fmt(&self, f: &mut fmt::Formatter) -> fmt::Result {
        let (again, most) = (self.given_again, self.most_starts);
        writeln!(f, "numbers given again: {again}, most starts in a list: {most}")?;
        writeln!(f, "starts past a record that is needed: {}", self.past_needed)?;
        writeln!(f, "starts below their parent's number: {}", self.below_parent)?;
        writeln!(f, "actions that lost their parents: {}", self.orphaned)?;
        writeln!(f, "refused 6, all live: {}, records needed: {}", self.all_live, self.all_needed)?;
        row(f, "refused 19", &self.counted_out)?;
        writeln!(f, "refused 15 for a kept sum alone: {}", self.kept_refused)?;
        let (dropped, unshown) = (self.lines_with_dropped, self.held_unshown);
        writeln!(f, "totals with a dropped child's: {dropped}, actions held and not shown: {unshown}")?;
        writeln!(f, "sound lent tables with")?;
        self.shapes.iter().try_for_each(|(shape, count)| writeln!(f, "  {shape}: {count}"))
    }
}
