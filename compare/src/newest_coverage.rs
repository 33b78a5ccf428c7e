//! What a comparison met of newest end times: after lists, in tables that are unsound for them alone, and in sound
//! tables that hardly any list leads to.

use crate::action::{Action, Parent};
use crate::coverage::{row, Point};
use crate::header::{ACCOUNTS, ACTIONS, ROW_WORDS};
use crate::library::{COUNTERS, HIGHEST, NEWEST};
use crate::model::STORE;
use crate::queue_coverage::name;
use crate::sound::Unsound;
use crate::stale::Misjudged;
use crate::table::Table;
use crate::times::{Kind, KINDS};
use std::collections::{BTreeMap, BTreeSet};
use std::fmt;

#[derive(Default)]
pub struct NewestCoverage {
    /// Newest end times after lists, and those of them whose record was dropped.
    held: u64,
    of_dropped: u64,
    /// Live actions after lists, and those of them whose clash is known.
    verdicts: u64,
    known: u64,
    /// Tables that break 7.15 or 7.16 alone, where they do it in one way alone.
    alone: BTreeMap<String, u64>,
    /// Tables that break 7.16 alone, and would not if reads were asked for their times of the other kind.
    alone_by_kind: BTreeMap<Kind, u64>,
    shapes: BTreeMap<String, u64>,
}

const THE_STORE: &str = "the store";
const A_LIVE_ACTION: &str = "a live action";
const A_FINISHED_ACTION: &str = "a finished action";
/// Those of whom 7.16 asks something.
const ASKED: [&str; 2] = [THE_STORE, A_LIVE_ACTION];
const EARLY: &str = "early";
const LATE: &str = "late";
const ABOVE_HIGHEST: &str = "newest end times above the highest number and the counters";

fn above_counter(whose: &str) -> String {
    format!("of {whose}, above the counter")
}

fn false_for(whose: &str, way: &str, is_childs: bool) -> String {
    format!("of {whose}, too {way} for {}", if is_childs { "a child" } else { "one further down" })
}

/// One that is earlier or later than the latest record, and no read tells.
fn free(whose: &str, way: &str, is_read: bool) -> String {
    let whom = if is_read { "somebody has read" } else { "nobody has read" };
    format!("{way} newest end times of {whose}, and {whom} the account")
}

fn false_for_finished(whose: &str, way: &str) -> String {
    format!("newest end times of {whose}, too {way} for a finished reader alone")
}

fn false_by_kind(kind: Kind) -> String {
    format!("newest end times that are {}' and false by reads' times of the other kind", name(kind))
}

fn way(is_early: bool) -> &'static str {
    if is_early {
        EARLY
    } else {
        LATE
    }
}

fn whose(table: &Table, parent: Parent) -> &'static str {
    match parent {
        Parent::Store => THE_STORE,
        _ if table.is_store_or_live(parent) => A_LIVE_ACTION,
        _ => A_FINISHED_ACTION,
    }
}

/// A table whose reads have each other's times for the two kinds.
fn exchanged(table: &Table) -> Table {
    let mut other = table.clone();
    for n in 1..=table.highest {
        other.action_mut(n).exchange_times();
    }
    other
}

/// The only one, where there is one.
fn only(mut all: BTreeSet<String>) -> Option<String> {
    all.pop_first().filter(|_| all.is_empty())
}

impl NewestCoverage {
    /// The latest end times of a parent after a list, among all its records and among those that are held.
    pub fn of_a_list(&mut self, had: &[u64; ACCOUNTS], held: &[u64; ACCOUNTS]) {
        for (had, held) in had.iter().zip(held) {
            self.held += u64::from(*had > 0);
            self.of_dropped += u64::from(had > held);
        }
    }

    pub fn verdict(&mut self, known: bool) {
        self.verdicts += 1;
        self.known += u64::from(known);
    }

    /// A table that breaks one clause alone.
    pub fn alone(&mut self, table: &Table, clause: Unsound) {
        let said = match clause {
            Unsound::NewestTime(_) => only(owners_above(table).map(above_counter).collect()),
            Unsound::NewestFalse(kind) => {
                let is_true = exchanged(table).misjudged_live().next().is_none();
                *self.alone_by_kind.entry(kind).or_default() += u64::from(is_true);
                only_way(table)
            }
            _ => None,
        };
        if let Some(said) = said {
            *self.alone.entry(said).or_default() += 1;
        }
    }

    fn note(&mut self, shape: String) {
        *self.shapes.entry(shape).or_default() += 1;
    }

    /// A lent table that is sound.
    pub fn sound(&mut self, table: &Table) {
        let parents = (STORE..=table.highest).map(|n| table.parent_named(n));
        let mut shapes: BTreeSet<String> = parents.flat_map(|p| free_shapes(table, p)).collect();
        for a in table.held().filter(|a| !a.is_live()) {
            let said = |read: Misjudged| false_for_finished(whose(table, read.parent), way(read.is_stale));
            shapes.extend(table.misjudged(a).map(said));
        }
        shapes.extend(exchanged(table).misjudged_live().map(|read| false_by_kind(read.parent.kind())));
        shapes.into_iter().for_each(|shape| self.note(shape));
    }

    /// The words of such a table.
    pub fn sound_words(&mut self, words: &[u64]) {
        let most = COUNTERS.map(|at| words[at]).into_iter().max().unwrap_or(0);
        let mut above = words.chunks(ROW_WORDS).take(ACTIONS + 1).skip(words[HIGHEST] as usize + 1);
        if above.any(|row| row[NEWEST..].iter().any(|&time| time > most)) {
            self.note(ABOVE_HIGHEST.to_string());
        }
    }

    /// What a comparison has to meet.
    pub fn points(&self) -> Vec<Point> {
        let met = |counts: &BTreeMap<String, u64>, key: &String| counts.get(key).copied().unwrap_or(0);
        let mut points = vec![
            ("a newest end time whose record was dropped".to_string(), self.of_dropped),
            ("a known clash after a list".to_string(), self.known),
        ];
        let unsound = |way: &String| (format!("a newest end time {way}, and no other fault"), met(&self.alone, way));
        let sound = |shape: &String| (format!("a sound table with {shape}"), met(&self.shapes, shape));
        points.extend(ways().iter().map(unsound).chain(shapes().iter().map(sound)));
        points.extend(KINDS.map(|kind| {
            let what = format!("{:?} broken alone, and true by times of the other kind", Unsound::NewestFalse(kind));
            (what, self.alone_by_kind.get(&kind).copied().unwrap_or(0))
        }));
        points
    }
}

/// Whose newest end times are above the counter.
fn owners_above(table: &Table) -> impl Iterator<Item = &'static str> + '_ {
    let above = |p: &Parent| table.newest_of(*p).is_some_and(|newest| newest.is_above(table.counters));
    (STORE..=table.highest).map(|n| table.parent_named(n)).filter(above).map(|p| whose(table, p))
}

/// In which way they are false, where all that are false are so in one way: if for one further down, then for no child.
fn only_way(table: &Table) -> Option<String> {
    let said = |read: Misjudged| false_for(whose(table, read.parent), way(read.is_stale), read.is_childs);
    only(table.misjudged_live().map(said).collect())
}

/// Where those of the store or of a live action are not the latest of the records.
fn free_shapes(table: &Table, parent: Parent) -> Vec<String> {
    let Some(newest) = table.newest_of(parent).filter(|_| table.is_store_or_live(parent)) else { return Vec::new() };
    let reads = |m: &Action, k: usize| m.has_read(k) && table.is_below(m, parent);
    let shape = |k: usize| {
        let (time, latest) = (newest.numbers()[k], table.latest(parent, k));
        (time != latest).then(|| free(whose(table, parent), way(time < latest), table.live().any(|m| reads(m, k))))
    };
    (0..ACCOUNTS).filter_map(shape).collect()
}

/// The ways in which newest end times alone make a table unsound.
fn ways() -> Vec<String> {
    let mut ways: Vec<String> = [THE_STORE, A_LIVE_ACTION, A_FINISHED_ACTION].map(above_counter).into();
    for whose in ASKED {
        for way in [EARLY, LATE] {
            ways.extend([true, false].map(|is_childs| false_for(whose, way, is_childs)));
        }
    }
    ways
}

fn shapes() -> Vec<String> {
    let mut shapes = vec![ABOVE_HIGHEST.to_string()];
    for way in [EARLY, LATE] {
        for whose in ASKED {
            shapes.extend([true, false].map(|is_read| free(whose, way, is_read)));
        }
        shapes.extend([THE_STORE, A_LIVE_ACTION, A_FINISHED_ACTION].map(|whose| false_for_finished(whose, way)));
    }
    shapes.extend(KINDS.map(false_by_kind));
    shapes
}

impl fmt::Display for NewestCoverage {
    fn fmt(&self, f: &mut fmt::Formatter) -> fmt::Result {
        writeln!(f, "newest end times after lists: {}, of dropped records: {}", self.held, self.of_dropped)?;
        writeln!(f, "verdicts after lists: {}, clashes known: {}", self.verdicts, self.known)?;
        writeln!(f, "newest end times that alone make a table unsound")?;
        self.alone.iter().try_for_each(|(way, count)| writeln!(f, "  {way}: {count}"))?;
        let by_kind = self.alone_by_kind.iter().map(|(&kind, &count)| (name(kind), count)).collect();
        row(f, "of these true by times of the other kind", &by_kind)?;
        writeln!(f, "sound lent tables with")?;
        self.shapes.iter().try_for_each(|(shape, count)| writeln!(f, "  {shape}: {count}"))
    }
}
