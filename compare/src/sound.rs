//! Whether a table is sound (docs/RULES.md, 7), and which clauses one breaks that is not.

use crate::action::{Action, Parent, State};
use crate::header::ACTIONS;
use crate::model::{CHARGE_ACCOUNTS, MOST_COUNTED, STORE};
use crate::rule::Rule;
use crate::table::Table;
use crate::times::{EndTime, Kind, Times, KINDS};
use std::collections::BTreeSet;

/// Why a table is not sound. Where there are two kinds of it, the kind is that of the counter, the time or the queue; a
/// newest end time is of the children's.
#[derive(Clone, Copy, PartialEq, Eq, PartialOrd, Ord, Debug)]
pub enum Unsound {
    Highest,
    Counter(Kind),
    State,
    ParentUnknown,
    ParentNotLive,
    /// Of an action of the same kind.
    ReadTime(Kind),
    /// Of an action of the other kind.
    ReadTimeOfOther(Kind),
    NoEndTime(Kind),
    EndTime(Kind),
    EndTimeTwice,
    Pending,
    QueueLength(Kind),
    QueuedNobody(Kind),
    QueuedNotLive(Kind),
    QueuedOfOther(Kind),
    QueuedChildLive(Kind),
    QueuedTwice(Kind),
    /// Parents that do not lead to the store.
    Ring,
    /// A newest end time above the counter.
    NewestTime(Kind),
    /// A newest end time that gives a live read another verdict than the records do.
    NewestFalse(Kind),
    Rule,
}

/// What the counters and the times are held to: for each kind how many wait, and the counters.
struct Bounds {
    waiting: [u64; KINDS.len()],
    counters: Times,
}

/// The clauses found broken.
#[derive(Default)]
struct Faults(BTreeSet<Unsound>);

impl Faults {
    fn note(&mut self, is_broken: bool, clause: Unsound) {
        if is_broken {
            self.0.insert(clause);
        }
    }
}

impl Table {
    pub fn is_sound(&self) -> bool {
        self.faults().is_empty()
    }

    /// The clauses that it breaks. Nothing more is asked of a table whose highest number is too high, of a queue that
    /// is too long, and of an entry that names nobody.
    pub fn faults(&self) -> BTreeSet<Unsound> {
        let waiting = KINDS.map(|kind| self.queue(kind).length);
        self.faults_within(Bounds { waiting, counters: self.counters })
    }

    /// Whether it would be sound to somebody who doesn't part the kinds: with each counter held to the queue of the
    /// other kind, and each time to the higher counter.
    pub fn is_sound_in_mixed_times(&self) -> bool {
        let highest = self.counters.number(Kind::Top).max(self.counters.number(Kind::Sub));
        let waiting = KINDS.map(|kind| self.queue(kind.other()).length);
        self.faults_within(Bounds { waiting, counters: Times::new(highest, highest) }).is_empty()
    }

    fn faults_within(&self, bounds: Bounds) -> BTreeSet<Unsound> {
        let mut faults = Faults::default();
        faults.note(self.highest > ACTIONS as u64, Unsound::Highest);
        faults.note(matches!(self.rule, Rule::Unknown(_)), Unsound::Rule);
        if self.highest <= ACTIONS as u64 {
            for a in self.held() {
                self.action_faults(a, &mut faults);
                self.time_faults(a, &bounds, &mut faults);
            }
            self.newest_faults(&bounds, &mut faults);
            for kind in KINDS {
                let counted = self.counters.number(kind).checked_add(bounds.waiting[kind as usize]);
                faults.note(counted.is_none_or(|counted| counted > MOST_COUNTED), Unsound::Counter(kind));
                self.queue_faults(kind, &mut faults);
            }
        }
        faults.0
    }

    fn action_faults(&self, a: &Action, faults: &mut Faults) {
        faults.note(matches!(a.state, State::Unknown(_)), Unsound::State);
        faults.note(matches!(a.parent, Parent::Unknown(_)), Unsound::ParentUnknown);
        if a.is_live() {
            let may_live = match a.parent {
                Parent::Action(place) => self.at(place).is_live(),
                Parent::Store | Parent::Nobody | Parent::Unknown(_) => true,
            };
            faults.note(!may_live, Unsound::ParentNotLive);
            faults.note(!self.climbs(a, ACTIONS), Unsound::Ring);
        }
        faults.note((0..CHARGE_ACCOUNTS).any(|c| a.pending[c] != 0 && !a.has_charged(c)), Unsound::Pending);
    }

    fn time_faults(&self, a: &Action, bounds: &Bounds, faults: &mut Faults) {
        let own = a.kind();
        if a.is_live() {
            for times in a.reads.iter().filter_map(|read| read.times()) {
                faults.note(times.is_above(bounds.counters, own), Unsound::ReadTime(own));
                faults.note(times.is_above(bounds.counters, own.other()), Unsound::ReadTimeOfOther(own.other()));
            }
        }
        if a.is_writer() {
            faults.note(a.end == EndTime::new(own, 0), Unsound::NoEndTime(own));
            faults.note(a.end.is_above(bounds.counters), Unsound::EndTime(own));
            let mut before = self.held().take(a.number as usize - 1);
            faults.note(before.any(|b| self.are_twins(a, b)), Unsound::EndTimeTwice);
        }
    }

    /// Whether they are two records of one parent, and so of one kind, that end at the same time.
    fn are_twins(&self, a: &Action, b: &Action) -> bool {
        a.end.number() == b.end.number() && a.parent == b.parent && b.is_writer() && !self.is_orphan(a)
    }

    fn newest_faults(&self, bounds: &Bounds, faults: &mut Faults) {
        faults.note(self.newest.is_above(bounds.counters), Unsound::NewestTime(Kind::Top));
        let is_above = self.held().any(|a| a.newest.is_above(bounds.counters));
        faults.note(is_above, Unsound::NewestTime(Kind::Sub));
        for read in self.misjudged_live() {
            faults.note(true, Unsound::NewestFalse(read.parent.kind()));
        }
    }

    fn queue_faults(&self, kind: Kind, faults: &mut Faults) {
        let queue = self.queue(kind);
        if queue.length > ACTIONS as u64 {
            return faults.note(true, Unsound::QueueLength(kind));
        }
        let numbers: Vec<u64> = queue.waiting().iter().map(|w| w.number).collect();
        for (i, &n) in numbers.iter().enumerate() {
            faults.note(numbers[..i].contains(&n), Unsound::QueuedTwice(kind));
            if n == STORE || n > self.highest {
                faults.note(true, Unsound::QueuedNobody(kind));
                continue;
            }
            faults.note(!self.action(n).is_live(), Unsound::QueuedNotLive(kind));
            faults.note(self.action(n).kind() != kind, Unsound::QueuedOfOther(kind));
            faults.note(self.has_live_child(n), Unsound::QueuedChildLive(kind));
        }
    }
}
