//! A table of the second engine: every action that was ever started, and which of them the numbers name.

use crate::action::{Action, Parent, Place, Read, State};
use crate::cause;
use crate::header::{ACCOUNTS, ACTIONS};
use crate::model::{Figures, Version, MOST_COUNTED, NO_FIGURES, STORE};
use crate::newest::Newest;
use crate::queue::Queue;
use crate::rule::Rule;
use crate::times::{EndTime, Kind, Times, KINDS};

#[derive(Clone, PartialEq, Eq, Debug)]
pub struct Table {
    pub rule: Rule,
    /// The highest number given so far; in a lent table any word.
    pub highest: u64,
    pub counters: Times,
    /// The totals of the topactions that committed, together.
    pub kept: Figures,
    /// The newest end times of the topactions that committed.
    pub newest: Newest,
    /// The queue of each kind, in the order of `KINDS`.
    pub queues: [Queue; KINDS.len()],
    /// In the order of the starts, first those that a lent table shows, by number. Nobody is ever taken out.
    actions: Vec<Action>,
    /// The place of the action that a number names, that of number 1 first.
    holders: Vec<Place>,
}

impl Table {
    pub fn new(rule: Rule) -> Table {
        let (newest, queues) = (Newest::none(Kind::Top), KINDS.map(|_| Queue::new()));
        Table::lent(rule, 0, Times::ZERO, NO_FIGURES, newest, queues, Vec::new())
    }

    /// The new table that an opening under a rule of this number makes, and the opening's cause.
    pub fn opened(number: u64) -> (u64, Table) {
        match Rule::of(number) {
            Rule::Unknown(_) => (cause::NO_RULE, Table::new(Rule::Backward)),
            rule => (cause::NONE, Table::new(rule)),
        }
    }

    /// A table whose rows show these actions, by number: as many as the highest number says, if there is room for them.
    pub fn lent(
        rule: Rule,
        highest: u64,
        counters: Times,
        kept: Figures,
        newest: Newest,
        queues: [Queue; KINDS.len()],
        actions: Vec<Action>,
    ) -> Table {
        let holders = (0..actions.len()).map(Place).collect();
        Table { rule, highest, counters, kept, newest, queues, actions, holders }
    }

    // ---- actions and numbers

    /// The action that a number names.
    pub fn action(&self, n: u64) -> &Action {
        self.at(self.holder(n))
    }

    pub fn action_mut(&mut self, n: u64) -> &mut Action {
        let place = self.holder(n);
        self.at_mut(place)
    }

    pub fn holder(&self, n: u64) -> Place {
        self.holders[n as usize - 1]
    }

    pub fn at(&self, place: Place) -> &Action {
        &self.actions[place.0]
    }

    pub fn at_mut(&mut self, place: Place) -> &mut Action {
        &mut self.actions[place.0]
    }

    /// Every action that was ever started.
    pub fn ever(&self) -> &[Action] {
        &self.actions
    }

    /// The actions that have their numbers, by number.
    pub fn held(&self) -> impl Iterator<Item = &Action> {
        self.holders.iter().map(|&place| self.at(place))
    }

    pub fn is_held(&self, place: Place) -> bool {
        self.holder(self.at(place).number) == place
    }

    pub fn live(&self) -> impl Iterator<Item = &Action> {
        self.held().filter(|a| a.is_live())
    }

    /// What a number says as a parent.
    pub fn parent_named(&self, n: u64) -> Parent {
        match n {
            STORE => Parent::Store,
            _ => Parent::Action(self.holder(n)),
        }
    }

    /// The number of the store, or of a parent that is held.
    pub fn number_of(&self, parent: Parent) -> u64 {
        parent.place().map_or(STORE, |place| self.at(place).number)
    }

    pub fn is_store_or_live(&self, parent: Parent) -> bool {
        match parent {
            Parent::Store => true,
            Parent::Action(place) => self.at(place).is_live(),
            Parent::Nobody | Parent::Unknown(_) => false,
        }
    }

    /// An action's parent as a number: its own where the parent has lost its number, or was nobody.
    pub fn parent_number(&self, a: &Action) -> u64 {
        match a.parent {
            Parent::Store => STORE,
            Parent::Action(place) if self.is_held(place) => self.at(place).number,
            Parent::Action(_) | Parent::Nobody => a.number,
            Parent::Unknown(word) => word,
        }
    }

    /// Whether an action has lost its parent, or never had one.
    pub fn is_orphan(&self, a: &Action) -> bool {
        self.parent_number(a) == a.number
    }

    /// Gives the number, which is free, to a new action.
    pub fn give(&mut self, number: u64, parent: Parent) {
        let place = Place(self.actions.len());
        self.actions.push(Action::new(number, parent));
        match self.holders.get_mut(number as usize - 1) {
            Some(holder) => *holder = place,
            None => self.holders.push(place),
        }
        self.highest = self.highest.max(number);
    }

    /// Takes the last start back, where it was given the number of the action at this place: it names that action
    /// again.
    pub fn take_back(&mut self, before: Place) {
        let number = self.at(before).number;
        let last = self.holder(number);
        if last != before {
            self.actions.truncate(last.0);
            self.holders[number as usize - 1] = before;
        }
    }

    // ---- needed and free (docs/RULES.md, 1.11)

    /// The lowest number that is free.
    pub fn free_number(&self) -> Option<u64> {
        (1..=ACTIONS as u64).find(|&n| n > self.highest || self.is_free(n))
    }

    /// Of a number that was given.
    fn is_free(&self, n: u64) -> bool {
        !self.action(n).is_live() && !self.is_needed(self.action(n))
    }

    /// Whether it is a record that is needed: of the store or of a live action, and somebody who is live below has read
    /// before its end.
    pub fn is_needed(&self, record: &Action) -> bool {
        let holds = |x: &Action| x.has_read_before(record.end) && self.is_below(x, record.parent);
        record.is_writer() && self.is_store_or_live(record.parent) && self.live().any(holds)
    }

    // ---- up the parents, from live actions

    /// An action and those above it. It comes to an end for every live action of a sound table.
    pub fn upwards<'a>(&'a self, from: &'a Action) -> impl Iterator<Item = &'a Action> {
        std::iter::successors(Some(from), |a| Some(self.at(a.parent.place()?)))
    }

    /// The places of an action's parent and of those further up, whatever the table: no more than there are actions.
    pub fn places_above(&self, a: &Action) -> impl Iterator<Item = Place> + '_ {
        std::iter::successors(a.parent.place(), |&place| self.at(place).parent.place()).take(ACTIONS)
    }

    pub fn is_below(&self, a: &Action, parent: Parent) -> bool {
        parent == Parent::Store || self.upwards(a).any(|b| b.parent == parent)
    }

    /// Whether it is above itself, whatever the table. One that is its own parent is not: it has none.
    pub fn is_in_ring(&self, a: &Action) -> bool {
        self.places_above(a).any(|place| self.at(place).number == a.number)
    }

    /// Whether so many moves lead to the store, whatever the table.
    pub fn climbs(&self, from: &Action, moves: usize) -> bool {
        self.upwards(from).take(moves).any(|a| a.parent == Parent::Store)
    }

    /// Climbs from an action to the first that has the account's card, and counts its moves; the last may be to the
    /// store.
    pub fn nearest(&self, n: u64, account: usize) -> Version {
        let mut moves = 0;
        for a in self.upwards(self.action(n)) {
            if a.has_card(account) {
                return Version { holder: a.number, moves };
            }
            moves += 1;
        }
        Version { holder: STORE, moves }
    }

    /// What an action and all above it have pending for a charge account, together.
    pub fn pending_above(&self, n: u64, charge: usize) -> i128 {
        self.upwards(self.action(n)).map(|a| i128::from(a.pending[charge])).sum()
    }

    pub fn has_live_child(&self, n: u64) -> bool {
        let parent = self.parent_named(n);
        self.live().any(|a| a.parent == parent)
    }

    // ---- queues

    pub fn queue(&self, kind: Kind) -> &Queue {
        &self.queues[kind as usize]
    }

    pub fn queue_mut(&mut self, kind: Kind) -> &mut Queue {
        &mut self.queues[kind as usize]
    }

    /// The queue of an action's kind.
    pub fn queue_of(&self, n: u64) -> &Queue {
        self.queue(self.action(n).kind())
    }

    pub fn queue_of_mut(&mut self, n: u64) -> &mut Queue {
        self.queue_mut(self.action(n).kind())
    }

    /// Whether counter and queue of a kind have come to their most.
    pub fn is_counted_out(&self, kind: Kind) -> bool {
        self.counters.number(kind) + self.queue(kind).length >= MOST_COUNTED
    }

    /// Whether it waits in either queue.
    pub fn is_queued(&self, n: u64) -> bool {
        self.queues.iter().any(|queue| queue.is_queued(n))
    }

    // ---- verdicts

    /// What the table's rule finds against a commit, as the two numbers of the answer; none where it passes.
    pub fn found_against(&self, n: u64) -> Option<(u64, u64)> {
        match self.rule {
            Rule::Backward => self.first_clash(n).map(|(end, account)| (end.number(), account)),
            Rule::Forward => self.first_reader_ahead(n),
            Rule::Unknown(_) => unreachable!("a sound table is under a rule"),
        }
    }

    /// The first clash: by end time, then by account, with any record that the very parent has ever had, so that none
    /// that was dropped is missed. The records are of one kind, so their end times are compared.
    pub fn first_clash(&self, n: u64) -> Option<(EndTime, u64)> {
        let me = self.action(n);
        let mut first = None;
        for b in self.ever() {
            if b.state != State::Committed || b.parent != me.parent {
                continue;
            }
            for k in 0..ACCOUNTS {
                let read_before = matches!(me.reads[k], Read::At(times) if b.end.is_after(times));
                let clash = (b.end, k as u64);
                if b.writes[k] != 0 && read_before && first.is_none_or(|f| clash < f) {
                    first = Some(clash);
                }
            }
        }
        first
    }

    /// Whether an action that enters its queue now has failed: for a clash, or for what a queued sibling has written.
    pub fn fails_at_enter(&self, n: u64) -> bool {
        let me = self.action(n);
        let meets = |b: &Action| b.parent == me.parent && (0..ACCOUNTS).any(|k| b.writes[k] != 0 && me.has_read(k));
        self.first_clash(n).is_some() || self.queue_of(n).waiting().iter().any(|w| meets(self.action(w.number)))
    }
}
